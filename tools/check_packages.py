#!/usr/bin/env python3
"""check_packages.py all: tries `make install`, `make uninstall` and `make deb`, with what is built here, in empty folders.

What is installed has to run with no PATH, be readable by all whatever the umask is, and have pages whose links lead somewhere; once it is
removed, only what others put there is left; also over an older version, whose files are gone then. The packages have to be the same twice, have no error by lintian, and are installed and removed
again by dpkg in an empty root. What needs a tool or a library that isn't here is left out, with a line. The exit code is 1 if anything fails."""
import contextlib
import os
import re
import shutil
import subprocess
import sys
import tempfile

import built
import check_release
import check_shells
import release
from built import TOP
from check_release import WITHOUT_KIT, ran

INSTALLED = ["bin/larboardyuzu", "share/man/man1/larboardyuzu.1", "share/bash-completion/completions/larboardyuzu",
             "share/zsh/site-functions/_larboardyuzu", "share/fish/vendor_completions.d/larboardyuzu.fish",
             "share/doc/larboardyuzu/README.md", "share/doc/larboardyuzu/docs/setup.md", "share/doc/larboardyuzu/examples/endpoint.toml"]
LIBRARY = ["include/larboardyuzu.h", "include/larboardyuzu.hpp", "include/larboardyuzu_heap.h"]
CMAKE = ["larboardyuzuConfig.cmake", "larboardyuzuConfigVersion.cmake"]
SETUP = f"{TOP}/examples/endpoint.toml"
DPKG = ["dpkg", "--force-depends", "--force-architecture", "--force-not-root", "--log=/dev/null"]


def left_out(what, lacks):
    print(f"packages: {what}: left out, since there is no {lacks}", flush=True)


def has_library():
    return built.all_built()[1].is_there()


def files_in(folder):
    return sorted(os.path.relpath(f"{at}/{it}", folder) for at, _, names in os.walk(folder) for it in names)


def make(target, umask=0o022, **variables):
    words = ["make", "-s", "-C", TOP, target, *(f"{name}={value}" for name, value in variables.items())]
    done = subprocess.run(words, stdin=subprocess.DEVNULL, capture_output=True, text=True, umask=umask, check=False)
    return done.returncode, done.stdout + done.stderr


def check_modes(folder):
    for at, folders, names in os.walk(folder):
        for it in (f"{at}/{name}" for name in folders + names):
            mode = os.lstat(it).st_mode & 0o777
            if not os.path.islink(it) and mode not in ((0o755,) if os.path.isdir(it) else (0o644, 0o755)):
                yield f"{it} has the mode {mode:o}"


def check_links(folder):
    """The relative links of the pages, and the symbolic links. Pages for developers and auditors link to the sources, which a clone alone has."""
    for name in files_in(folder):
        if os.path.islink(f"{folder}/{name}") and not os.path.exists(f"{folder}/{name}"):
            yield f"{name} leads nowhere"
        if name.endswith(".md"):
            with open(f"{folder}/{name}", encoding="utf-8") as it:
                targets = re.findall(r"\]\((?!(?:\.\./)?crates/)([^)#:]+)(?:#[^)]*)?\)", it.read())
            yield from (f"{name} links to {to}" for to in sorted(set(targets))
                        if not os.path.exists(f"{folder}/{os.path.dirname(name)}/{to}"))


def check_linked(folder, prefix, libdir, room):
    """An example in C with the library that is installed in a folder, as pkg-config finds it."""
    lacks = next((it for it in ("cc", "pkg-config") if not shutil.which(it)), None)
    if lacks:
        left_out("an example in C", lacks)
        return
    env = {**WITHOUT_KIT, "PKG_CONFIG_PATH": f"{folder}{libdir}/pkgconfig", "PKG_CONFIG_SYSROOT_DIR": folder,
           "PKG_CONFIG_ALLOW_SYSTEM_CFLAGS": "1", "PKG_CONFIG_ALLOW_SYSTEM_LIBS": "1"}
    found = ran(["pkg-config", "--cflags", "--libs", "larboardyuzu"], env=env)
    if found[0] or f"-I{folder}{prefix}/include" not in found[1].decode().split():
        yield f"pkg-config: {found}"
        return
    made = ran(["cc", "-std=c11", f"{TOP}/examples/c/down.c", *found[1].decode().split(), "-o", f"{room}/down"], env=WITHOUT_KIT)
    with open(f"{TOP}/examples/c/expected/down", "rb") as it:
        wanted = it.read()
    if made[0] or (got := ran([f"{room}/down"], env={"LD_LIBRARY_PATH": f"{folder}{libdir}"})) != (0, wanted, b""):
        yield f"examples/c/down.c: {made if made[0] else got}"
    yield from (f"there is no {libdir}/cmake/larboardyuzu/{it}" for it in CMAKE if not os.path.isfile(f"{folder}{libdir}/cmake/larboardyuzu/{it}"))
    if not shutil.which("cmake"):
        left_out("CMake's find_package", "cmake")
        return
    place = f"-Dlarboardyuzu_DIR={folder}{libdir}/cmake/larboardyuzu"
    for kind in ("shared", "static"):
        build = f"{room}/cmake-{kind}"
        made = ran(["cmake", "-S", f"{TOP}/c/tests/cmake-installed", "-B", build, f"-DKIND={kind}", place], env=WITHOUT_KIT)
        made = made if made[0] else ran(["cmake", "--build", build], env=WITHOUT_KIT)
        if made[0] or (got := ran([f"{build}/down"], env={})) != (0, wanted, b""):
            yield f"find_package, {kind}: {made if made[0] else got}"


def check_completions(share):
    """The shells find the completions where they are installed, bash by the package bash-completion."""
    package = "/usr/share/bash-completion/bash_completion"
    loads = {"bash": f"BASH_COMPLETION_USER_DIR={share}/bash-completion; source {package}",
             "zsh": f"fpath=({share}/zsh/site-functions $fpath)", "fish": f"set -p fish_complete_path {share}/fish/vendor_completions.d"}
    if not os.path.isfile(package):
        left_out("completions as bash finds them", package)
        del loads["bash"]
    yield from check_shells.check(loads)


def check_installed(prefix, libdir):
    """Installs, tries and removes all below a prefix; others have put a file into each folder before."""
    with tempfile.TemporaryDirectory(prefix="larboardyuzu-install-") as room:
        place, wanted = f"{room}/place", INSTALLED + (LIBRARY if has_library() else [])
        variables = {"DESTDIR": place, "PREFIX": prefix, "LIBDIR": libdir}
        strangers = [f"{os.path.dirname(it)}/stranger" for it in wanted]
        for it in strangers:
            os.makedirs(os.path.dirname(f"{place}{prefix}/{it}"), exist_ok=True)
            os.close(os.open(f"{place}{prefix}/{it}", os.O_CREAT))
        before = files_in(place)
        code, said = make("install", 0o077, **variables)
        if code:
            yield f"make install: exit code {code}, {said}"
            return
        for it in (f"{place}{prefix}/{it}" for it in wanted):
            if not os.path.isfile(it) or not os.stat(it).st_mode & 0o004:
                yield f"make install doesn't write {it} so that all can read it"
        yield from check_modes(f"{place}{prefix}/libexec")
        yield from check_links(place)
        script = f"{place}{prefix}/bin/larboardyuzu"
        yield from check_release.tried(script, SETUP, room)
        yield from check_release.tried_help(script, room)
        yield from check_completions(f"{place}{prefix}/share")
        if has_library():
            yield from check_linked(place, prefix, libdir, room)
        code, said = make("uninstall", **variables)
        if code or files_in(place) != before:
            yield f"make uninstall: exit code {code}, {said}; left are {sorted(set(files_in(place)) - set(before))}"
        print(f"packages: installed below {prefix}, tried and removed", flush=True)


def check_folders():
    """A folder that doesn't begin with / is refused, and nothing is written."""
    for name, value in (("PREFIX", "relative/p"), ("PREFIX", "~/p"), ("LIBDIR", "lib"), ("DOCDIR", "./doc")):
        got = ran([f"{TOP}/tools/install.sh", "install", "program"], env={**WITHOUT_KIT, "DESTDIR": "/nonexistent", name: value})
        if got != (1, b"", f"install: {name}={value} has to begin with /\n".encode()):
            yield f"tools/install.sh with {name}={value}: {got}"


def last_commit_of(version):
    """The last commit with this version, or None where git doesn't have it."""
    changes = (release.git("log", "--format=%H", "--", "VERSION") or "").split()
    for newer, it in zip([None, *changes], changes):
        if (release.git("show", f"{it}:VERSION") or "").strip() == version:
            return f"{newer}^" if newer else it
    return None


def install_older(version, room, variables):
    """Installs an older version with its own tools/install.sh, and with stand-ins for what it has built; returns whether it is there."""
    commit, tree = last_commit_of(version), f"{room}/{version}"
    if commit is None:
        left_out(f"installing over {version}", "commit of it here")
        return False
    os.makedirs(f"{tree}/built")
    parts = ["README.md", "CONTRIBUTING.md", "CHANGELOG.md", "VERSION", "larboardyuzu", "crates.txt", "c", "docs", "completions", "include", "examples",
             "bindings", "tools"]
    parts = [it for it in parts if release.git("cat-file", "-e", f"{commit}:{it}") is not None]
    subprocess.run(f'git -C "{TOP}" archive "{commit}" {" ".join(parts)} | tar -x -C "{tree}"', shell=True, check=True)
    shutil.copy(built.all_built()[0].at(), f"{tree}/built/midi_tool")
    for it in ("liblarboardyuzu.a", f"liblarboardyuzu.so.{version}"):
        os.close(os.open(f"{tree}/built/{it}", os.O_CREAT))
    env = {**WITHOUT_KIT, **variables, "PROGRAM": f"{tree}/built/midi_tool", "LIBRARY": f"{tree}/built"}
    subprocess.run([f"{tree}/tools/install.sh", "install"], env=env, check=True, stdout=subprocess.DEVNULL)
    return True


def check_upgrade(version):
    """Installs over an older version: nothing of that is left but its shared library, and once this one is removed, nothing at all."""
    with tempfile.TemporaryDirectory(prefix="larboardyuzu-upgrade-") as room:
        variables = {"DESTDIR": f"{room}/place", "PREFIX": "/usr/local"}
        if not install_older(version, room, variables):
            return
        code, said = make("install", DESTDIR=f"{room}/alone", PREFIX="/usr/local")
        wanted = files_in(f"{room}/alone")
        stranger = f"{room}/place/usr/local/share/doc/larboardyuzu/stranger"
        os.close(os.open(stranger, os.O_CREAT))
        code, said = make("install", **variables)
        more = [it for it in files_in(f"{room}/place") if it not in wanted and not re.search(r"/liblarboardyuzu\.so\.[0-9.]+$|/stranger$", it)]
        # (without a library for C that of the older version stays)
        more = [it for it in more if has_library() or not it.startswith(("usr/local/include/", "usr/local/lib/"))]
        less = sorted(set(wanted) - set(files_in(f"{room}/place")))
        if code or more or less:
            yield f"make install over {version}: exit code {code}, {said}; left of it are {more}, and missing {less}"
        yield from check_release.tried(f"{room}/place/usr/local/bin/larboardyuzu", SETUP, room)
        again = make("install", **variables)
        code, said = make("uninstall", **variables)
        if again[0] or code or files_in(f"{room}/place") != [os.path.relpath(stranger, f"{room}/place")]:
            yield f"make uninstall after {version}: exit code {code}, {said}; left are {files_in(f'{room}/place')}"
        print(f"packages: installed over {version}, tried and removed", flush=True)


@contextlib.contextmanager
def empty_root():
    with tempfile.TemporaryDirectory(prefix="larboardyuzu-root-") as root:
        os.chmod(root, 0o755)
        os.makedirs(f"{root}/var/lib/dpkg/info")
        os.makedirs(f"{root}/var/lib/dpkg/updates")
        os.close(os.open(f"{root}/var/lib/dpkg/status", os.O_CREAT))
        yield root


def check_package(path, room):
    """Installs a package in an empty root, tries what it has, and removes it again."""
    name, _, processor = os.path.basename(path)[: -len(".deb")].split("_")
    with empty_root() as root:
        done = ran([*DPKG, f"--root={root}", "--install", path])
        if done[0]:
            yield f"{path}: dpkg --install ends with {done}"
            return
        wanted = LIBRARY + [f"lib/{'x86_64' if processor == 'amd64' else 'aarch64'}-linux-gnu/liblarboardyuzu.a"]
        if name == "larboardyuzu":
            wanted = ["bin/larboardyuzu", "share/man/man1/larboardyuzu.1.gz", "share/zsh/vendor-completions/_larboardyuzu"]
        wanted.append(f"share/doc/{name}/copyright")
        yield from (f"{path} has no {it}" for it in wanted if not os.path.isfile(f"{root}/usr/{it}"))
        yield from check_modes(f"{root}/usr")
        yield from check_links(root)
        if name == "larboardyuzu":
            yield from check_release.tried(f"{root}/usr/bin/larboardyuzu", SETUP, room)
            yield from check_release.tried_help(f"{root}/usr/bin/larboardyuzu", room)
        elif processor == "amd64":
            yield from check_linked(root, "/usr", "/usr/lib/x86_64-linux-gnu", room)
        done = ran([*DPKG, f"--root={root}", "--purge", f"{name}:{processor}"])
        left = [it for it in files_in(root) if not it.startswith("var/lib/dpkg/")]
        if done[0] or left:
            yield f"{path}: dpkg --purge ends with {done}; left are {left}"
    print(f"packages: {os.path.basename(path)} installed in an empty root, tried and removed", flush=True)


def check_lintian(path):
    """What lintian calls an error, except what the package says is so on purpose."""
    if not shutil.which("lintian"):
        left_out(f"{os.path.basename(path)} by lintian", "lintian")
        return
    done = ran(["lintian", path], env={**os.environ, "LC_ALL": "C.UTF-8"})
    yield from (f"{path}: lintian: {it}" for it in done[1].decode().splitlines() if it.startswith("E: "))


def check_debian():
    """The packages, made twice, with the second time another umask and later files."""
    lacks = next((it for it in ("dpkg-deb", "dpkg") if not shutil.which(it)), None)
    if lacks or os.geteuid():
        left_out("Debian's packages", lacks or "right to install (root)")
        return
    sums = []
    for umask in (0o022, 0o077):
        shutil.rmtree(f"{TOP}/out/deb", ignore_errors=True)
        code, said = make("deb", umask)
        if code:
            yield f"make deb: exit code {code}, {said}"
            return
        sums.append({it: release.sum_of_file(f"{TOP}/out/deb/{it}") for it in files_in(f"{TOP}/out/deb")})
    print(said, end="", flush=True)
    if sums[0] != sums[1] or not sums[0]:
        yield f"make deb twice makes {sums[0]} and {sums[1]}"
    with tempfile.TemporaryDirectory(prefix="larboardyuzu-deb-") as room:
        for it in sums[0]:
            yield from check_package(f"{TOP}/out/deb/{it}", room)
            yield from check_lintian(f"{TOP}/out/deb/{it}")


def main(words):
    if words != ["all"]:
        print(__doc__, file=sys.stderr)
        return 2
    if not has_library():
        left_out("the library for C", built.all_built()[1].path)
    failed = [*check_installed("/usr/local", "/usr/local/lib"), *check_installed("/opt/own", "/opt/lib64"),
              *check_upgrade("0.2.0"), *check_upgrade("0.3.0"), *check_folders(), *check_debian()]
    print(*failed, f"packages: {len(failed)} failed" if failed else "packages: all as they should", sep="\n")
    return 1 if failed else 0


if __name__ == "__main__":
    sys.exit(main(sys.argv[1:]))
