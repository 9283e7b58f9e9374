#!/usr/bin/env python3
"""wheels.py FOLDER [LIBRARY]: writes the wheel of this package to a folder, and prints its name. It needs no network and nothing beside Python.

With a C compiler (CC) the wheel has _lanes.c compiled. With LIBRARY, the shared library, it has that too, so that nothing else has to be
installed. The same files and compiler make the same wheel, byte for byte: the time in it is SOURCE_DATE_EPOCH, or that of the format's beginning.

`pip install` builds the package by build_wheel, so that it needs no network either."""
import base64
import hashlib
import os
import platform
import re
import shutil
import subprocess
import sys
import sysconfig
import tempfile
import time
import zipfile

HERE = os.path.dirname(os.path.abspath(__file__))
INCLUDE = os.path.join(HERE, "..", "..", "include")


def read(name):
    with open(os.path.join(HERE, name), "rb") as it:
        return it.read()


def described(key):
    """What pyproject.toml says of the project. (tomllib is of Python 3.11 and later.)"""
    return re.search(rf'(?m)^{key} = "(.*)"$', read("pyproject.toml").decode())[1]


def compiled():
    """_lanes.c compiled, or None where there is no compiler or no header."""
    compiler = os.environ.get("CC", "cc")
    if os.name != "posix" or not shutil.which(compiler) or not os.path.isdir(INCLUDE):
        return None
    with tempfile.TemporaryDirectory() as room:
        words = [compiler, "-std=c99", "-O2", "-Wall", "-Wextra", "-Werror", "-shared", "-fPIC", "-I", INCLUDE, "-x", "c", "-", "-o", f"{room}/it"]
        done = subprocess.run(words, input=read("larboardyuzu/_lanes.c"), capture_output=True, check=False)
        if done.returncode:
            print(f"wheels.py: _lanes.c isn't compiled: {done.stderr.decode(errors='replace')}", file=sys.stderr)
            return None
        return read(f"{room}/it")


def files(library):
    """The files of the package in the wheel, by name."""
    folder = os.path.join(HERE, "larboardyuzu")
    found = {f"larboardyuzu/{it}": read(f"larboardyuzu/{it}") for it in sorted(os.listdir(folder)) if it.endswith((".py", ".typed", ".c"))}
    lanes = compiled()
    if lanes is not None:
        found["larboardyuzu/_lanes.so"] = lanes
    if library is not None:
        found["larboardyuzu/liblarboardyuzu.so"] = read(os.path.abspath(library))
    return found


def least_glibc(binaries):
    """The least version of glibc that has all that these ask for."""
    asked = {tuple(map(int, it.split(b"."))) for data in binaries for it in re.findall(rb"\0GLIBC_(\d+\.\d+)", data)}
    return max(asked, default=(2, 5))


def platform_of(found):
    """The wheel's tag of the platform: any without compiled files, and otherwise this machine's."""
    binaries = [data for name, data in found.items() if name.endswith(".so")]
    if not binaries:
        return "any"
    machine = sysconfig.get_platform().replace("-", "_").replace(".", "_")
    if not machine.startswith("linux_") or platform.libc_ver()[0] != "glibc":
        return machine
    major, minor = max(least_glibc(binaries), (2, 5))
    return f"manylinux_{major}_{minor}_{machine.removeprefix('linux_')}"


def described_in(info, tag):
    """The files that describe the wheel, by name."""
    head = {"Metadata-Version": "2.1", "Name": described("name"), "Version": described("version"), "Summary": described("description"),
            "Requires-Python": described("requires-python"), "Description-Content-Type": "text/markdown"}
    metadata = "".join(f"{key}: {value}\n" for key, value in head.items()) + "\n" + read("README.md").decode()
    is_pure = "true" if tag.endswith("-any") else "false"
    wheel = f"Wheel-Version: 1.0\nGenerator: wheels.py\nRoot-Is-Purelib: {is_pure}\nTag: {tag}\n"
    return {f"{info}/METADATA": metadata.encode(), f"{info}/WHEEL": wheel.encode()}


def record(found):
    lines = [f"{name},sha256={base64.urlsafe_b64encode(hashlib.sha256(data).digest()).rstrip(b'=').decode()},{len(data)}\n" for name, data in found.items()]
    return "".join(lines)


def write_wheel(folder, library=None):
    """Writes the wheel, and returns its name."""
    found = files(library)
    name, tag = f"{described('name')}-{described('version')}", f"py3-none-{platform_of(found)}"
    info = f"{name}.dist-info"
    found.update(described_in(info, tag))
    found[f"{info}/RECORD"] = (record(found) + f"{info}/RECORD,,\n").encode()
    when = time.gmtime(max(int(os.environ.get("SOURCE_DATE_EPOCH", "0")), 315532800))[:6]
    with zipfile.ZipFile(os.path.join(folder, f"{name}-{tag}.whl"), "w", zipfile.ZIP_DEFLATED) as wheel:
        for path, data in found.items():
            entry = zipfile.ZipInfo(path, when)
            entry.external_attr = (0o755 if path.endswith(".so") else 0o644) << 16
            entry.compress_type = zipfile.ZIP_DEFLATED
            wheel.writestr(entry, data)
    return f"{name}-{tag}.whl"


def build_wheel(wheel_directory, config_settings=None, metadata_directory=None):  # noqa: ARG001, as PEP 517 has it
    """What pip calls. The package loads the library of the system, unless LARBOARDYUZU_LIBRARY, an absolute path, names one to put in."""
    return write_wheel(wheel_directory, os.environ.get("LARBOARDYUZU_LIBRARY") or None)


def main(words):
    if len(words) not in (1, 2):
        print(__doc__, file=sys.stderr)
        return 2
    print(write_wheel(*words))
    return 0


if __name__ == "__main__":
    sys.exit(main(sys.argv[1:]))
