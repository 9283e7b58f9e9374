#!/usr/bin/env python3
"""machine.py KERNEL INPUTS PROGRAM FOLDER: makes the virtual machine's first file system, FOLDER.cpio, of what kernel.sh left in KERNEL."""
import glob
import lzma
import os
import re
import shutil
import subprocess
import sys

HERE = os.path.dirname(os.path.abspath(__file__))
MODULES = ["virtio-blk", "usbmon", "snd-seq", "snd-seq-midi", "snd-ump", "snd-seq-ump-client", "snd-usb-audio", "dummy-hcd", "libcomposite",
           "usb-f-midi2", "usb-f-midi"]


def module_files(kernel):
    """The file of each module: what is built here goes before what Debian has."""
    found = [*glob.glob(f"{kernel}/root/lib/modules/**/*.ko*", recursive=True), *glob.glob(f"{kernel}/modules/**/*.ko", recursive=True)]
    return {os.path.basename(it).split(".ko")[0].replace("_", "-"): it for it in found}


def read_module(path):
    with open(path, "rb") as it:
        return lzma.decompress(it.read()) if path.endswith(".xz") else it.read()


def add_module(files, name, folder, order):
    """Copies a module after those that it depends on."""
    if name in order:
        return
    data = read_module(files[name])
    for needed in re.search(rb"\0depends=([^\0]*)\0", data)[1].decode().split(","):
        if needed:
            add_module(files, needed.replace("_", "-"), folder, order)
    with open(f"{folder}/{name}.ko", "wb") as it:
        it.write(data)
    order.append(name)


def add_modules(kernel, folder):
    os.makedirs(folder)
    files, order = module_files(kernel), []
    for name in MODULES:
        add_module(files, name, folder, order)
    with open(f"{folder}/order", "w", encoding="utf-8") as it:
        it.write("".join(f"{name}\n" for name in order))


def add_program(path, folder, name):
    """Copies a program and the libraries that it loads."""
    shutil.copy(path, f"{folder}/{name}")
    for library in re.findall(r"(?:=> |^\t)(/\S+)", subprocess.run(["ldd", path], capture_output=True, text=True, check=False).stdout, re.M):
        os.makedirs(folder + os.path.dirname(library), exist_ok=True)
        shutil.copy(library, folder + library)


def add_amidi(kernel, folder):
    """amidi is of the kernel's folder, since this machine may have no ALSA."""
    root, libraries = f"{kernel}/root", f"{folder}/lib/x86_64-linux-gnu"
    os.makedirs(libraries, exist_ok=True)
    shutil.copy(f"{root}/usr/bin/amidi", f"{folder}/bin")
    shutil.copy(f"{root}/usr/lib/x86_64-linux-gnu/libasound.so.2", libraries)
    for name in ("libm.so.6", "libc.so.6"):
        where = subprocess.run(["gcc", f"-print-file-name={name}"], capture_output=True, text=True, check=True).stdout.strip()
        shutil.copy(where, libraries)
    shutil.copytree(f"{root}/usr/share/alsa", f"{folder}/usr/share/alsa")


def pack(kernel, folder):
    names = "\n".join(sorted(os.path.relpath(f"{at}/{it}", folder) for at, folders, files in os.walk(folder) for it in folders + files))
    packed = subprocess.run([os.path.abspath(f"{kernel}/root/bin/cpio"), "-o", "-H", "newc", "-R", "0:0", "--quiet"], cwd=folder,
                            input=names.encode(), stdout=subprocess.PIPE, check=True).stdout
    with open(f"{folder}.cpio", "wb") as it:
        it.write(packed)


def main(kernel, inputs, program, folder):
    shutil.rmtree(folder, ignore_errors=True)
    os.makedirs(f"{folder}/bin")
    add_modules(kernel, f"{folder}/modules")
    shutil.copy(f"{kernel}/root/bin/busybox", f"{folder}/bin")
    shutil.copy(f"{kernel}/peer", f"{folder}/bin")
    shutil.copytree(inputs, f"{folder}/inputs")
    shutil.copytree(f"{HERE}/guest", f"{folder}/guest")
    shutil.copy(f"{HERE}/guest/init", folder)
    os.chmod(f"{folder}/init", 0o755)
    add_program(program, folder, "program")
    add_amidi(kernel, folder)
    pack(kernel, folder)


if __name__ == "__main__":
    if len(sys.argv) != 5:
        sys.exit(__doc__)
    main(*sys.argv[1:])
