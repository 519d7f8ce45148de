"""Makes the LLVM module of a program by the kit's `rt try`, and a program from a module. Neither proves anything."""
import os
import shutil
import subprocess
import sys

KIT = os.environ.get("KIT", "/opt/rattle")
TARGET = "x86_64-unknown-linux-gnu"
# As `rattle build` gives them.
FLAGS = f"""--target={TARGET} -march=x86-64 -mllvm -no-trap-after-noreturn -ffunction-sections -fdata-sections -mllvm -trap-unreachable
-mllvm -no-x86-call-frame-opt -mllvm -disable-machine-licm -mllvm -disable-postra-machine-licm -mllvm -sink-common-insts=false --no-default-config
-no-canonical-prefixes -fintegrated-cc1 -fno-crash-diagnostics -c -x ir -fPIE -O3 -Xclang -fmerge-functions -mllvm -mergefunc-use-aliases""".split()
TAKE = """#!/bin/sh
# Keeps the large module that it is given, and makes nothing of it.
for it in "$@"; do
    if [ -f "$it" ] && [ "$(stat -c %s "$it")" -gt 1000000 ]; then cp "$it" "{0}"; exit 1; fi
done
exec "{1}" "$@"
"""


def module_of(folder, room):
    """Writes the module of the program in a folder, with its run-time checks, to room/module.bc. Exits if there is none."""
    if not os.path.exists(f"{KIT}/bin/rt"):
        sys.exit(f"{KIT}/bin/rt does not exist: set KIT to the folder of the Rattle kit")
    os.makedirs(f"{room}/kit/bin")
    for it in os.listdir(KIT):
        if it not in ("bin", "toolchain"):
            os.symlink(f"{KIT}/{it}", f"{room}/kit/{it}")
    # rt takes the folder above its own file for the kit, so these two are copies.
    for it in os.listdir(f"{KIT}/bin"):
        (shutil.copy if it in ("rt", "rtlib.py") else os.symlink)(f"{KIT}/bin/{it}", f"{room}/kit/bin/{it}")
    shutil.copytree(f"{KIT}/toolchain", f"{room}/kit/toolchain", copy_function=os.symlink)
    os.remove(f"{room}/kit/toolchain/bin/clang")
    with open(f"{room}/kit/toolchain/bin/clang", "w", encoding="utf-8") as file:
        file.write(TAKE.format(f"{room}/module.bc", f"{KIT}/toolchain/bin/clang"))
    os.chmod(f"{room}/kit/toolchain/bin/clang", 0o755)
    said = subprocess.run([f"{room}/kit/bin/rt", "try"], cwd=folder, stdin=subprocess.DEVNULL, capture_output=True, text=True)
    if not os.path.exists(f"{room}/module.bc"):
        sys.exit(said.stdout + said.stderr)


def program_of(module, room):
    """Compiles a module of the folder room, and links it to room/program."""
    subprocess.run([f"{KIT}/toolchain/bin/clang", *FLAGS, module, "-o", "program.o"], cwd=room, check=True)
    words = [f"{KIT}/bin/rattle-link", "--target", TARGET, "--toolchain", f"{KIT}/toolchain", "-o", "program", "program.o"]
    subprocess.run([*words, f"{KIT}/c/libos_c.a", f"{KIT}/c/liblibc_c.a"], cwd=room, check=True, stderr=subprocess.DEVNULL)
    return f"{room}/program"
