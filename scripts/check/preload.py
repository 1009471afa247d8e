"""A library of a few lines of C that stands in front of the C library's calls in a program that is run."""
import os
import subprocess
import sys

sys.path.insert(0, os.path.join(os.path.dirname(os.path.dirname(os.path.abspath(__file__))), "build"))
import toolchain  # pylint: disable=wrong-import-position


def made(folder, text):
    """Returns the library of this text, made in this folder by the kit's clang."""
    source, library = f"{folder}/front.c", f"{folder}/front.so"
    with open(source, "w", encoding="utf-8") as file:
        file.write(text)
    linker = f"-fuse-ld={toolchain.tool('toolchain/bin/ld.lld')}"
    subprocess.run([toolchain.tool("toolchain/bin/clang"), "-O1", "-fPIC", "-ffreestanding", "-shared", "-nostdlib", linker, "-o", library, source], check=True)
    return library
