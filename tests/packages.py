#!/usr/bin/env python3
"""Says which of Debian's packages that the tools and tests use are not installed, and the command that installs all.
The status is 0.

Usage: tests/packages.py
"""

import functools
import shutil
import subprocess
import sys
from pathlib import Path

# Each package, and what it gives: a program, a module of Debian's Python, or a file.
PROGRAMS = {
    "chromium": "chromium", "chromium-driver": "chromedriver", "clang": "clang", "csmith": "csmith", "g++": "g++",
    "gcc": "cc", "gcc-riscv64-unknown-elf": "riscv64-unknown-elf-gcc", "lld": "ld.lld", "llvm": "llvm-ar",
    "help2man": "help2man", "mypy": "mypy", "snakemake": "snakemake",
}
MODULES = {"python3-jsonschema": "jsonschema", "python3-matplotlib": "matplotlib", "python3-pyelftools": "elftools",
           "python3-selenium": "selenium", "python3-unicorn": "unicorn"}
FILES = {
    "libcsmith-dev": "/usr/include/csmith/csmith.h", "llvm-14-dev": "/usr/lib/llvm-14/include/llvm/Pass.h",
    "picolibc-riscv64-unknown-elf": "/usr/lib/picolibc/riscv64-unknown-elf/lib/rv32i/ilp32/libc.a",
}
DEBIANS = "/usr/bin/python3"
INSTALL = " ".join(["apt-get", "install", *sorted([*PROGRAMS, *MODULES, *FILES])])


@functools.cache
def has_module(name: str) -> bool:
    """Whether a module can be imported: by Debian's Python, by which the tools are run anew or whose folder they look
    in, or by this one."""
    words = [[python, "-c", f"import {name}"] for python in dict.fromkeys([sys.executable, DEBIANS])
             if Path(python).exists()]
    return any(subprocess.run(call, capture_output=True, check=False).returncode == 0 for call in words)


def missing() -> list[str]:
    """The packages that aren't installed."""
    return sorted([package for package, program in PROGRAMS.items() if not shutil.which(program)]
                  + [package for package, name in MODULES.items() if not has_module(name)]
                  + [package for package, path in FILES.items() if not Path(path).is_file()])


def main() -> None:
    lacks = missing()
    if lacks:
        print(f"not installed: {' '.join(lacks)}; what needs them is left out. {INSTALL}")
    else:
        print("all packages that the tests use are installed")


if __name__ == "__main__":
    main()
