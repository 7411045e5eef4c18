#!/usr/bin/env python3
"""Stands in for the compiler and the linker of the kit (tests/cases/compiled), under which `rt try` compiles a program at -O0: does what they do, and makes
the same program at -O3 too. It is called by the name of the tool, beside a folder `real` with the tools themselves and a folder `kept`. The programs that
are linked are kept there as NUMBER-O0 and NUMBER-O3, and kept/linked has a line with each number, in the order in which they were asked for."""
import hashlib
import os
import shutil
import subprocess
import sys
import tempfile
from typing import List

HERE = os.path.dirname(os.path.abspath(sys.argv[0]))
KEPT = os.path.join(HERE, "kept")
TOOL, WORDS = os.path.basename(sys.argv[0]), sys.argv[1:]


def real(words: List[str], folder: str = ".") -> int:
    return subprocess.run([os.path.join(HERE, "real", TOOL), *words], cwd=folder, check=False).returncode


def other(path: str) -> str:
    """Where the -O3 form of an object file is kept."""
    with open(path, "rb") as file:
        return os.path.join(KEPT, hashlib.sha256(file.read()).hexdigest() + ".o")


def compile_both() -> int:
    status = real(WORDS)
    if status == 0 and "-O0" in WORDS and "-c" in WORDS:
        made = WORDS[WORDS.index("-o") + 1]
        status = real([{"-O0": "-O3", made: made + "-O3"}.get(word, word) for word in WORDS])
        if status == 0:
            shutil.move(made + "-O3", other(made))
    return status


def link_both() -> int:
    status = real(WORDS)
    if status != 0:
        return status
    with open(os.path.join(KEPT, "linked"), "a+", encoding="ascii") as file:
        file.seek(0)
        number = len(file.read().split())
        file.write(f"{number}\n")
    made = WORDS[WORDS.index("-o") + 1]
    shutil.copy(made, os.path.join(KEPT, f"{number}-O0"))
    with tempfile.TemporaryDirectory() as room:
        for word in WORDS:
            if not os.path.isabs(word) and os.path.isfile(word) and word != made:
                shutil.copy(other(word) if os.path.exists(other(word)) else word, os.path.join(room, word))
        status = real(WORDS, room)
        if status == 0:
            shutil.copy(os.path.join(room, made), os.path.join(KEPT, f"{number}-O3"))
    return status


sys.exit({"clang": compile_both, "ld.lld": link_both}.get(TOOL, lambda: real(WORDS))())
