"""More of the Rattle kit than the commands of `rt` that its pages promise: its LLVM tools, and its own Python, with which tools/lanes
proves crates side by side.

These are what they are in the kits of MADE_FOR, with which the tools here were tried. With another kit the tools go by the commands
alone, which takes longer, and say so."""
import functools
import importlib.machinery
import importlib.util
import os
import subprocess
import sys

MADE_FOR = "rattle-kit-13b logic dac8208d650f15bf", "rattle-kit-13f logic dac8208d650f15bf"
RT = os.environ.get("RT", "rt")


@functools.lru_cache(maxsize=None)
def said(word):
    """What `rt WORD` prints."""
    try:
        return subprocess.run([RT, word], stdout=subprocess.PIPE, text=True, check=True).stdout.strip()
    except (OSError, subprocess.CalledProcessError):
        sys.exit(f"tools/lib/kit.py: `{RT} {word}` doesn't run: put the directory of Rattle's command rt on the PATH, or name it by RT")


def folder():
    """The kit's folder."""
    return os.path.dirname(said("doc"))


@functools.lru_cache(maxsize=None)
def is_tried():
    """Whether this is a kit of MADE_FOR; says so where it isn't."""
    found = said("version")
    if found not in MADE_FOR:
        print(
            f"{os.path.relpath(sys.argv[0])}: it was tried with {' and '.join(MADE_FOR)}, and `{RT}` is {found}: crates are proved one after the other, "
            "by its commands alone. Once all works and is quick with its Python too, put it into MADE_FOR of tools/lib/kit.py",
            flush=True,
        )
    return found in MADE_FOR


@functools.lru_cache(maxsize=None)
def tool():
    """The kit's `rt`, as a module; `rtlib` in it has the crates. Only of a kit that was tried."""
    sys.dont_write_bytecode = True
    loader = importlib.machinery.SourceFileLoader("kit_rt", f"{folder()}/bin/rt")
    made = importlib.util.module_from_spec(importlib.util.spec_from_loader("kit_rt", loader))
    loader.exec_module(made)
    return made


def llvm(name, *words, **how):
    """Runs a tool of LLVM, such as llvm-ar: the kit has them as one program, which goes by the name that it is called by."""
    program = f"{folder()}/toolchain/bin/clang"
    if not os.path.exists(program):
        sys.exit(f"{os.path.relpath(sys.argv[0])}: the kit {said('version')} has no {program}, whose {name} makes the library")
    return subprocess.run([name, *words], executable=program, check=True, **how)
