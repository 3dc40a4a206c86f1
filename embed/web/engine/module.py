#!/usr/bin/env python3
"""Has the kit compile crates/terra_c once more, and keeps the LLVM module from which it makes a library.

    module.py OUT.bc

The library has to be proved and built already (`rt lib` in crates/terra_c): this takes its kept work. The kit hands
the module to the clang of its toolchain, so it gets a toolchain whose clang is a script that keeps a copy. The module
is for the plainest x86-64, so that it has no instruction of that processor alone.
"""
import os
import re
import shutil
import subprocess
import sys
import tempfile

TOP = os.path.realpath(os.path.join(os.path.dirname(__file__), "..", "..", ".."))
KIT = os.path.dirname(os.path.dirname(os.path.realpath(shutil.which("rt") or sys.exit("rt isn't on the path"))))
CRATE = "terra_c"
CLANG = """#!/bin/sh
case " $* " in *" -x ir module.bc "*) cp module.bc '{kept}' ;; esac
exec '{clang}' "$@"
"""


def libraries():
    """Each crate of crates.txt with the names of the libraries that it uses."""
    rows = {}
    with open(f"{TOP}/crates.txt", encoding="utf-8") as lines:
        for line in lines:
            words = re.fullmatch(r"(\w+)[^:]*(?::(.*))?", line.partition("#")[0].strip())
            if words:
                rows[words[1]] = (words[2] or "").split()
    return rows


def below(name, rows, found):
    for used in rows.get(name, []):
        if used in rows and used not in found:
            below(used, rows, found)
            found.append(used)
    return found


def words(rows):
    built = lambda name: f"{TOP}/crates/{name}/out/rlib"
    kit = lambda name: f"{KIT}/rlibs/{name}.rlib"
    yield from ("--crate-name", CRATE, "src/lib.rt", "--crate-type", "staticlib", "--cpu=x86-64", "--backend", "llvm")
    for name in ("std", *rows[CRATE]):
        yield from ("--extern", f"{name}={built(name)}/{name}.rlib" if name in rows else f"{name}={kit(name)}")
    for folder in (f"{KIT}/rlibs", *map(built, below(CRATE, rows, []))):
        yield from ("-L", f"dependency={folder}")
    yield from ("--antt-project", f"{KIT}/rattle/logic/antt-project.json", "--logic-built", f"{KIT}/logic_built")
    yield from ("--incremental", "out/incremental", "--links", f"{CRATE}=")


def main(kept):
    with tempfile.TemporaryDirectory(prefix="terra-web-") as room:
        tools = f"{room}/toolchain"
        os.makedirs(f"{tools}/bin")
        os.symlink(f"{KIT}/toolchain/lib", f"{tools}/lib")
        for tool in os.listdir(f"{KIT}/toolchain/bin"):
            if tool != "clang":
                os.symlink(f"{KIT}/toolchain/bin/{tool}", f"{tools}/bin/{tool}")
        with open(f"{tools}/bin/clang", "w", encoding="utf-8") as script:
            script.write(CLANG.format(kept=kept, clang=f"{KIT}/toolchain/bin/clang"))
        os.chmod(f"{tools}/bin/clang", 0o755)
        command = [f"{KIT}/bin/rattle", "build", *words(libraries()), "--toolchain", tools, "-o", f"{room}/library.a"]
        how = {"cwd": f"{TOP}/crates/{CRATE}", "stdout": subprocess.PIPE, "stderr": subprocess.STDOUT}
        ran = subprocess.run(command, text=True, **how)
    if ran.returncode or not os.path.isfile(kept):
        sys.exit(f"the kit gave no module of {CRATE}:\n{ran.stdout[-2000:]}")
    print(ran.stdout.strip().split("\n")[-1])


main(os.path.abspath(sys.argv[1]))
