#!/usr/bin/env python3
"""Stands in for the toolchain's command in sessions of tools that only read its lines.

`rt ci` at the top of a repository proves the crates of crates.txt in 2 s each, and makes an empty file of a program. A
line that takes a limit from another one is not proved."""
import pathlib
import re
import sys
import time


def need(_crate):
    """Returns the memory that a proof may take, in bytes."""
    return 0


def main(words):
    if words != ["ci"]:
        print(f"standing_rt.py: {' '.join(words)}: it knows ci alone", file=sys.stderr)
        return 2
    crates = re.findall(r"^(\w+):", pathlib.Path("crates.txt").read_text(), re.M)
    for passed, crate in enumerate(crates):
        time.sleep(2)
        folder = pathlib.Path("crates", crate)
        print(f"== {crate}", flush=True)
        for file in sorted(folder.glob("src/*.rt")):
            for number, line in enumerate(file.read_text().splitlines(), 1):
                if "_LIMIT - " in line:
                    print(f"note: src/{file.name}:{number}:1: the difference may be below 0")
                    print(f"rt: {crate} NOT PROVED", f"rt: FAILED: {crate}", f"{passed} passed, 1 failed", sep="\n")
                    return 1
        print(f"rt: {crate} proved", flush=True)
        if (folder / "src/main.rt").exists():
            (folder / "out").mkdir(exist_ok=True)
            (folder / "out" / crate).touch()
    print(f"{len(crates)} passed, 0 failed")
    return 0


if __name__ == "__main__":
    sys.exit(main(sys.argv[1:]))
