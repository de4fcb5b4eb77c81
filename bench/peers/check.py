#!/usr/bin/env python3
"""check.py FILE: checks a list of serials as `kbfeed check` does, by Python's csv module."""
import os
import sys

import kbart


def main():
    path = sys.argv[1]
    print("release", os.path.basename(path))
    rows, aside = 0, []
    try:
        for number, reason in kbart.records_of(path):
            if reason:
                aside.append(f"aside {number} {reason}\n")
            else:
                rows += 1
    except kbart.Bad as bad:
        print("broken", bad)
        sys.exit(1)
    sys.stdout.write("".join([f"rows {rows} aside {len(aside)}\n", *aside]))


if __name__ == "__main__":
    main()
