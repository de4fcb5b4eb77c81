#!/usr/bin/python3
"""Measures kbfeed-collect over many sources.

collect_many.py ADDRESS COUNT SECONDS

ADDRESS is that of vendors.py, whose folder has the file list. Writes sources.toml with COUNT sources in this folder,
and has them published. Then all are visited again on the next day. Prints the table's last line of both runs, and
that the second took at most SECONDS, or how long it took. With VERBOSE set, prints the seconds of both."""
import os
import pathlib
import subprocess
import sys
import time

HERE = pathlib.Path(__file__).resolve().parent


def main():
    address, count, most = sys.argv[1], int(sys.argv[2]), float(sys.argv[3])
    sources = [f'[[source]]\npackage = "Package_{at}"\nurl = "{address}/file/list"\n' for at in range(count)]
    pathlib.Path("sources.toml").write_text(f'folder = "{pathlib.Path.cwd()}/lists"\n' + "".join(sources), "ascii")
    for day in ["2026-01-05", "2026-01-06"]:
        began = time.monotonic()
        run = subprocess.run([sys.executable, HERE / "collect_on.py", day, "--config", "sources.toml"],
                             stdout=subprocess.PIPE, text=True, check=False)
        seconds = time.monotonic() - began
        print(run.stdout.splitlines()[-1])
        if os.environ.get("VERBOSE"):
            print(f"{seconds:.1f} s")
    print("in time" if seconds <= most else f"{seconds:.1f} s, more than {most}")


if __name__ == "__main__":
    main()
