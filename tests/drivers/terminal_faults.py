#!/usr/bin/env python3
"""Runs a command whose standard error is a terminal, and prints what was written there.

terminal_faults.py LINES WORD..

The standard output of the command goes to the file LINES. Carriage returns are printed as <return>, each at the start
of a line, and the sequence that clears a line as <clear>. Ends with the status of the command."""
import os
import pty
import subprocess
import sys


def shown(screen):
    """Everything written to a terminal until nobody has it open."""
    parts = []
    try:
        while part := os.read(screen, 65_536):
            parts.append(part)
    except OSError:
        pass
    return b"".join(parts).decode()


def main():
    screen, terminal = pty.openpty()
    with open(sys.argv[1], "wb") as lines, subprocess.Popen(sys.argv[2:], stdout=lines, stderr=terminal) as running:
        os.close(terminal)
        text = shown(screen)
    text = text.replace("\r\n", "\n").replace("\x1b[K", "<clear>").replace("\r", "\n<return>")
    print(text.strip("\n"), end="\n" if text else "")
    return running.returncode


if __name__ == "__main__":
    sys.exit(main())
