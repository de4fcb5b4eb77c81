#!/usr/bin/env python3
"""Prints the system calls in a log of strace that the filter of a systemd service denies, or `none`.

denied_calls.py UNIT LOG

The sets of calls are those that `systemd-analyze syscall-filter` prints."""
import re
import subprocess
import sys


def sets():
    """The calls of each set by its name. A set may name other sets, which are printed too."""
    text = subprocess.run(["systemd-analyze", "syscall-filter"], stdout=subprocess.PIPE, text=True, check=True).stdout
    named, found = {}, {}
    for line in text.splitlines():
        if line.startswith("@"):
            members = named.setdefault(line.strip(), [])
        elif re.match(r"\s+[@\w]", line):
            members.append(line.strip())

    def calls(name):
        if name not in found:
            found[name] = {it for member in named[name] for it in (calls(member) if member[0] == "@" else [member])}
        return found[name]

    return {name: calls(name) for name in named}


def main():
    unit, log = sys.argv[1:]
    known, allowed = sets(), set()
    for value in re.findall(r"^SystemCallFilter=(.*)$", open(unit, encoding="utf-8").read(), re.M):
        for word in value.lstrip("~").split():
            calls = known[word] if word[0] == "@" else {word}
            allowed = allowed - calls if value[0] == "~" else allowed | calls
    used = set(re.findall(r"^(?:\d+ +)?(\w+)\(", open(log, encoding="utf-8", errors="replace").read(), re.M))
    print(" ".join(sorted(used - allowed)) or ("none" if used else "the log has no calls"))


if __name__ == "__main__":
    main()
