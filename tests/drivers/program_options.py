#!/usr/bin/env python3
"""Prints the commands and options of kbfeed, or its exit statuses, in sorted lines.

program_options.py SOURCE WHAT

SOURCE is `help`, which asks the kbfeed on the path, or the file of its manual page. WHAT is

  options    the commands, as `kbfeed check`, and each option after its command, as `kbfeed fetch --piece N`; an option
             of the program itself is not repeated for each command
  offers     the same for completions: without values, and with all options of each command
  statuses   the exit statuses, as `kbfeed 1`, and those of each command, as `kbfeed check 1`

In the manual page, an option counts if a list explains it. One that appears only elsewhere is printed as `kbfeed check
--other is not explained`."""
import pathlib
import re
import subprocess
import sys


def statuses_of(text):
    """The numbers in the sentence that says what the status is, and in the rest of its paragraph."""
    said = re.search(r"[Tt]he\s+status\s+is\s((?:.+\n?)*)", text)
    return set(re.findall(r"\b\d\b", said[1])) if said else set()


def help_of(*command):
    return subprocess.run(["kbfeed", "help", *command], stdout=subprocess.PIPE, text=True, check=True).stdout


def read_help():
    """The options and the statuses of each command by its name. That of the program itself is empty."""
    texts = {"": help_of()}
    texts.update((name, help_of(name)) for name in re.findall(r"^  ([a-z]+) ", texts[""], re.M))
    options = {}
    for name, text in texts.items():
        found = re.findall(r"^ +(?:(-\w), )?(--[a-z][a-z-]*)(?: <([\w:]+)>)?", text[text.rindex("Usage:"):], re.M)
        options[name] = {f"{it} {value}".strip() for short, long, value in found for it in (short, long) if it}
    statuses = {name: statuses_of(text) for name, text in texts.items()}
    statuses[""] = set().union(*statuses.values())
    return options, statuses


def parts_of(page):
    """The parts of the page, each with its section and the command that it is about."""
    for section, text in re.findall(r"^\.S[hs] (.*)\n((?:(?!\.S[hs] ).*\n)*)", page, re.M):
        if section == "SYNOPSIS":
            for part in text.split(".Nm\n")[1:]:
                yield section, "".join(re.findall(r"^\.Cm (\w+)", part)), part
        elif section == "EXAMPLES":
            for command, words in re.findall(r"\$ kbfeed (\w+)(.*)", text):
                yield section, command, re.sub(r" -(-?[A-Za-z])", r" Fl \1", words)
        else:
            yield section, section if section.islower() else "", text


def read_page(page):
    """The same of the page; and the options that it names and does not explain, as a command and an option each."""
    page = re.sub(r"^\.(Pp|Bl|El).*", "", page.replace(r"\-", "-"), flags=re.M)
    options, statuses, named = {"": set()}, {"": set()}, set()
    for section, command, part in parts_of(page):
        named |= {(command, f"-{word}") for word in re.findall(r"\bFl (-?\w[\w-]*)", part)}
        if section == command:
            options[command] = set()
            statuses[command] = statuses_of(part)
        if section == "EXIT STATUS":
            statuses[""] = set(re.findall(r"^\.It (\d)$", part, re.M))
        for item in re.findall(r"^\.It (Fl .*)", part, re.M):
            value = "".join(re.findall(r" Ar ([\w:]+)", item))
            options[command] |= {f"-{word} {value}".strip() for word in re.findall(r"Fl (-?\w[\w-]*)", item)}
    explained = {(command, it.split()[0]) for command, found in options.items() for it in found}
    return options, statuses, {it for it in named if it not in explained and ("", it[1]) not in explained}


def main():
    source, what = sys.argv[1:]
    if source == "help":
        options, statuses = read_help()
        unexplained = set()
    else:
        options, statuses, unexplained = read_page(pathlib.Path(source).read_text(encoding="utf-8"))
    names = [name for name in options if name]
    if what == "statuses":
        lines = [f"{name} {status}" for name, found in statuses.items() for status in found]
    elif what == "offers":
        lines = names + [f"{name} {option.split()[0]}" for name, found in options.items() for option in found]
    else:
        for name in names:
            options[name] -= options[""]
        lines = names + [f"{name} {option}" for name, found in options.items() for option in found]
        lines += [f"{name} {option} is not explained" for name, option in unexplained]
    print("\n".join(sorted("kbfeed " + line.strip() for line in lines)))


if __name__ == "__main__":
    main()
