"""Tries mutants of different functions of a crate in one check, in which the prover has to reject each of them.

The proof of a function rests on the contracts of the functions that it calls, and not on their bodies. So mutants that
change the bodies of different functions do not disturb each other. One is rejected if its function is not proved, and
a goal of that function is open. Any other is unclear, and has to be tried alone: also one that changes something else
than a body, such as a contract, a constant, a definition or a proof."""
import re
import shutil
import subprocess
import tempfile

from crates import PARTS
from gate import say
from toolchain import Kept

# The most mutants of one check.
MOST = 40
FUNCTION = re.compile(r"^(\s*)(?:pub(?:\([^)]*\))? )?fn (\w+)")
OWNER = re.compile(r"^impl (?:([\w:]+) for )?(\w+)")
NOTE = re.compile(r"^note: (?:\./)?(src/\S+?):(\d+):\d+: (.*)")
ERROR = re.compile(r"^(?:\./)?(src/\S+?):(\d+):\d+:? error\[")
# How many characters of a note are reported, as the toolchain does of a mutant that is tried alone.
SHOWN = 160


class Change:
    """A text of a line in the body of a function, and what replaces it."""

    def __init__(self, file, old, new, function, first, last):
        self.file, self.old, self.new = file, old, new
        self.function, self.first, self.last = function, first, last

    def has(self, file, line):
        return file == self.file and self.first <= line <= self.last


def pairs_of(edit):
    """Yields the file, the text and what replaces it, of each pair of a mutant."""
    file = old = ""
    for line in edit.read_text(encoding="utf-8").split("\n"):
        if line.startswith("file: "):
            file = line[6:].strip()
        elif line.startswith("old: "):
            old = line[5:]
        elif line.startswith("new:"):
            yield file, old, re.sub(r"\A ", "", line[4:])


def function_at(lines, number):
    """Returns the name of the function with a line in its body, and its first and last lines, or None. The layout of
    sources is that of `rt fmt`: a function ends with the first brace that is indented as its beginning."""
    for first in range(number - 1, -1, -1):
        begins = FUNCTION.match(lines[first])
        if begins and len(begins[1]) <= len(lines[number]) - len(lines[number].lstrip()) - 4:
            indent = begins[1]
            opens = next((at for at in range(first, number) if lines[at] == f"{indent}{{" or
                          re.match(rf"{indent}\S.* {{$", lines[at])), None)
            last = next((at for at in range(first + 1, len(lines)) if lines[at] == f"{indent}}}"), None)
            if opens is None or last is None or last < number:
                return None
            return owner_of(lines[:first]) * bool(indent) + begins[2], first, last
    return None


def owner_of(lines):
    """Returns the path of the type whose functions are behind some lines, as the name of a function has it: `Issn::`,
    or `IssnDebug::` for those of a trait."""
    line = next((it for it in reversed(lines) if it.startswith(("impl", "trait ", "pub trait "))), "")
    while "<" in line and (plain := re.sub(r"(?<!-)<[^<>]*>", "", line)) != line:
        line = plain
    found = OWNER.match(line)
    return f"{found[2]}{(found[1] or '').rpartition('::')[2]}::" if found else ""


def changes_of(edit, folder):
    """Returns the changes of a mutant, or None if it changes anything but bodies of functions."""
    found = []
    for file, old, new in pairs_of(edit):
        place = folder / file
        text = place.read_text(encoding="utf-8") if file.startswith("src/") and place.is_file() else ""
        if not old or text.count(old) != 1:
            return None
        at = text.index(old) + len(old) - len(old.lstrip())
        function = function_at(text.split("\n"), text.count("\n", 0, at))
        if not function:
            return None
        found.append(Change(file, old, new, *function))
    return found or None


def changed(changes, folder):
    """Returns the texts of files after some changes, or None if one does not fit behind the others."""
    texts = {}
    for it in changes:
        text = texts.get(it.file) or (folder / it.file).read_text(encoding="utf-8")
        if text.count(it.old) != 1:
            return None
        texts[it.file] = text.replace(it.old, it.new)
    return texts


def batches_of(edits, folder):
    """Returns lists of mutants that can be tried together, each with its changes."""
    batches = []
    for edit in edits:
        changes = changes_of(edit, folder)
        names = {it.function for it in changes or []}
        for batch in batches if changes else []:
            taken = [it for found in batch.values() for it in found]
            if len(batch) < MOST and not names & {it.function for it in taken} and changed([*taken, *changes], folder):
                batch[edit] = changes
                break
        else:
            if changes:
                batches.append({edit: changes})
    return batches


def module_of(file):
    """Returns the path of the module of a file, as a name of a function begins."""
    parts = file[len("src/"):-len(".rt")].split("/")
    return "".join(f"{it}::" for it in parts if it not in ("lib", "main", "mod"))


def rejected_of(batch, status, lines):
    """Returns the mutants of a batch that a check rejects, each with the first open goal of its functions."""
    found = {}
    for edit, changes in batch.items() if status == 1 else []:
        names = [re.compile(rf"fn (\S+::)?{re.escape(it.function)}(::\S+)?: (not proved|no proof)") for it in changes]
        notes = [note[3] for line in lines if (note := NOTE.match(line)) and
                 any(it.has(note[1], int(note[2]) - 1) for it in changes)]
        if notes and any(name.match(line) for name in names for line in lines):
            found[edit] = notes[0][:SHOWN]
    return found


class Together:
    """Checks of mutants of a crate over the libraries that earlier proofs kept, in a new folder, on some processors."""

    def __init__(self, crate, folder, processors):
        self.kept, self.processors, self.process, self.is_stopped = Kept(crate, folder), processors, None, False

    def check(self, changes):
        """Returns the status and the lines of a check of the changed functions in a copy of the crate."""
        folder, many = self.kept.folder, str(len(self.processors))
        with tempfile.TemporaryDirectory(prefix="kbfeed-together-") as room:
            for part in PARTS:
                if (folder / part).is_dir():
                    shutil.copytree(folder / part, f"{room}/{part}")
            for file, text in (changed(changes, folder) or {}).items():
                with open(f"{room}/{file}", "w", encoding="utf-8") as to:
                    to.write(text)
            only = [word for it in changes for word in ("--only", f"{module_of(it.file)}{it.function}")]
            words = ["taskset", "-c", ",".join(map(str, self.processors)), *self.kept.words(["--jobs", many, *only])]
            self.process = subprocess.Popen(words, cwd=room, stdin=subprocess.DEVNULL, stdout=subprocess.PIPE,
                                            stderr=subprocess.STDOUT, text=True, errors="replace")
            printed = self.process.communicate()[0]
        return self.process.returncode, printed.split("\n")

    def stop(self):
        self.is_stopped = True
        if self.process and self.process.poll() is None:
            self.process.terminate()

    def run(self, edits):
        """Tries mutants in as few checks as they allow. Returns the rejected ones, each with an open goal. The others
        are to be tried alone."""
        found, batches = {}, [] if self.kept.lacking else batches_of(edits, self.kept.folder)
        for batch in (it for it in batches if len(it) > 1):
            # Those that do not reach the prover are left out at a second try.
            for _ in range(2):
                changes = [it for them in batch.values() for it in them]
                status, lines = self.check(changes) if changes and not self.is_stopped else (0, [])
                wrong = [(error[1], int(error[2]) - 1) for line in lines if (error := ERROR.match(line))]
                if not wrong:
                    break
                batch = {edit: them for edit, them in batch.items()
                         if not any(it.has(*at) for it in them for at in wrong)}
            rejected = rejected_of(batch, status, lines)
            say(f"{self.kept.crate.name}: {len(batch)} mutants in one check, {len(rejected)} of them rejected")
            found.update(rejected)
        return found
