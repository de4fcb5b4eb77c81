"""Compiles a module of LLVM in parts, side by side.

tools/compile_parts.py CLANG LINKER PARTS WORD ..

The WORDs are those of a call of clang that compiles one file of LLVM, the word behind `-x ir`, to an object, the word
behind `-o`. Clang prints the module as text, which this cuts into PARTS of about the same size. Each part has some of
the functions, and declares the others. Small functions, which clang is to inline, are in each part that calls them. The
linker makes one object of those of the parts.

Functions that nothing calls are left out. So are the fills: the toolchain sets each local to the bytes 0xAA before the
program writes it. They are a tenth of all instructions, and nothing reads them, since the compiler rejects a program
that reads a local before it writes it.

If the text is not of the expected form, or a part does not compile, this says so on standard error, and compiles the
module as a whole."""
import os
import pathlib
import re
import subprocess
import sys

# The most bytes of a module that is not cut, and the most lines of a function that is in several parts.
WHOLE, SMALL = 1_000_000, 60
FILL = re.compile(r"\n  call void @llvm\.memset\.p0\.i64\(ptr %r\d+, i8 -86, [^\n]*")
NAME = re.compile(r'@("[^"]+"|[\w.$-]+)')
CONSTANT = re.compile(r"^@.* = private (?:unnamed_addr )?constant ")


class Unexpected(Exception):
    """What a module has that cannot be cut."""


def by_name(texts):
    """Returns texts by the first name in each."""
    return {NAME.search(it)[1]: it for it in texts}


class Module:
    """A module as text: its functions, constants and declarations by name, and its other lines."""

    def __init__(self, text):
        # Each function is behind what is between it and the one before, and ends in a line of its own.
        pieces = [f"\n{it}".partition("\ndefine ") for it in FILL.sub("", text).split("\n}\n")]
        self.functions = by_name(f"define {it[2]}\n}}\n" for it in pieces if it[1])
        lines = [line for it in pieces for line in it[0].split("\n")]
        constants = [it for it in lines if it.startswith("@")]
        wrong = [it for it in constants if not CONSTANT.match(it)]
        if wrong or "main" not in self.functions:
            raise Unexpected(f"it has {wrong[0][:60]}" if wrong else "it has no function main")
        self.constants = by_name(constants)
        self.declared = by_name(it for it in lines if it.startswith("declare "))
        self.others = [it for it in lines if it and not it.startswith(("@", "declare ", ";"))]
        self.names = {}
        called = self.reached(["main"], lambda _: True)
        self.functions = {name: it for name, it in self.functions.items() if name in called}
        self.lines = {name: it.count("\n") for name, it in self.functions.items()}
        self.small = {name for name, lines in self.lines.items() if lines <= SMALL and name != "main"}

    def named(self, name):
        """Returns the names in a function or a constant."""
        if name not in self.names:
            self.names[name] = set(NAME.findall(self.functions.get(name) or self.constants.get(name) or ""))
        return self.names[name]

    def reached(self, names, is_entered):
        """Returns names with all that they name, and what those name for which `is_entered` holds."""
        found, left = set(names), list(names)
        while left:
            new = self.named(left.pop()) - found
            found |= new
            left += [it for it in new if is_entered(it)]
        return found

    def shares(self, count):
        """Returns the large functions in a number of lists with about as many lines each."""
        large = [it for it in self.functions if it not in self.small]
        total, shares, taken = sum(self.lines[it] for it in large), [[] for _ in range(count)], 0
        for it in large:
            shares[taken * count // total].append(it)
            taken += self.lines[it]
        return shares

    def part(self, share):
        """Returns the text of a part that defines a share of the large functions."""
        found = self.reached(share, lambda it: it in self.small or it in self.constants)
        texts = [it for them in (self.constants, self.declared) for name, it in them.items() if name in found]
        for name, text in self.functions.items():
            if name in share:
                texts.append(text.replace("define internal ", "define hidden ", 1))
            elif name in found and name in self.small:
                texts.append(text)
            elif name in found:
                texts.append(text[:text.index(" {\n")].replace("define internal ", "declare hidden ", 1))
        return "\n".join([*self.others, *texts, ""])


def compile_parts(clang, linker, count, words):
    """Compiles a module in parts, or raises why it cannot."""
    source, to = words.index("ir") + 1, words.index("-o") + 1
    made, text = words[to], pathlib.Path(f"{words[to]}.ll")
    printing = [it for it in words if it != "-c"]
    printing[printing.index("-o") + 1] = str(text)
    subprocess.run([clang, *printing, "-S", "-emit-llvm", "-Xclang", "-disable-llvm-passes"], check=True)
    module = Module(text.read_text(encoding="latin-1"))
    text.unlink()
    parts = [f"{made}.{number}" for number in range(count)]
    for part, share in zip(parts, module.shares(count)):
        pathlib.Path(f"{part}.ll").write_text(module.part(set(share)), encoding="latin-1")
    # The compilers need the memory.
    del module
    running = []
    for part in parts:
        words[source], words[to] = f"{part}.ll", part
        running.append(subprocess.Popen([clang, *words]))
    if any([it.wait() for it in running]):
        raise Unexpected("a part does not compile")
    subprocess.run([linker, "-r", "-o", made, *parts], check=True)


def main():
    clang, linker, count, *words = sys.argv[1:]
    if "ir" in words and os.path.getsize(words[words.index("ir") + 1]) > WHOLE:
        try:
            compile_parts(clang, linker, int(count), [*words])
            return
        except (Unexpected, OSError, ValueError, subprocess.CalledProcessError) as why:
            print(f"the module is compiled as a whole: {why}", file=sys.stderr)
    os.execv(clang, [clang, *words])


if __name__ == "__main__":
    main()
