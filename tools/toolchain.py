"""The toolchain's own module `rt`, and the libraries that earlier proofs on this machine kept.

python3 tools/toolchain.py [CRATE ..]

As a program it is the toolchain's gate, `rt ci`, which proves more crates at once. With CRATE it is that without
mutants and without runs of programs: it proves these crates and those below them, and keeps what passes."""
import importlib.machinery
import importlib.util
import shutil
import sys

from crates import PARTS, copy_crates, crates_below, read_crates

# The toolchain begins a proof if the memory suffices that it may take, by the lines of the crate. Proofs of large
# crates take a quarter to two thirds of that, and two over SQLite up to a fifth more. By all of it two were proved at
# once on four processors of a machine with 24 GiB, while the longest chain of crates waited.
TAKEN = 0.6


def load():
    """Returns the toolchain's module `rt`."""
    loader = importlib.machinery.SourceFileLoader("rt", shutil.which("rt") or "rt")
    spec = importlib.util.spec_from_loader("rt", loader)
    module = importlib.util.module_from_spec(spec) if spec else None
    if module is None:
        raise ImportError("rt")
    loader.exec_module(module)
    return module


class Kept:
    """A copy of a crate in an empty folder, over the libraries below it that earlier proofs kept."""

    def __init__(self, name, folder):
        lines = read_crates()
        below = crates_below([name], lines)
        copy_crates(below, lines, folder, PARTS)
        self.rt = load()
        self.rt.Crate.cuts_libraries, self.rt.Crate.allowed = True, self.rt.handles_of(str(folder))
        crates = {it.name: it for it in self.rt.crates_of(str(folder))}
        self.folder = folder / "crates" / name
        self.crate, kept = crates[name], self.rt.Kept([*crates.values()], False)
        # The first crate below that no run proved as it is, or None.
        self.lacking = None
        for it in below[:-1]:
            # The folder is new: over files that are there, the toolchain takes what it kept for damaged, and drops it.
            if not kept.give(crates[it], False, kept.key(crates[it])):
                self.lacking = it
                break
            kept.is_built(crates[it])

    def words(self, flags):
        """Returns the words of a check of the crate, which runs in its folder or in a copy of that."""
        return [self.rt.rtlib.RATTLE, "check", *self.crate.words([*flags], keeps=False)]


def main():
    rt = load()
    reckoned = rt.need
    rt.need = lambda crate: TAKEN * reckoned(crate)
    if sys.argv[1:]:
        rt.edits_of = lambda crate: ([], [])
        rt.run = lambda *given, **named: True
    return rt.main(["ci", *sys.argv[1:]])


if __name__ == "__main__":
    sys.exit(main())
