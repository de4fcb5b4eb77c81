"""The crates of crates.txt: what each needs, what a proof of it reads, copies of them, and the programs that sessions
run."""
import contextlib
import pathlib
import shutil

ROOT = pathlib.Path(__file__).resolve().parent.parent
# The folders of a crate that a proof reads, and the files for the gate's run of a program.
PARTS = ["src", "specs", "proofs"]
RUN = ["stdin", "stdout", "args", "status", "data"]
# The drivers that sessions run, and all programs that they run.
DRIVERS = ["test_store", "test_http", "test_releases", "test_lists"]
PROGRAMS = ["kbfeed", *DRIVERS]
# The most that are compiled side by side: kbfeed, and the drivers as one.
LANES = 2
# The folder of the programs that tools/compile_unproved makes.
UNPROVED = ROOT / "out/unproved"


def read_crates():
    """Returns the lines of crates.txt, by the names of the crates, lowest first."""
    lines = [it for it in (ROOT / "crates.txt").read_text(encoding="utf-8").splitlines() if it and it[0] != "#"]
    return {line.partition(":")[0].split()[0]: line for line in lines}


def crates_below(asked, lines):
    """Returns some crates and those that they need, in the order of crates.txt."""
    found, left = set(), list(asked)
    while left:
        name = left.pop()
        if name in lines and name not in found:
            found.add(name)
            left += lines[name].partition(":")[2].split()
    return [it for it in lines if it in found]


def copy_crates(crates, lines, to, parts):
    """Copies parts of some crates, with their lines of crates.txt, to a new folder, which the toolchain takes for the
    top of a repository."""
    (to / ".git").mkdir(parents=True)
    shutil.copy(ROOT / "HANDLES", to)
    (to / "crates.txt").write_text("".join(f"{lines[it]}\n" for it in crates), encoding="utf-8")
    for crate in crates:
        (to / "crates" / crate).mkdir(parents=True)
        for part in parts:
            source = ROOT / "crates" / crate / part
            if source.is_dir():
                shutil.copytree(source, to / "crates" / crate / part)
            elif source.exists():
                shutil.copy(source, to / "crates" / crate / part)


def sources_of(program, kinds):
    """Returns the files of some kinds that a build of a program reads."""
    crates = crates_below([program], read_crates())
    folders = [ROOT / "crates" / it / part for it in crates for part in PARTS]
    return [ROOT / "crates.txt", *[it for folder in folders for it in folder.rglob("*") if it.suffix in kinds]]


def is_newer(file, program, kinds):
    """Returns whether a file is there, and no source of a program is newer."""
    with contextlib.suppress(OSError):
        made = file.stat().st_mtime
        return all(it.stat().st_mtime <= made for it in sources_of(program, kinds))
    return False


def proved(program):
    """Returns the path of a program that was proved and built, or None if a source is newer."""
    file = ROOT / "crates" / program / "out" / program
    return file if is_newer(file, program, (".rt", ".antt")) else None


def unproved(program):
    """Returns the path of a program that was compiled without proof, or None if a source is newer. A compilation reads
    neither definitions nor proofs."""
    file = UNPROVED / program
    return file if is_newer(file, program, (".rt",)) else None
