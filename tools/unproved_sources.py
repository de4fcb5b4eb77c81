"""The sources of programs that are compiled without proof: links to the crates, with two changes.

The text of --version says `not proved`. And several programs become one, since the toolchain reads and checks all
crates below a program again for each: the one calls the main function of the program by whose name it was started."""
import re
import shutil

from crates import ROOT, copy_crates, crates_below, read_crates

# The source with the text of --version, and the end of that text with the one in its place.
VERSION, PROVED, UNPROVED = "cmd_line/src/commands.rt", '\\nproved"', '\\nnot proved"'
# The program that is several.
JOINED = """//! Several programs in one, which calls the one by whose name it was started.
#![tactic(auto)]

use std::env;
use std::process::{{ExitCode, Termination}};

fn main(rt: HostRuntime) -> ExitCode {{
    let mut name = String::new(rt.alloc());
    match env::args(&rt) {{
        Ok(words) => {{
            for word in words {{
                if name.is_empty() {{
                    name = word;
                }}
            }}
        }}
        Err(_) => {{
            let _printed = rt.eprintln("kbfeed: Memory");
            return ExitCode::from(3);
        }}
    }}
    let name = name.as_str();
{calls}    ExitCode::from(4)
}}
"""
CALL = """    if name.ends_with("{name}") {{
        return {name}_program::main(rt).report(&rt);
    }}
"""


class NotFound(Exception):
    """What a source lacks that is to be changed."""


def change(file, old, new):
    """Replaces a text that is in one place of a file."""
    text = file.read_text(encoding="utf-8")
    if len(re.findall(old, text, re.M)) != 1:
        raise NotFound(f"{file.name} has no text or several of the form {old}")
    file.write_text(re.sub(old, lambda _: new, text, flags=re.M), encoding="utf-8")


def copy_source(crate, to):
    """Copies the src/ of a crate, in which a file is to be changed."""
    to.mkdir(parents=True)
    shutil.copytree(ROOT / "crates" / crate / "src", to / "src")


def make_sources(programs, to):
    """Makes a folder with the crates of programs, and returns the folder of the crate to compile."""
    lines = read_crates()
    below = crates_below(programs, lines)
    copy_crates([], lines, to, [])
    joined = programs if len(programs) > 1 else []
    listed = {it: f"{it}_program" if it in joined else it for it in below}
    for crate, name in listed.items():
        place = to / "crates" / name
        if crate in joined:
            copy_source(crate, place)
            change(place / "src/main.rt", "^fn main", "pub fn main")
            (place / "src/main.rt").rename(place / "src/lib.rt")
        elif VERSION.startswith(f"{crate}/"):
            copy_source(crate, place)
            change(to / "crates" / VERSION, re.escape(PROVED), UNPROVED)
        else:
            place.mkdir(parents=True)
            (place / "src").symlink_to(ROOT / "crates" / crate / "src")
    texts = [f"{name}{lines[crate][len(crate):]}" for crate, name in listed.items()]
    if joined:
        (to / "crates/joined/src").mkdir(parents=True)
        calls = "".join(CALL.format(name=it) for it in joined)
        (to / "crates/joined/src/main.rt").write_text(JOINED.format(calls=calls), encoding="utf-8")
        texts.append(f"joined: {' '.join(listed[it] for it in joined)}")
    (to / "crates.txt").write_text("".join(f"{it}\n" for it in texts), encoding="utf-8")
    return to / "crates" / ("joined" if joined else programs[0])
