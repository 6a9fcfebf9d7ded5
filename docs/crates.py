"""crates.txt, read: its sections, and of each crate the sentence above its line and what the line says."""
import functools
import glob
import os
import re
import textwrap
from collections import namedtuple

ROOT = os.path.dirname(os.path.dirname(os.path.abspath(__file__)))

# A crate, with all names that its line lists: crates above it, and libraries of the kit.
Crate = namedtuple("Crate", "name sentence uses")
Section = namedtuple("Section", "title crates")


def text_of(path):
    with open(f"{ROOT}/{path}", encoding="utf-8") as file:
        return file.read()


def wrapped(line):
    """Returns a paragraph or an item of a list, within 120 columns."""
    indent = "  " if line.startswith("- ") else ""
    return textwrap.fill(line, 119, subsequent_indent=indent, break_long_words=False, break_on_hyphens=False)


@functools.cache
def code_of(crate):
    """Returns the text of each file of a crate's src/, without comments, by path."""
    paths = sorted(glob.glob(f"{ROOT}/crates/{crate}/src/**/*.rt", recursive=True))
    paths = [os.path.relpath(it, ROOT) for it in paths]
    return {it: re.sub(r"//.*", "", text_of(it)) for it in paths}


def read(text):
    """Returns the sections of a text like crates.txt. What stands above the first heading is in one without a title."""
    sections, comment = [Section("", [])], []
    for line in text.splitlines():
        heading = re.fullmatch(r"# == (.+) ==", line)
        if heading:
            sections.append(Section(heading[1], []))
            comment = []
        elif line.startswith("#"):
            comment.append(line[1:].strip())
        elif not line:
            comment = []
        else:
            name, _, uses = line.partition("#")[0].partition(":")
            sections[-1].crates.append(Crate(name.split()[0], " ".join(comment), uses.split()))
            comment = []
    return [it for it in sections if it.title or it.crates]


def listed():
    """Returns the sections of the repository's own crates.txt."""
    return read(text_of("crates.txt"))


def faults(sections):
    """Returns what is wrong with the list: a crate without a section or a sentence, or one that stands too low."""
    found, above, later = [], set(), {it.name for section in sections for it in section.crates}
    for section in sections:
        for crate in section.crates:
            later.discard(crate.name)
            if not section.title:
                found.append(f"crates.txt: {crate.name} stands in no section")
            if not crate.sentence:
                found.append(f"crates.txt: {crate.name} has no sentence above its line")
            if crate.name in above:
                found.append(f"crates.txt: {crate.name} is there twice")
            lower = [it for it in crate.uses if it in later]
            found += [f"crates.txt: {crate.name} stands above {it}, on which it stands" for it in lower]
            above.add(crate.name)
    folders = {it for it in os.listdir(f"{ROOT}/crates") if os.path.isdir(f"{ROOT}/crates/{it}/src")}
    found += [f"crates.txt: crates/{it} isn't listed" for it in sorted(folders - above)]
    return found + [f"crates.txt: there is no folder crates/{it}/src" for it in sorted(above - folders)]
