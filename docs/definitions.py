"""The definitions of specs/, read: of each file what it takes from others, and its definitions with their comments."""
import functools
import glob
import os
import re
from dataclasses import dataclass, field

from crates import ROOT

IMPORT = re.compile(r"^\s*(?:pub )?use (Rattle\.[\w.]+?)(?:\.\{([^}]*)\}| as (\S+))?$", re.M)
PASSED_OVER = re.compile(r"\s*(?:pub )?(?:use|mod) ")
PARAMETERS = re.compile(r"(\s*)module _ ")
START = re.compile(r"(\s*)(?:(abbrev|unfoldable|opaque) )?(pub )?(?:(record|data) )?([^\s:(){}]+)(.*)")


@dataclass(eq=False)
class Definition:
    """A definition: its lines without the comment above it, and the parameters of the sections that it stands in."""

    file: "File"
    name: str
    kind: str
    is_public: bool
    line: int
    indent: int
    comment: str
    parameters: list
    lines: list = field(default_factory=list)


@dataclass(eq=False)
class File:
    """A file of specs/: its module, the comment at its top, and what names and modules stand for in it."""

    crate: str
    name: str
    path: str
    comment: str = ""
    names: dict = field(default_factory=dict)
    modules: dict = field(default_factory=dict)
    definitions: list = field(default_factory=list)
    # By name, also each constructor of a `data`.
    defined: dict = field(default_factory=dict)

    @property
    def module(self):
        return f"Rattle.{self.crate}.specs.{self.name.replace('/', '.')}"

    @property
    def is_aside(self):
        """What computes examples, or says how something is kept inside."""
        return os.path.basename(self.path).startswith(("Worked", "Inside"))


def imports(text):
    """Returns what names and what modules stand for, by the `use` lines of a text."""
    names, modules = {}, {}
    for module, items, alias in IMPORT.findall(text):
        if not items:
            modules[alias or module.rpartition(".")[2]] = module
        for item in filter(None, (it.strip() for it in items.split(","))):
            there, _, here = item.partition(" as ")
            names[here or there] = (module, there)
    return names, modules


def indent_of(line):
    return len(line) - len(line.lstrip())


def said(lines):
    """Returns the text of the lines of a comment."""
    return " ".join(it.strip()[2:].strip() for it in lines)


def started(file, line, number, comment, current):
    """Returns the definition that begins with a line, if one does."""
    found = START.match(line)
    if not found or current and current.kind != "module" and indent_of(line) > current.indent:
        return None
    _, opacity, public, kind, name, rest = found.groups()
    if not (opacity or public or kind or re.match(r"\s*:(\s|$)", rest)):
        return None
    around = [] if not current else [*current.parameters, *([current] if current.kind == "module" else [])]
    around = [it for it in around if it.indent < indent_of(line)]
    kind = kind or opacity or "proved"
    return Definition(file, name, kind, bool(public), number, indent_of(line), said(comment), around, [line])


def read_definitions(file, text):
    """Adds the definitions of a text to its file. A definition goes to the next line that stands as far out as it."""
    current, comment = None, []
    for number, line in enumerate(text.splitlines(), 1):
        if not line.strip() or PASSED_OVER.match(line):
            comment = []
        elif line.lstrip().startswith("--"):
            comment.append(line)
        elif PARAMETERS.match(line):
            around = [it for it in current.parameters if it.indent < indent_of(line)] if current else []
            if current and current.kind == "module" and current.indent < indent_of(line):
                around.append(current)
            current = Definition(file, "_", "module", False, number, indent_of(line), "", around, [line])
            comment = []
        else:
            begun = started(file, line, number, comment, current)
            if begun:
                file.definitions.append(begun)
                current = begun
            elif current:
                current.lines += [*comment, line]
            comment = []


def read_file(path):
    inside = os.path.relpath(path, f"{ROOT}/crates").split("/")
    file = File(inside[0], "/".join(inside[2:]).removesuffix(".antt"), os.path.relpath(path, ROOT))
    with open(path, encoding="utf-8") as it:
        text = it.read()
    top = re.match(r"(?:--.*\n)*", text)[0]
    file.comment = said(top.splitlines())
    file.names, file.modules = imports(text)
    read_definitions(file, text)
    for definition in file.definitions:
        file.defined.setdefault(definition.name, definition)
        if definition.kind == "data":
            for name in re.findall(r"^\s+(\S+) :", "\n".join(definition.lines[1:]), re.M):
                file.defined.setdefault(name, definition)
    return file


@functools.cache
def files():
    """Returns each file of specs/ by its module, sorted by path."""
    paths = sorted(glob.glob(f"{ROOT}/crates/*/specs/**/*.antt", recursive=True))
    return {it.module: it for it in map(read_file, paths)}


def for_readers():
    """Returns the files with public definitions, without those that stand aside."""
    shown = [it for it in files().values() if not it.is_aside]
    return [it for it in shown if any(d.is_public for d in it.definitions)]
