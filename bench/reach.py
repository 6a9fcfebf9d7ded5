"""What is reached from a contract: the definitions that it names, those that they name, and so on; and the types of the
program that they speak of."""
import functools
import re
from collections import namedtuple

import definitions
from crates import code_of
from words import Walk, tokens_of, words_of

# A type or a trait of the program: its file, and its name there.
Type = namedtuple("Type", "crate path name")


@functools.cache
def types_of(crate):
    """Returns the types and traits that a crate's code declares."""
    kinds = r"^\s*(?:pub(?:\([^)]*\))? )?(?:struct|enum|trait) (\w+)"
    return [Type(crate, path, it) for path, code in code_of(crate).items() for it in re.findall(kinds, code, re.M)]


def found_in(module, name):
    """Returns the definition of a name in a module, or the type of the program that the module stands for."""
    file = definitions.files().get(module)
    if file:
        return file.defined.get(name) or (found_in(*file.names[name]) if name in file.names else None)
    inside = re.fullmatch(r"Rattle\.(\w+)\.specs\.declared((?:\.[a-z]\w*)*)((?:\.[A-Z]\w*)*)", module)
    if not inside:
        return None
    path, types = inside[2].strip(".").replace(".", "/"), inside[3].strip(".").split(".")
    there = Type(inside[1], f"crates/{inside[1]}/src/{path or 'lib'}.rt", types[0] or name)
    return there if there in types_of(there.crate) else None


def meaning(file, word):
    """Returns what a word stands for in a file: a definition, a type, or None for what isn't the repository's."""
    head, _, rest = word.partition(".")
    if rest and head in file.modules:
        return found_in(file.modules[head], rest.split(".")[0])
    for name in (head, f"◌{head}◌"):
        if name in file.defined:
            return file.defined[name]
        if name in file.names:
            return found_in(*file.names[name])
    return None


def named(file, words):
    """Returns what words name in a file, each once."""
    return list(dict.fromkeys(filter(None, (meaning(file, it) for it in words))))


def definition_next(definition):
    """Returns what a definition names."""

    def is_constructor(word):
        there = meaning(definition.file, word)
        return isinstance(there, Type) or bool(there) and there.kind == "data" and word.split(".")[-1] != there.name

    return named(definition.file, words_of(definition, is_constructor))


def braced(text, at):
    """Returns what stands between the first brace from a place on and the one that closes it."""
    begin, depth = text.find("{", at), 0
    for end in range(begin, len(text)) if begin >= 0 else ():
        depth += (text[end] == "{") - (text[end] == "}")
        if not depth:
            return text[begin + 1 : end]
    return ""


@functools.cache
def scope_of(path):
    """Returns a file of code as one whose names are those of its `ghost use` lines."""
    crate = path.split("/")[1]
    file = definitions.File(crate, path, path)
    text = re.sub(r"^\s*ghost (use .*);$", r"\1", code_of(crate)[path], flags=re.M)
    file.names, file.modules = definitions.imports(text)
    return file


def types_named(path, text):
    """Returns the types that Rust code in a file names: those of the file, and those that it uses."""
    crate, used = path.split("/")[1], {}
    for other, items in re.findall(r"^\s*(?:pub )?use (\w+)::([^;]*);", code_of(crate)[path], re.M):
        used.update({it: crate if other == "crate" else other for it in re.findall(r"\w+", items)})
    found = []
    for name in dict.fromkeys(re.findall(r"\b[A-Z]\w*", text)):
        here = [it for it in types_of(crate) if it.name == name and it.path == path]
        found += here or [it for it in types_of(used.get(name, "")) if it.name == name]
    return found


def contract_words(code):
    """Returns the words of ghost members and clauses in code."""
    found = []
    for it in re.finditer(r"\b(?:ghost \w+ ?[:=]|(?:requires|ensures)(?: \w+)?)\s*(?={)", code):
        found += Walk(tokens_of(braced(code, it.end()))).found
    return found


def type_next(it):
    """Returns what a type names: in the value that contracts see, or else in its fields; a trait, in what it says."""
    code, file = code_of(it.crate)[it.path], scope_of(it.path)
    model = re.search(rf"^impl\b[^{{]*\bModel for {it.name}\b", code, re.M)
    if model:
        return named(file, Walk(tokens_of(braced(code, code.find("ghost Value", model.end())))).found)
    begin = re.search(rf"\b(struct|enum|trait) {it.name}\b[^;{{]*", code)
    body = begin[0] + (braced(code, begin.end()) if code[begin.end() :].startswith("{") else "")
    return named(file, contract_words(body)) + (types_named(it.path, body) if begin[1] != "trait" else [])


def function_next(path, name):
    """Returns what a function's clauses name, its traits, and of `<Hyper as Machine>` what that impl's members name; a
    None where there is no such function."""
    head = re.search(rf"\bfn {name}\b.*?^{{", code_of(path.split("/")[1]).get(path, ""), re.M | re.S)
    if not head:
        return [None]
    head = head[0]
    bound = {"result", *re.findall(r"\b(\w+): ", re.split(r"\bensures\b", head)[0])}
    found = named(scope_of(path), [it for it in contract_words(head) if it.split(".")[0] not in bound])
    found += types_named(path, head.partition("(")[0])
    for owner, trait in sorted(set(re.findall(r"⟦<(\w+) as (\w+)>⟧", head))):
        for it in types_named(path, owner):
            found += [it, *impl_next(it, trait)]
    return found


def impl_next(it, trait):
    """Returns what the members of a type's impl of a trait name."""
    for path, code in code_of(it.crate).items():
        begin = re.search(rf"^impl\b[^{{]*\b{trait} for {it.name}\b", code, re.M)
        if begin:
            return named(scope_of(path), contract_words(braced(code, begin.end())))
    return []


@functools.cache
def following(it):
    return type_next(it) if isinstance(it, Type) else definition_next(it)


def reached(roots):
    """Returns all definitions and types that are reached from some."""
    found, waiting = set(), list(roots)
    while waiting:
        it = waiting.pop()
        if it not in found:
            found.add(it)
            waiting += following(it)
    return found
