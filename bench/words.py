"""The words of a definition that aren't bound in it: the names by which it cites others."""
import re

from definitions import indent_of

NAME = r"[^\s(){}\[\],;.]+"
# A text, a comment, a bracket or a separator, a projection from a bracket, the point of a λ, a name with projections.
TOKEN = re.compile(rf'"(?:\\.|[^"\\])*"|--.*|[(){{}}\[\],;]|\.{NAME}|\.|{NAME}(?:\.{NAME})*')
MARKS = set("(){}[],;.:=→×λ|_") | {"let", "in", "where", "record", "data", "pub", "elim", "as", "Type"}


def tokens_of(text):
    return [it for it in TOKEN.findall(text) if not it.startswith(("--", '"'))]


class Walk:
    """Goes through tokens, and finds the words that aren't bound there. What is bound within a bracket, or in front of
    a separator in it, isn't behind it."""

    def __init__(self, tokens, bound=()):
        self.tokens, self.found = tokens, []
        # Of each open bracket what is bound in it, what will be once it closes, and whether a λ is binding.
        self.bound, self.groups, self.binds = [set(bound)], [], [False]
        for at, token in enumerate(tokens):
            self.step(at, token)

    def step(self, at, token):
        if token in ("(", "{", "["):
            self.groups.append(self.group_at(at + 1))
            self.bound.append(set(self.groups[-1]))
            self.binds.append(False)
        elif token in (")", "}", "]"):
            self.bound.pop()
            self.binds.pop()
            self.bound[-1].update(self.groups.pop())
        elif token in (",", ";"):
            self.bound[-1].clear()
        elif token == "λ":
            self.binds[-1] = True
        elif token == ".":
            self.binds[-1] = False
        elif token == "do":
            self.found.append(">>=")
        elif token not in MARKS and not token.startswith("."):
            self.word(at, token)

    def group_at(self, at):
        """Returns the names that a group like `(a b : A)` binds."""
        names = []
        for token in self.tokens[at:]:
            if token == ":":
                return names
            if token in MARKS:
                break
            names.append(token)
        return []

    def word(self, at, token):
        before = self.tokens[at - 1] if at else ""
        after = self.tokens[at + 1] if at + 1 < len(self.tokens) else ""
        if self.binds[-1] or before == "let" or after == "←":
            self.bound[-1].add(token)
        elif not (after == "=" and before in ("{", ";")) and not any(token.split(".")[0] in it for it in self.bound):
            self.found.append(token)


def chunks(lines):
    """Returns the tokens of lines in groups: each group begins with a line that stands as far out as the first."""
    found = []
    for line in lines:
        if not found or indent_of(line) == indent_of(lines[0]) and line.lstrip()[0] not in "-)}]":
            found.append([])
        found[-1].append(line)
    return [tokens_of("\n".join(it)) for it in found]


def behind(tokens, word):
    return tokens[tokens.index(word) + 1 :] if word in tokens else tokens


def field_words(definition, bound):
    """Returns what a record or a `data` names: in its parameters, and in each field, where those above are bound."""
    ends = [at for at, line in enumerate(definition.lines) if re.search(r"\bwhere$", line)] or [0]
    header = tokens_of("\n".join(definition.lines[: ends[0] + 1]))
    walk = Walk(behind(header, definition.name), bound)
    found, bound = walk.found, bound | walk.bound[0]
    for field in chunks(definition.lines[ends[0] + 1 :]):
        found += Walk(behind(field, ":"), bound).found
        bound = bound | {it for it in field[: field.index(":")] if it not in MARKS} if ":" in field else bound
    return found


def clause_words(tokens, bound, is_constructor):
    """Returns what a clause names. Words in front of `=` that are no constructors are bound behind it."""
    depth = 0
    for end, token in enumerate(tokens):
        depth += (token in ("(", "{", "[")) - (token in (")", "}", "]"))
        if token == "=" and not depth:
            break
    head = [it for it in tokens[:end] if it not in MARKS]
    constructors = [it for it in head if is_constructor(it)]
    return constructors + Walk(tokens[end + 1 :], bound | set(head) - set(constructors)).found


def words_of(definition, is_constructor):
    """Returns the words by which a definition names others."""
    around = "\n".join("\n".join(it.lines) for it in definition.parameters)
    groups = re.findall(r"[({]((?:[^\s(){}:]+\s+)+):\s", around)
    bound = {name for group in groups for name in group.split()}
    found = Walk(tokens_of(around)).found
    if definition.kind in ("record", "data"):
        return found + field_words(definition, bound)
    signature, *clauses = chunks(definition.lines)
    found += Walk(behind(signature, definition.name), bound).found
    for clause in clauses:
        if clause and clause[0] != "unfolding":
            found += clause_words(clause, bound, is_constructor)
    return found
