#!/usr/bin/env python3
"""Draws a policy: controllers with their grants, virtual switches with their expressions as trees, physical switches,
cables, links, and which port lies where.

    examples/draw.py POLICY [FILE]   FILE ends in .svg or .png (default: POLICY's name with .svg, in this folder)
    examples/draw.py --dot POLICY    writes the text that dot draws to standard output

It needs Python 3.11 and Graphviz (Debian's graphviz). It draws each policy that the program accepts, and of others
those that it can.
"""
import html
import os
import re
import shutil
import subprocess
import sys

try:
    import tomllib
except ImportError:
    sys.exit("draw.py: needs Python 3.11 or newer, which has tomllib")

# From the one that binds least, each with a word between its operands.
OPERATORS = {"|>": "else", "+": "and", ">>": "then"}
# One for each virtual switch.
COLOURS = ("#00796b", "#c2410c", "#7b1fa2", "#8d6e00", "#1565c0", "#ad1457", "#37474f", "#558b2f")
GREY, DARK = "#777777", "#333333"
# What has to be there, and what may be.
NEEDED = {"switch": {"name": str, "dpid": str, "ports": list}, "cable": {"a": str, "b": str},
          "virtual": {"name": str, "dpid": str, "ports": list, "expr": str}, "link": {"a": str, "b": str},
          "member": {"controller": str, "virtual": str, "bits": int}}
ALLOWED = {"match": list, "actions": list, "ports": list, "region": dict, "regions": list}
WORDS = {str: "a text", list: "a list", int: "a number", dict: "a table"}


class Fault(Exception):
    """Why there is no picture, in one line."""


def read(path):
    """The policy of a file, in which all is there that is drawn."""
    try:
        with open(path, "rb") as file:
            policy = tomllib.load(file)
    except OSError as fault:
        raise Fault(f"can't be read: {fault.strerror}") from None
    except ValueError as fault:
        raise Fault(f"not TOML: {fault}") from None
    for kind, needed in NEEDED.items():
        found = policy.setdefault(kind, [])
        if not isinstance(found, list) or not all(isinstance(item, dict) for item in found):
            raise Fault(f"{kind} is no list of tables, each under [[{kind}]]")
        for number, item in enumerate(found):
            allowed = ALLOWED if kind == "member" else {}
            for key, type_ in (needed | {key: allowed[key] for key in allowed if key in item}).items():
                if not isinstance(item.get(key), type_):
                    raise Fault(f"{kind}[{number}] has no {key} that is {WORDS[type_]}")
    return policy


def tree(words, level=0):
    """The expression that these words begin with, which are taken away: a name, or an operator and its operands."""
    if level < len(OPERATORS):
        operator, operands = list(OPERATORS)[level], [tree(words, level + 1)]
        while words[0] == operator:
            words.pop(0)
            operands.append(tree(words, level + 1))
        return (operator, operands) if operands[1:] else operands[0]
    word = words.pop(0)
    found = tree(words) if word == "(" else word
    if word == "(" and words.pop(0) != ")" or not re.match("[(a-z]", word):
        raise Fault(f"can't be read at {word or 'its end'}")
    return found


def expression(item):
    """The tree of a virtual switch's expression."""
    words = re.findall(r"\w+|\|>|>>|\S", item["expr"]) + [""]
    try:
        found = tree(words)
        if words != [""]:
            raise Fault(f"can't be read at {words[0]}")
        return found
    except (Fault, RecursionError) as fault:
        raise Fault(f"the expression of {item['name']}: {fault}") from None


# ---- boxes, in dot's HTML

def text(value):
    return html.escape(str(value))


def title(name, gap, more):
    return (f"<font point-size='12'><b>{text(name)}</b></font>{gap}"
            f"<font point-size='8' color='{GREY}'>{text(more)}</font>")


def joined(words, each, empty):
    """Words, so many a line."""
    rows = [", ".join(map(text, words[at:at + each])) for at in range(0, len(words), each)]
    return ",<br align='left'/>".join(rows) or empty


def grant(member):
    """What a controller may do: keys of the policy file and what they say."""
    fields, bits = member.get("match", []), member["bits"]
    every = len(fields) == 12 and "/" not in "".join(map(str, fields))
    boxes = member.get("regions", [member["region"]] if "region" in member else [])
    if not all(isinstance(box, dict) for box in boxes):
        raise Fault(f"member {member['controller']} has a region that is no table")
    return [("match", "all twelve fields" if every else joined(fields, 3, "none")),
            ("actions", joined(member.get("actions", []), 3, "none")),
            ("ports", joined(member["ports"], 8, "none") if "ports" in member else "all"),
            *(("or" if at else "region", joined([f"{key} = {value}" for key, value in box.items()], 1, "everything"))
              for at, box in enumerate(boxes)),
            ("misses", "is told" if member.get("misses", True) else "isn't told"),
            ("packet_out", "may send" if member.get("packet_out") else "may not send"),
            ("bits", f"{bits}: {2 ** bits - 2} priorities" if 2 <= bits <= 15 else bits),
            ("entries", text(member.get("entries", 1024)))]


def card(member, colour):
    """A controller with its grant."""
    rows = "".join(f"<tr><td align='right' valign='top'><font color='{GREY}'>{key}</font></td>"
                   f"<td align='left' balign='left'>{value}</td></tr>" for key, value in grant(member))
    head = title(member["controller"], "<br/>", member.get("address", "127.0.0.1:6634"))
    return (f"<<table border='1' color='{colour}' style='rounded' bgcolor='white' cellborder='0' cellspacing='0' "
            f"cellpadding='2'><tr><td colspan='2'>{head}</td></tr><hr/>{rows}</table>>")


def row(ports):
    """A row of ports: number, colour and ground of each."""
    cells = "".join(f"<td port='p{port}' width='26' color='{colour}' bgcolor='{ground}'>{port}</td>"
                    for port, colour, ground in ports)
    table = f"<table border='0' cellborder='1' cellspacing='3' cellpadding='3'><tr>{cells}</tr></table>"
    return f"<tr><td>{table}</td></tr>" if cells else ""


def box(item, colour, above, below):
    """A switch, with ports at its upper and at its lower side."""
    head = title(item["name"], " ", "dpid " + (item["dpid"].lstrip("0") or "0"))
    return (f"<<table border='2' color='{colour}' style='rounded' bgcolor='white' cellborder='0' cellspacing='0' "
            f"cellpadding='1'>{row(above)}<tr><td cellpadding='4'>{head}</td></tr>{row(below)}</table>>")


# ---- the picture

class Picture:
    """The nodes and edges of a policy, in dot's words. Each virtual switch has a colour, and all that is of it."""

    def __init__(self, policy):
        self.policy, self.nodes, self.edges, self.counts = policy, [], [], {"m": 0, "v": 0, "s": 0, "k": 0}
        # Controllers that aren't drawn yet; where physical ports and ends of links are; colours of physical ports.
        self.members = {(item["virtual"], item["controller"]): item for item in policy["member"]}
        self.places = {f"{item['name']}:{port}": f"s{number}:p{port}"
                       for number, item in enumerate(policy["switch"]) for port in item["ports"]}
        self.ends, self.colours = {}, {}
        for number, item in enumerate(policy["virtual"]):
            self.virtual(item, COLOURS[number % len(COLOURS)])
        for vsw, controller in self.members:
            raise Fault(f"member {controller} of {vsw} stands in no expression")
        self.pairs("link", self.ends, "style=dashed")
        self.pairs("cable", self.places, f'penwidth=2.5, color="{DARK}"')
        for item in policy["switch"]:
            self.switch(item)

    def node(self, kind, look):
        name = f"{kind}{self.counts[kind]}"
        self.counts[kind] += 1
        self.nodes.append(f"{name} [{look}]")
        return name

    def operand(self, found, vsw, colour):
        """The node of an expression of a virtual switch, once it is drawn and what leads to it."""
        if isinstance(found, str):
            member = self.members.pop((vsw, found), None)
            if not member:
                raise Fault(f"the expression of {vsw} has {found}, which is no member of it, or stands twice")
            return self.node("m", f"label={card(member, colour)}")
        word = f"<<b>{text(found[0])}</b><br/><font point-size='8'>{OPERATORS[found[0]]}</font>>"
        operands = [self.operand(operand, vsw, colour) for operand in found[1]]
        name = self.node("k", f'shape=circle, width=0.5, fixedsize=true, style=filled, color="{colour}", '
                              f'fillcolor="{colour}20", label={word}')
        self.edges += [f'{operand} -> {name} [color="{colour}"]' for operand in operands]
        return name

    def virtual(self, item, colour):
        """A virtual switch: its controllers in the order of its expression, the tree that joins them, its ports."""
        root, ports = self.operand(expression(item), item["name"], colour), [str(port) for port in item["ports"]]
        cells = [(port.split("=")[0], colour, "#e8e8e8" if port.endswith("=link") else "white") for port in ports]
        name = self.node("v", f"label={box(item, colour, [], cells)}")
        self.edges.append(f'{root} -> {name} [color="{colour}"]')
        for port in ports:
            own, _, place = port.partition("=")
            if not own.isdecimal() or place not in self.places and place != "link":
                raise Fault(f"{item['name']} has the port {port!r}: no N=SWITCH:PORT of a port there, and no N=link")
            if place == "link":
                self.ends[f"{item['name']}:{own}"] = f"{name}:p{own}"
            else:
                self.edges.append(f'{name}:p{own}:s -> {self.places[place]}:n [minlen=2, color="{colour}"]')
                self.colours[place] = colour

    def switch(self, item):
        """A physical switch: its ports with cables below, all others above."""
        cabled, above, below = {cable[end] for cable in self.policy["cable"] for end in "ab"}, [], []
        for port in item["ports"]:
            place = f"{item['name']}:{port}"
            if place in cabled:
                below.append((port, DARK, "white"))
            else:
                above.append((port, self.colours.get(place, "#bbbbbb"), "white"))
        self.node("s", f"label={box(item, DARK, above, below)}")

    def pairs(self, kind, places, look):
        """Cables or links, each as a word below its two ends."""
        for number, item in enumerate(self.policy[kind]):
            knot = self.node("k", f"fontsize=9, label={kind}")
            for end in "ab":
                if item[end] not in places:
                    raise Fault(f"{kind}[{number}].{end} is {item[end]!r}: there is no such port")
                self.edges.append(f"{places[item[end]]}:s -> {knot}:n [{look}]")

    def dot(self, name):
        """The whole text: controllers lie in one row, virtual switches in another, physical ones in a third."""
        font = 'fontname="Helvetica,Arial,sans-serif"'
        head = f"{name}: hops = {self.policy.get('hops', 4)}, listen = {self.policy.get('listen', '127.0.0.1:6633')}"
        rows = [" -> ".join(f"{kind}{number}" for number in range(self.counts[kind])) for kind in "mvs"]
        return "\n".join([
            f"digraph policy {{ graph [{font}, fontsize=11, label=<{text(head)}>, labelloc=t, bgcolor=white, pad=0.2,",
            "newrank=true, ranksep=0.4, nodesep=0.35]",
            f"node [{font}, fontsize=10, shape=plain] edge [{font}, dir=none, penwidth=1.5]",
            *self.nodes, *self.edges, *(f"{{ rank=same; edge [style=invis]; {row} }}" for row in rows), "}", ""])


def draw(dot, path):
    if not path.endswith((".svg", ".png")):
        raise Fault(f"{path} ends neither in .svg nor in .png")
    if not shutil.which("dot"):
        raise Fault("there is no dot to draw with: apt-get install graphviz")
    done = subprocess.run(["dot", f"-T{path[-3:]}", "-o", path], input=dot, text=True, capture_output=True)
    if done.returncode != 0:
        raise Fault("dot fails: " + " ".join(done.stderr.split()))


def main():
    words = [word for word in sys.argv[1:] if word != "--dot"]
    as_text = "--dot" in sys.argv
    if len(words) not in (1, 1 if as_text else 2) or words[0].startswith("-"):
        print(__doc__, file=sys.stderr)
        sys.exit(2)
    name = os.path.basename(words[0])
    try:
        dot = Picture(read(words[0])).dot(name)
        if as_text:
            sys.stdout.write(dot)
        else:
            draw(dot, words[1] if words[1:] else os.path.splitext(name)[0] + ".svg")
    except Fault as fault:
        sys.exit(f"draw.py: {words[0]}: {fault}")


if __name__ == "__main__":
    main()
