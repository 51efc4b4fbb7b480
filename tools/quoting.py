"""Puts definitions from the sources of the crates into a page, between marks that name them.

What stands between two marks is made from the sources; all other words of a page are its own. A mark is a comment of the page:

    <!-- quoted FILE NAME .. -->     these definitions of a file of specs/ or src/, without comments, signatures and attributes
    <!-- written FILE NAME .. -->    the same with comments and signatures
    <!-- law FILE NAME .. -->        what these functions, which are laws, ensure
    <!-- end -->                     the end of each of them

The path of a file begins below crates/. One mark may name several files, each with its names, as `quoted FILE NAME .. and FILE NAME ..`. A name may
be cut: `NAME:2` is the first two equations of a definition, and `NAME:3-3` the third alone; of a record `NAME..` leaves its parameters out, and
`NAME..from` those before `from`. Definitions of one line each follow one another; others are set off by a blank line. What a function of a trait
does if a type has none of its own is left out.
"""

import re

import definitions

MARK = re.compile(r"<!-- (quoted|written|law) (.+) -->")
END = "<!-- end -->"
CUT = re.compile(rf"({definitions.WORD})(?::(?:(\d+)-)?(\d+)|(\.\.)(\w*))?")
COMMENT = re.compile(r"\s*(///|//|--)")


def without_parameters(head, first):
    """The head of a record without its parameters, or without those before this one."""
    name = re.match(rf"(?:pub )?record {definitions.WORD}", head)
    if not name or first and f"({first} " not in head:
        raise definitions.NotFound(f"there is no parameter {first} in {head}")
    return f"{name[0]} .. {head[head.index(f'({first} '):]}" if first else f"{name[0]} .. where"


def without_bodies(lines):
    """The lines of a trait without the bodies of its functions."""
    made, inside = [], False
    for line in lines:
        if line == "    {":
            made.append("    { .. }")
            inside = True
        elif not inside:
            made.append(line)
        inside = inside and line != "    }"
    return made


def cut(item, name):
    """The lines of a definition, as far as the name says which."""
    lines = [line for line in item.body if not re.match(r"\s*#\[", line) and not COMMENT.match(line)]
    if item.kind == "trait":
        return without_bodies(lines)
    _, first, last, is_cut, parameter = CUT.fullmatch(name).groups()
    if is_cut:
        return [without_parameters(lines[0], parameter), *lines[1:]]
    if last:
        equations = definitions.equations(lines)
        if int(last) > len(equations):
            raise definitions.NotFound(f"{item.name} of {item.file} has no {last} equations")
        return "\n".join(equations[int(first or 1) - 1:int(last)]).split("\n")
    return lines


def written(item):
    """The lines of a definition, with its comment and its signature."""
    return item.comment + ([item.signature] if item.signature else []) + item.body


def law(crates, file, name):
    """The clauses of a law."""
    contract = crates.source(file).contract(name)
    return [line[4:] for line in contract.lines[1:] if line.startswith("    ")]


class Page:
    """A page, and what has to stand between its marks."""

    def __init__(self, crates, text):
        self.crates, self.text = crates, text

    def piece(self, kind, file, name):
        """The lines of one definition."""
        if kind == "law":
            return law(self.crates, file, name)
        items, wanted = self.crates.source(file).items, CUT.fullmatch(name)
        if not wanted or wanted[1] not in items:
            raise definitions.NotFound(f"{file} has no {name}")
        return written(items[wanted[1]]) if kind == "written" else cut(items[wanted[1]], name)

    def made(self, kind, asked):
        """What has to stand behind a mark."""
        lines, before = [], 0
        for part in asked.split(" and "):
            file, *names = part.split()
            for name in names:
                piece = self.piece(kind, file, name)
                if lines and (before > 1 or len(piece) > 1):
                    lines.append("")
                lines += piece
                before = len(piece)
        return ["```", *lines, "```", END]

    def marks(self):
        """The marks of the page: the number of the line, the kind, what is asked for, and the lines up to the end."""
        lines = self.text.split("\n")
        for at, line in enumerate(lines):
            mark = MARK.fullmatch(line)
            if mark:
                end = next((k for k in range(at + 1, len(lines)) if lines[k] == END), None)
                following = next((k for k in range(at + 1, len(lines)) if MARK.fullmatch(lines[k])), len(lines))
                if end is None or end > following:
                    raise definitions.NotFound(f"the mark of line {at + 1} has no end")
                yield at + 1, mark[1], mark[2], lines[at + 1:end + 1]

    def unmarked(self):
        """The lines at which a block begins that is said to be of no language, and stands behind no mark."""
        lines, inside, found = self.text.split("\n"), False, []
        for at, line in enumerate(lines):
            if line.startswith("```"):
                if not inside and line.strip() == "```" and not (at and MARK.fullmatch(lines[at - 1])):
                    found.append(at + 1)
                inside = not inside
        return found

    def remade(self):
        """The page as the sources make it."""
        lines, made, at = self.text.split("\n"), [], 0
        held = {number: (kind, asked, inside) for number, kind, asked, inside in self.marks()}
        while at < len(lines):
            made.append(lines[at])
            if at + 1 in held:
                kind, asked, inside = held[at + 1]
                made += self.made(kind, asked)
                at += len(inside)
            at += 1
        return "\n".join(made)
