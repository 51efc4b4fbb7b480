"""Finds the public calls of the crates: the functions and methods that another crate can name, with their parameters and clauses."""

import os
import re

START = re.compile(r"( *)(pub )?(?:const )?fn (\w+)")
OWNER = re.compile(r"(?:pub )?(?:impl|trait)\b")
CLAUSE = re.compile(r"\s*(?:ensures|requires|ghost|where)\b")
# Types of the kit and of the language that a call takes by value and that lose nothing by it.
PLAIN = {"Global", "bool", "u8", "u16", "u32", "u64", "usize", "i64"}


class Call:
    """A public function or method.

    owner is the type or trait that it belongs to, and trait the trait that a method of an impl is of. parameters are pairs of a name and a
    type, result is the type after the arrow, and clauses are pairs of a label and a text, those of `ensures` alone.
    """

    def __init__(self, crate, file, owner, trait, name):
        self.crate, self.file, self.owner, self.trait, self.name = crate, file, owner, trait, name
        self.parameters, self.result, self.clauses = [], "", []

    def title(self):
        return f"{self.owner}::{self.name}" if self.owner else self.name

    def can_refuse(self):
        return self.result.startswith("Result<")

    def refusal(self):
        """The type of the error, or None of a call that cannot refuse."""
        return split_outside(self.result[len("Result<"):-1], ",")[1].strip() if self.can_refuse() else None


def read(path):
    with open(path, encoding="utf-8") as file:
        return file.read()


def split_outside(text, mark):
    """The pieces of a text between marks that stand in no brackets."""
    pieces, depth, start = [], 0, 0
    for at, letter in enumerate(text):
        if letter in "([{<":
            depth += 1
        elif letter in ")]}" or letter == ">" and text[at - 1] != "-":
            depth -= 1
        elif letter == mark and not depth:
            pieces.append(text[start:at])
            start = at + 1
    return pieces + [text[start:]]


def closing(text, at):
    """The place of the bracket that closes the one at a place."""
    pairs, depth = {"(": ")", "{": "}"}, 0
    for place in range(at, len(text)):
        depth += (text[place] == text[at]) - (text[place] == pairs[text[at]])
        if not depth:
            return place
    raise ValueError(f"no bracket closes {text[at:at + 80]}")


def exports(folder, module="lib"):
    """The modules of a crate whose items can be named from outside: each with their names, or with None for all."""
    path = f"{folder}/{module}.rt"
    if not os.path.exists(path):
        return []
    text, below = read(path), "" if module == "lib" else f"{module}/"
    found = [("lib", None)] if module == "lib" else []
    for inner in re.findall(r"(?m)^pub mod (\w+);", text):
        found += [(f"{below}{inner}", None), *exports(folder, f"{below}{inner}")]
    for base, many, one in re.findall(r"(?m)^pub use (?:crate::|self::)?([\w:]+)::(?:\{([^}]*)\}|(\w+));", text):
        names = {name.split(" as ")[0].strip() for name in (many or one).split(",")}
        found.append((below + base.replace("::", "/"), names))
    return found


def without_generics(text):
    text = text.replace("->", "")
    while re.search("<[^<>]*>", text):
        text = re.sub("<[^<>]*>", "", text)
    return text


def owner_of(head):
    """The type of an impl, or the name of a trait; and the trait of an impl that has one."""
    said = without_generics(re.sub(r"^pub ", "", head)).partition(" where ")[0].strip(" {")
    trait, _, of_type = re.sub(r"^(?:impl|trait)\s*", "", said).rpartition(" for ")
    return re.findall(r"\w+", of_type)[0], (re.findall(r"\w+", trait) or [None])[-1]


def fill(call, text):
    """Reads the parameters, the result and the clauses from the text that begins with the call's signature."""
    at = re.compile(rf"fn {call.name}(?:<(?:[^()]|\([^()]*\))*?>)?\(").search(text).end() - 1
    end = closing(text, at)
    for piece in filter(str.strip, split_outside(text[at + 1:end], ",")):
        name, _, kind = piece.strip().partition(": ")
        borrowed = re.match(r"&(?:'\w+ )?(?:mut )?", name)
        call.parameters.append((name.removeprefix("mut "), kind) if kind else ("self", (borrowed[0] if borrowed else "") + "Self"))
    rest = text[end + 1:]
    head = re.match(r"\s*(?:->([^{;]*?))?\s*(?=\n\s*(?:ensures|requires|ghost|where)\b|\{|;)", rest)
    call.result = " ".join((head[1] or "").split())
    rest = rest[head.end():]
    while True:
        clause = re.match(r"\s*(ensures|requires|ghost|where)\b *(\w*) *\*? *(?=\{)", rest)
        if not clause:
            return
        close = closing(rest, clause.end())
        if clause[1] == "ensures":
            call.clauses.append((clause[2], " ".join(rest[clause.end() + 1:close].split())))
        rest = rest[close + 1:]


def functions(crate, path, text):
    """All functions of a file that are public, or belong to a trait."""
    lines = text.split("\n")
    owner = trait = None
    is_of_trait = False
    for at, line in enumerate(lines):
        if OWNER.match(line) and "Model for" not in line:
            owner, trait = owner_of(line)
            is_of_trait = bool(re.match(r"(?:pub )?trait\b", line)) or trait is not None
        if line == "}":
            owner, trait, is_of_trait = None, None, False
        start = START.match(line)
        if start and (start[2] or is_of_trait):
            call = Call(crate, path, owner, trait, start[3])
            fill(call, "\n".join(lines[at:]))
            yield call


def modules_of(folder):
    """The modules of a crate, by their files below src, without the ending."""
    for at, _, files in os.walk(folder):
        for file in files:
            if file.endswith(".rt"):
                yield os.path.relpath(os.path.join(at, file), folder)[:-len(".rt")]


def public_calls(root):
    """The public calls of all crates, by their crates' names, their files and their places: what a module exports, and in whichever module they
    stand the public methods of the types that are exported."""
    found = []
    for crate in sorted(os.listdir(f"{root}/crates")):
        folder, opened, types = f"{root}/crates/{crate}/src", {}, set()
        for module, names in exports(folder):
            is_all = names is None or opened.get(module, names) is None
            opened[module] = None if is_all else opened.get(module, set()) | names
            if os.path.exists(f"{folder}/{module}.rt"):
                declared = set(re.findall(r"(?m)^pub (?:struct|enum) (\w+)", read(f"{folder}/{module}.rt")))
                types |= declared if names is None else declared & names
        for module in sorted(modules_of(folder)):
            names = opened.get(module, set())
            for call in functions(crate, f"{crate}/src/{module}.rt", read(f"{folder}/{module}.rt")):
                if names is None or (call.owner or call.name) in names or (call.owner in types and not call.trait):
                    found.append(call)
    return found


def copied_types(root, crate):
    """The types of a crate that are `Copy`, which a call takes by value without loss."""
    found = set()
    for at, _, files in os.walk(f"{root}/crates/{crate}/src"):
        for file in files:
            form = r"#\[derive\(([^)]*)\)\]\n(?:#\[[^\n]*\n|///[^\n]*\n)*pub (?:struct|enum) (\w+)"
            found |= {name for derived, name in re.findall(form, read(os.path.join(at, file))) if "Copy" in re.findall(r"\w+", derived)}
    return found
