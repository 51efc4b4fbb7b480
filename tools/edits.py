"""Wrong bodies as they are kept: files of lines `file: PATH`, and of pairs of lines `old: TEXT` and `new: TEXT`."""

import re

# The first line of a function, by its column and its name.
START = re.compile(r"( *)(?:pub(?:\([^)]*\))? )?(?:const )?fn (\w+)")


def pairs(text):
    """The replacements of an edit, in order: a path, what stands there once, and what takes its place."""
    found, path, old = [], None, None
    for line in text.split("\n"):
        word, _, rest = line.partition(": " if ": " in line else ":")
        if word == "file":
            path = rest.strip()
        elif word == "old":
            old = rest
        elif word == "new":
            found.append((path, old, rest))
    return found


def applied(text, texts):
    """The texts of the sources, by their paths, with an edit made in them, or None where it cannot be made."""
    made = dict(texts)
    for path, old, new in pairs(text):
        if not old or made.get(path, "").count(old) != 1:
            return None
        made[path] = made[path].replace(old, new)
    return made


def without_generics(text):
    while re.search("<[^<>]*>", text):
        text = re.sub("<[^<>]*>", "", text)
    return text


def last_name(path):
    """The last word of a type or a trait, without what it is applied to."""
    return re.findall(r"\w+", without_generics(path))[-1]


def owner_of(head, module):
    """The path of an impl's functions: the type alone, whose module is where it is declared, or the module of the impl of a trait, and
    the type with the trait after it and what that is applied to."""
    said = re.sub(r"^impl\s*(<(?:[^<>]|<[^<>]*>)*>)?", "", head.replace("->", "")).partition(" where ")[0].strip()
    trait, _, of_type = said.rpartition(" for ")
    if not trait:
        return last_name(of_type) + "::"
    name, _, arguments = trait.partition("<")
    words = re.findall(r"[A-Z]\w*", without_generics(arguments[:-1]))
    return module + "".join([last_name(of_type), last_name(name), *words]) + "::"


def bodies(path, text):
    """The functions of a source by their paths below the crate, or the ends of these, each with the first and the last line of its body."""
    parts = re.sub(r"^src/|\.rt$", "", path).split("/")
    module = "".join(f"{it}::" for it in parts if it not in ("lib", "main", "mod"))
    lines, owner, found = text.split("\n"), module, []
    for at, line in enumerate(lines):
        trait = re.match(r"(?:pub(?:\([^)]*\))? )?trait (\w+)", line)
        if trait:
            owner = f"{module}{trait[1]}::"
        elif re.match(r"impl\b", line):
            owner = owner_of(" ".join(lines[at:]).partition("{")[0], module)
        elif line == "}":
            owner = module
        start = START.match(line)
        if start:
            # The format has a signature's lines and the braces of its body in one column, and clauses further in.
            opening, closing = re.compile(rf"{start[1]}(\S.* )?{{$"), start[1] + "}"
            end = next((it for it in range(at + 1, len(lines)) if START.match(lines[it])), len(lines))
            first = next((it for it in range(at, end) if opening.match(lines[it])), len(lines))
            last = next((it for it in range(first, len(lines)) if lines[it] == closing), None)
            if last is not None:
                found.append((owner + start[2], first, last))
    return found


def functions(text, texts):
    """The functions whose bodies an edit changes, or nothing where it changes anything else."""
    found = set()
    for path, old, new in pairs(text):
        source = texts[path]
        at = source[: source.find(old)].count("\n")
        inside = [name for name, first, last in bodies(path, source) if first <= at <= last]
        if len(inside) != 1:
            return set()
        found.add(inside[0])
        texts = {**texts, path: source.replace(old, new)}
    return found
