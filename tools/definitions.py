"""Reads definitions from the sources of the crates, and follows their names: from a contract to every definition that it reaches.

A definition is an equation, a record or a datatype of a file in specs/, or a type, a trait or a constant of a file in src/. What it
speaks of is found by its words and by the imports of its file. Words that are bound, as parameters, or that name a field, are left out.
"""

import os
import re

WORD = r"[A-Za-zℕℤ_][A-Za-z0-9_'ℕℤ]*"
# Crates of containers: clauses see a value of theirs as the list of its elements, so nothing of them has to be believed.
CONTAINERS = ("short_lists",)
CONSTRUCTORS = ("zero", "suc", "pos", "negsuc", "true", "false", "tt")


class NotFound(Exception):
    """A name that an import promises, and that its file does not have."""


class Library:
    """A name of the kit's libraries, which has no definition here."""

    def __init__(self, name):
        self.name = name


class Item:
    """A definition: its file, its name, its kind, its comment, its signature if that stands apart, and its lines."""

    def __init__(self, file, name, kind, comment, signature, body):
        self.file, self.name, self.kind = file, name, kind
        self.comment, self.signature, self.body = comment, signature, body
        self.model = []

    def first(self, count):
        """The first equations of the definition."""
        starts = [at for at, line in enumerate(self.body) if not line.startswith((" ", "}"))] + [len(self.body)]
        return Item(self.file, self.name, self.kind, self.comment, self.signature, self.body[:starts[count]])

    def is_seen_by_its_model(self):
        """Whether clauses see no field of the type, but what its model says."""
        return self.kind == "struct" and self.model and not re.search(r"(?m)^    pub ", "\n".join(self.body))

    def model_lines(self):
        """What the model says of the values that clauses see."""
        return [line for line in self.model if re.match(r"impl|\s+ghost (Value|view|invariant) =|\}", line)]

    def lines(self):
        """The lines that are quoted, word for word: no signature, no import, no attribute, and not how a value is stored."""
        if self.is_seen_by_its_model():
            return self.comment + self.model_lines()
        return self.comment + [line for line in self.body if not re.match(r"\s*#\[", line)]


class Contract:
    """A public call: its header with all clauses, and each clause by its label."""

    def __init__(self, file, name, lines):
        self.file, self.name, self.lines = file, name, lines
        text = "\n".join(lines)
        found = re.split(r"\n    (?:ensures|requires) (\w*) ?\{", text)
        self.head = found[0]
        self.clauses = list(zip(found[1::2], found[2::2]))
        if not self.clauses:
            raise NotFound(f"{name} of {file} has no clause")

    def traits(self, clauses):
        """The traits of those type parameters of which one of these clauses names what they show."""
        bounds = dict(re.findall(r"[<,]\s*(\w): ([^,<>]+)", self.head))
        named = set(re.findall(r"\b([A-Z])\.\w", "".join(clauses)))
        return [trait.strip() for letter in sorted(named) for trait in bounds[letter].split("+")]


class Source:
    """A file: its imports and its definitions."""

    def __init__(self, path, text):
        self.path, self.text = path, text
        self.crate = path.split("/")[0]
        self.lines = text.split("\n")
        self.imports, self.modules, self.uses = {}, {}, {}
        self.items, self.inner = {}, {}
        self.read_ghost_imports()
        if path.endswith(".antt"):
            self.read_specs()
        else:
            self.read_rust_imports()
            self.read_rust()

    def read_ghost_imports(self):
        form = r"(?m)^\s*(?:ghost )?use Rattle\.([A-Za-z0-9_.]+?)(?:\.\{([^}]*)\}| as (\w+));?$"
        read = re.findall(form, self.text)
        if len(read) != len(re.findall(r"(?m)^\s*(?:ghost )?use Rattle\b", self.text)):
            raise NotFound(f"{self.path} has an import of a form that is not known here")
        for module, names, alias in read:
            if alias:
                self.modules[alias] = module
            for name in filter(None, (one.strip() for one in names.split(","))):
                origin, _, here = name.partition(" as ")
                self.imports[here or origin] = (module, origin)

    def read_rust_imports(self):
        for base, many, one in re.findall(r"(?m)^use (?:([A-Za-z0-9_:]+)::)(?:\{([^}]*)\}|(\w+));", self.text):
            for name in (many or one).split(","):
                self.uses[name.strip().split(" as ")[0]] = base

    def head(self):
        """What the file says of itself in its first lines."""
        mark = "--" if self.path.endswith(".antt") else "//!"
        said = []
        for line in self.lines:
            if not line.startswith(mark) or line.strip() == mark:
                break
            said.append(line[len(mark):].strip())
        return " ".join(said)

    def read_specs(self):
        """A definition is a comment, its first line, and the lines up to the next blank one. Laws have that form too, and are not reached."""
        for paragraph in re.split(r"\n\s*\n", self.text):
            lines = paragraph.strip("\n").split("\n")
            comment = []
            while lines and lines[0].startswith("--"):
                comment.append(lines.pop(0))
            if not lines:
                continue
            equation = re.match(rf"(?:abbrev )?(?:pub )?({WORD}) : ", lines[0])
            block = re.match(rf"(?:pub )?(record|data) ({WORD})", lines[0])
            if equation:
                self.items[equation[1]] = Item(self.path, equation[1], "equation", comment, lines[0], lines[1:])
            elif block:
                item = Item(self.path, block[2], block[1], comment, "", lines)
                self.items[block[2]] = item
                if block[1] == "data":
                    self.inner.update({name: item for name in re.findall(rf"(?m)^\s+({WORD}) :", paragraph)})

    def read_rust(self):
        at, comment = 0, []
        while at < len(self.lines):
            line = self.lines[at]
            item = re.match(r"pub(?:\(crate\))? (struct|enum|trait|const) (\w+)", line)
            model = re.match(r"impl(?:<[^>]*>)? Model for (\w+)", line)
            body = [line]
            if (item or model) and not line.endswith((";", "}")):
                end = self.lines.index("}", at)
                body, at = self.lines[at:end + 1], end
            if item:
                self.items[item[2]] = Item(self.path, item[2], item[1], comment, "", body)
            elif model and model[1] in self.items:
                self.items[model[1]].model = body
            if line.startswith("///"):
                comment = comment + [line]
            elif not line.startswith("#["):
                comment = []
            at += 1

    def contract(self, name):
        """The public function of this name, up to its body."""
        starts = [at for at, line in enumerate(self.lines) if re.match(rf"pub fn {name}\b", line)]
        if len(starts) != 1:
            raise NotFound(f"{self.path} has no public function {name}")
        end = next(at for at in range(starts[0], len(self.lines)) if self.lines[at] in ("{", "{}"))
        return Contract(self.path, name, self.lines[starts[0]:end])


def binders(text):
    """The names that a text binds: by λ, or by a pair of brackets with a type."""
    bound = set()
    for part in re.findall(r"λ ((?:[^.()]|\([^()]*\))*)\.", text):
        bound.update(re.sub(r"\([^()]*\)", " ", part).split())
    for part in re.findall(rf"[({{]((?:{WORD} )+): ", text):
        bound.update(part.split())
    return bound


def equations(body):
    """The lines of a definition, one text for each equation."""
    found = []
    for line in body:
        if line.startswith((" ", "}")) and found:
            found[-1] += "\n" + line
        else:
            found.append(line)
    return found


class Crates:
    """The sources below a folder of crates, each of which is read once."""

    def __init__(self, folder):
        self.folder = folder
        self.sources = {}
        self.known = {}

    def source(self, path):
        if path not in self.sources:
            with open(os.path.join(self.folder, path), encoding="utf-8") as file:
                self.sources[path] = Source(path, file.read())
        return self.sources[path]

    def has(self, path):
        return os.path.exists(os.path.join(self.folder, path))

    def declared(self, crate, parts, name):
        """A type, or a constant, that specs see of a file in src/."""
        if parts[-1] == "TheVariants":
            name, modules = parts[-2], parts[:-2]
        elif parts[-1] == "TheConstants":
            modules = parts[:-1]
        else:
            name, modules = parts[-1], parts[:-1]
        path = f"{crate}/src/{'/'.join(modules)}.rt"
        return self.source(path if self.has(path) else f"{crate}/src/lib.rt").items.get(name)

    def resolve(self, module, name):
        """The definition of a name that a module of `Rattle` has."""
        parts = module.split(".")
        if not self.has(parts[0]):
            return Library(name)
        if parts[2] == "declared":
            found = self.declared(parts[0], parts[3:], name)
        else:
            source = self.source(f"{parts[0]}/specs/{'/'.join(parts[2:])}.antt")
            found = source.items.get(name) or source.inner.get(name)
        if found is None:
            raise NotFound(f"{module} has no {name}")
        return found

    def lookup(self, source, name):
        """What a name stands for in a file: a definition, a name of a library, or nothing."""
        if name in source.items:
            return source.items[name]
        if name in source.inner:
            return source.inner[name]
        if name in source.imports:
            return self.resolve(*source.imports[name])
        return None

    def named(self, source, text, bound):
        """What the words of a text stand for, in order."""
        text = re.sub(r'"[^"]*"', '""', text)
        found = []
        for module, name in re.findall(rf"(?<![A-Za-z0-9_'.)\]])(?:({WORD})\.)?({WORD})", text):
            if module in source.modules and module not in bound:
                found.append(self.resolve(source.modules[module], name))
            elif (module or name) not in bound:
                found.append(self.lookup(source, module or name))
        return [one for one in found if one is not None]

    def of_equation(self, source, text):
        """What an equation speaks of: constructors on its left, and on its right all but its parameters."""
        left, _, right = text.partition(" =")
        bound, found = binders(right) | binders(left), []
        for word in re.findall(WORD, left)[1:]:
            meant = self.lookup(source, word)
            is_parameter = meant is None or isinstance(meant, Item) and meant.kind == "equation"
            if isinstance(meant, Library):
                is_parameter = word[0].islower() and word not in CONSTRUCTORS
            if is_parameter:
                bound.add(word)
            else:
                found.append(meant)
        right = re.sub(rf"(?m)(record \{{|[;{{]|^)\s*({WORD}) =(?!=)", r"\1 ", right)
        return found + self.named(source, right, bound)

    def of_block(self, source, item):
        """What a record or a datatype speaks of: the types of its parameters and of its fields."""
        head = item.body[0].split(item.name, 1)[1]
        bound = binders(head)
        found = self.named(source, head, bound)
        for line in item.body[1:]:
            field = re.match(rf"\s+(?:pub )?({WORD}) : (.*)", line)
            found += self.named(source, field[2] if field else line, bound | binders(line))
            if field and item.kind == "record":
                bound = bound | {field[1]}
        return found

    def rust_type(self, source, name):
        """The type or trait that a file in src/ calls by this name, if it is one of these crates."""
        if name in source.items:
            return source.items[name]
        parts = source.uses.get(name, "").split("::")
        crate = source.crate if parts[0] == "crate" else parts[0]
        if not crate or not self.has(f"{crate}/src/lib.rt"):
            return None
        public = re.findall(r"pub use (?:crate::|self::)?([a-z_:]+)::(?:\{([^}]*)\}|(\w+));", self.source(f"{crate}/src/lib.rt").text)
        places = [parts[1:]] + [module.split("::") for module, many, one in public if name in re.split(r",\s*", many or one)]
        for modules in places:
            path = f"{crate}/src/{'/'.join(modules) or 'lib'}.rt"
            if self.has(path) and name in self.source(path).items:
                return self.source(path).items[name]
        raise NotFound(f"{source.path} uses {name}, which is nowhere in {crate}")

    def of_shown_fields(self, source, item):
        """The types of the fields that the model of a type shows, if they are of these crates."""
        shown = set(re.findall(r"\.(\w+)", "\n".join(item.model_lines())))
        fields = (re.match(r"\s+(?:pub(?:\(crate\))? )?(\w+): (.*)", line) for line in item.body)
        types = (word for field in fields if field and field[1] in shown for word in re.findall(r"\b[A-Z]\w+", field[2]))
        found = filter(None, (self.rust_type(source, word) for word in types))
        return [it for it in found if it.file.split("/")[0] not in CONTAINERS]

    def of_rust(self, source, item):
        """What a type, a trait or a constant speaks of."""
        lines = item.model_lines() if item.is_seen_by_its_model() else item.body
        found = self.of_shown_fields(source, item) if item.is_seen_by_its_model() else []
        for line in lines:
            line = re.sub(r"//.*|#\[.*", "", line)
            clause = re.match(r"\s+(?:ghost \w+\s*[:=]|(?:ensures|requires) \w* ?)(.*)", line)
            if clause:
                found += self.named(source, clause[1], binders(line))
            elif not item.is_seen_by_its_model():
                found += filter(None, (self.rust_type(source, word) for word in re.findall(r"\b[A-Z]\w+", line) if word != item.name))
        return found

    def references(self, item):
        """What a definition speaks of, in order."""
        if item not in self.known:
            source = self.source(item.file)
            if item.kind == "equation":
                found = self.named(source, item.signature.split(" : ", 1)[1], binders(item.signature))
                for text in equations(item.body):
                    found += self.of_equation(source, text)
            elif item.kind in ("record", "data"):
                found = self.of_block(source, item)
            else:
                found = self.of_rust(source, item)
            self.known[item] = found
        return self.known[item]

    def of_clause(self, contract, text):
        """What a clause of a contract speaks of, and the traits of what it names."""
        return self.named(self.source(contract.file), text, binders(text))

    def of_traits(self, contract, clauses):
        """The traits, of these crates, of what some clauses of a contract name."""
        source = self.source(contract.file)
        return list(filter(None, (self.rust_type(source, trait) for trait in contract.traits(clauses) if trait in source.uses)))

    def reached(self, roots, already):
        """All definitions that these reach, those already known left out: each after what it speaks of, as far as that is possible."""
        order, seen = [], set(already)

        def visit(item):
            if isinstance(item, Library) or item in seen:
                return
            seen.add(item)
            for other in self.references(item):
                visit(other)
            order.append(item)

        for root in roots:
            visit(root)
        return order
