"""Turns Rattle crates into modules of one Rust crate, so that a change of them can be tried in minutes, before anything is proved.

What is Rattle's alone, as contracts, allocators that are handed on and `drop` by value, is taken out or stands in rust_search/shim.rs. `search-as-rust`
and `solver-as-rust` say which crates they take, and bring a `main.rs`.
"""

import os
import re
import shutil

ROOT = os.path.dirname(os.path.dirname(os.path.realpath(__file__)))
TOOLS = os.path.join(ROOT, "tools")
CARGO = """[package]
name = "{name}"
version = "0.0.0"
edition = "2024"

[profile.release]
overflow-checks = false
"""
CONTRACT = re.compile(r"^[ \t]+(?:requires|ensures|invariant|decreases)\b[^{\n]*\{", re.M)


def end_of_braces(text, place):
    """The place after the brace that closes the one at this place."""
    depth = 0
    while True:
        depth += {"{": 1, "}": -1}.get(text[place], 0)
        place += 1
        if depth == 0:
            return place


def without_contracts(text):
    """The file without what it requires and ensures."""
    kept, begin = [], 0
    while found := CONTRACT.search(text, begin):
        kept.append(text[begin:found.start()])
        begin = end_of_braces(text, found.end() - 1)
        if text[begin:begin + 1] == "\n":
            begin += 1
    return "".join([*kept, text[begin:]])


def without_rattle(text):
    """The file without what Rust does not have."""
    text = re.sub(r"^ *#!?\[tactic\([^\n]*\)\]\n", "", text, flags=re.M)
    text = re.sub(r"^ *(?:pub )?ghost [^\n]*\n", "", text, flags=re.M)
    text = re.sub(r"^#\[cfg\(test\)\].*", "", text, flags=re.M | re.S)
    text = without_contracts(text)
    text = re.sub(r"(?:^///[^\n]*\n)*^impl(?:<[^>]*>)? (?:Drop|Model) for [^\n]*\{\n(?:.*?\n)??\}\n", "", text, flags=re.M | re.S)
    text = re.sub(r"#\[derive\(([^)]*)\)\]", lambda it: derived(it[1].split(", ")), text)
    # `Drop` is a bound of all values that may be dropped, which Rust does not ask for.
    text = re.sub(r" \+ Drop\b|: Drop\b", "", text)
    text = text.replace(".collect(alloc)", ".collect_in(alloc)")
    text = text.replace("fn fmt<W: fmt::Write>(&self, f: &mut fmt::Formatter<W>)", "fn fmt(&self, f: &mut fmt::Formatter<'_>)")
    return re.sub(r"vec!\[in (?:self\.)?alloc; ([^;]*); ([^;]*?)\]", r"crate::shim::vec_of(\1, \2)", text)


def derived(names):
    kept = [it for it in names if it != "Drop"]
    return f"#[derive({', '.join(kept)})]" if kept else ""


def constant_of(text, name):
    """How the constant of this name is declared in the file: whom it is shown to, its type and its value."""
    return re.search(rf"^((?:pub(?:\([^)]*\))? )?)const {name}: (\w+) = ([^;]*);", text, flags=re.M)


def with_settings(text, names):
    """The file with functions in place of these constants, so that who runs the program can give them other values."""
    for name in names:
        function = f"setting_{name.lower()}"
        found = constant_of(text, name)
        if found:
            text = f"{text[:found.start()]}@{text[found.end():]}"
        text = re.sub(r"^(?:pub(?:\([^)]*\))? )?use [^;]*;", lambda it: re.sub(rf"\b{name}\b", function, it[0]), text, flags=re.M)
        text = re.sub(rf"\b{name}\b", f"{function}()", text)
        if found:
            shown, kind, default = found.groups()
            text = text.replace("@", f'{shown}fn {function}() -> {kind} {{\n    crate::shim::setting!("{name}", {kind}, {default})\n}}', 1)
    return text


def as_module(crate, file, text, crates):
    """The file of the crate as one of a module of that name."""
    text = re.sub(r"\buse (?:std::alloc|std::collections|std::snapshot|itoa|smallvec|memchr)::", "use crate::shim::", text)
    text = re.sub(r"\buse std::sync::Mutex;", "use crate::shim::Mutex;", text)
    text = re.sub(r"^use std::marker::Model;\n", "", text, flags=re.M)
    text = text.replace("use std::marker::{Model, PhantomData};", "use std::marker::PhantomData;")
    text = re.sub(r"\bcrate::(?!shim)", f"crate::{crate}::", text)
    for other in crates:
        place = "self" if file == "lib.rt" and other == crate else "crate"
        text = re.sub(rf"(?<![:\w]){other}::", rf"{place}::{other}::", text, flags=re.M)
    if file == "lib.rt":
        return re.sub(rf"^(pub )?mod {crate};", rf'#[path = "own_{crate}.rs"]\n\1mod {crate};', text, flags=re.M)
    if not re.search(r"\bVec\b", text):
        return text
    return re.sub(r"^(?=(?:pub )?use |const |fn |/// |#\[)", "use crate::shim::{Collecting, Vec};\n", text, count=1, flags=re.M)


def rust_name(crate, file):
    name = file.removesuffix(".rt")
    return "mod.rs" if name == "lib" else f"own_{name}.rs" if name == crate else f"{name}.rs"


def make_project(to, name, own):
    """Makes a cargo project of this name, with the `main.rs` of a folder of tools/, and no crate yet."""
    os.makedirs(os.path.join(to, "src"), exist_ok=True)
    with open(os.path.join(to, "Cargo.toml"), "w", encoding="ascii") as file:
        file.write(CARGO.format(name=name))
    shutil.copy2(os.path.join(TOOLS, "rust_search", "shim.rs"), os.path.join(to, "src", "shim.rs"))
    shutil.copy2(os.path.join(TOOLS, own, "main.rs"), os.path.join(to, "src", "main.rs"))


def translate(to, crates, crate, file, others, folder, change=lambda crate, file, text: text):
    """Writes a file of the crate as Rust. `change` gets it without what is Rattle's alone, before the crate becomes a module beside `others`."""
    with open(os.path.join(crates, crate, "src", file), encoding="utf-8") as read:
        text = as_module(crate, file, change(crate, file, without_rattle(read.read())), others)
    with open(os.path.join(to, "src", folder, rust_name(crate, file)), "w", encoding="utf-8") as written:
        written.write(text)


def translate_crate(to, crates, crate, others, left_out=(), **more):
    """Writes the files of the crate as Rust, but for those that are left out."""
    os.makedirs(os.path.join(to, "src", crate), exist_ok=True)
    for file in sorted(os.listdir(os.path.join(crates, crate, "src"))):
        if file.removesuffix(".rt") not in left_out:
            translate(to, crates, crate, file, others, crate, **more)
