"""Texts of others, as files and traces are named, in a page and in XML."""

import html
import unicodedata

# Characters that change how a line is read, or that no page and no XML may have: of control, of direction, halves of pairs, and none at all.
HIDDEN = ("Cc", "Cf", "Cs", "Cn", "Co", "Zl", "Zp")


def visible(text, kept=""):
    """The text with each hidden character as its number."""
    return "".join(it if it in kept or unicodedata.category(it) not in HIDDEN else f"\\u{{{ord(it):x}}}" for it in text)


def escaped(text, kept=""):
    """The text as a part of a page or of XML, between tags and in a quoted attribute."""
    return html.escape(visible(text, kept), quote=True)


def counted(number, word):
    return f"{number:,} {word}" + ("" if number == 1 else "s")
