"""A picture that `vsc` drew, as a part of a page: without what it does not need, and with ids and styles that clash with no other."""

import re
import xml.etree.ElementTree as ElementTree
from xml.sax.saxutils import escape, quoteattr

SVG = "{http://www.w3.org/2000/svg}"
SPACE = "{http://www.w3.org/XML/1998/namespace}space"
ELEMENTS = {"svg", "defs", "marker", "path", "rect", "text", "tspan"}
ATTRIBUTES = {"class", "d", "height", "id", "markerHeight", "markerUnits", "markerWidth", "orient", "refX", "refY", "rx", "viewBox", "width", "x", "y"}
REFERENCE = re.compile(r"url\(#([a-z]+)\)")
RULE = re.compile(r"([^{}@]+)\{([^{}]*)\}")


class Strange(Exception):
    """What no picture of `vsc` has."""


def element(node, prefix):
    """The text of an element and of what is in it."""
    name = node.tag[len(SVG):] if isinstance(node.tag, str) and node.tag.startswith(SVG) else None
    if name not in ELEMENTS:
        raise Strange(f"the element {node.tag}")
    words = [name]
    for key, value in node.attrib.items():
        reference = REFERENCE.fullmatch(value)
        if key == "marker-end" and reference:
            words.append(f'marker-end="url(#{prefix}{reference[1]})"')
        elif key == "id":
            words.append(f"id={quoteattr(prefix + value)}")
        elif key in ATTRIBUTES:
            words.append(f"{key}={quoteattr(value)}")
        elif key == SPACE and value == "preserve":
            words.append('xml:space="preserve"')
        elif key not in (SPACE, "version"):
            raise Strange(f"the attribute {key}")
    inner = "" if not node.text else escape(node.text) if name in ("text", "tspan") else ""
    for child in node:
        if child.tag != f"{SVG}style":
            inner += element(child, prefix) + (escape(child.tail or "") if name in ("text", "tspan") else "")
    return f"<{' '.join(words)}>{inner}</{name}>"


def scoped(style, scope):
    """A style sheet whose rules are about one part of the page alone."""
    if re.search(r"[<\\]|@(?!media)|url\(", style):
        raise Strange("such a style")

    def rule(found):
        selectors = [f"{scope} {it.strip()}" for it in found[1].split(",")]
        return f"{', '.join(selectors)} {{{found[2]}}}\n"

    return RULE.sub(rule, style)


class Pictures:
    """The pictures of a page. Those of one program have one style, which stands once in the page."""

    def __init__(self):
        self.styles = {}

    def style(self):
        return "".join(scoped(style, f".{name}") for style, name in self.styles.items())

    def part(self, text, prefix, title):
        """A picture as a part of the page, or None if there is none or it is strange. A picture without an answer is an empty file."""
        if not text or "<!DOCTYPE" in text or "<!ENTITY" in text:
            return None
        try:
            root = ElementTree.fromstring(text)
            style = "".join(it.text or "" for it in root.iter(f"{SVG}style"))
            made = element(root, prefix)
            scoped(style, ".")
        except (ElementTree.ParseError, Strange, RecursionError):
            return None
        name = self.styles.setdefault(style, f"drawn{len(self.styles) + 1}")
        return f'<div class="picture {name}" role="img" aria-label={quoteattr(title)} tabindex="0">{made}</div>'
