"""The page of a run: one HTML document, which loads nothing."""

import base64
import hashlib
import os

from .kept import Kept, stem_of
from .pictures import Pictures
from .results import VERDICTS, counted as counted_by_verdict
from .shown import counted, escaped, visible
from .trace_lines import excerpt, lines_of, named_in

HERE = os.path.dirname(os.path.realpath(__file__))
# At most so many parts on an INCONSISTENT are open when the page is.
MOST_OPEN = 3
# What each verdict means, in a few words.
MEANINGS = {
    "INCONSISTENT": "no order of all operations explains what was read",
    "refused": "the text is no trace that can be decided",
    "UNKNOWN": "not decided: the search reached its limit",
    "CONSISTENT": "some order of all operations explains what was read",
}
FORM = """<!DOCTYPE html>
<html lang="en">
<head>
<meta charset="utf-8">
<meta http-equiv="Content-Security-Policy" content="default-src 'none'; style-src '{style_hash}'; script-src '{script_hash}'; base-uri 'none'; form-action 'none'">
<meta name="viewport" content="width=device-width, initial-scale=1">
<title>{title}</title>
<style>{style}</style>
</head>
<body>
{body}
<script>{script}</script>
</body>
</html>
"""


def own_file(name):
    with open(os.path.join(HERE, name), encoding="utf-8") as file:
        return file.read()


def hash_of(text):
    return "sha256-" + base64.b64encode(hashlib.sha256(text.encode()).digest()).decode("ascii")


def first_sentence(result):
    """The first sentence that says something by itself: not the head of a derivation, which ends in a colon."""
    return next((it for it in result.why or [] if not it.endswith(":")), "")


class Page:
    """A page of these results, with the files of a folder."""

    def __init__(self, results, folder, title, most_rows):
        self.results, self.folder, self.title = results, folder, title
        self.numbers = counted_by_verdict(results)
        self.pictures = Pictures()
        self.listed = self.listed_of(most_rows)
        self.parts = [it for it in self.listed if it.verdict == "INCONSISTENT"]
        self.places = {id(it): at for at, it in enumerate(self.parts, 1)}
        last = {it.file: it.number for it in results}
        self.many = {file for file, number in last.items() if number > 1}

    def listed_of(self, most):
        """The results that have a row, in the order of the run: if they are too many, those that are not CONSISTENT go first."""
        if len(self.results) <= most:
            return self.results
        first = sorted(range(len(self.results)), key=lambda at: VERDICTS.index(self.results[at].verdict))
        return [self.results[at] for at in sorted(first[:most])]

    # ---- the head of the page

    def summary(self):
        said = [f'<span class="verdict {it}">{self.numbers[it]:,} {it}</span>' for it in VERDICTS if self.numbers[it]]
        lines = [f"<h1>{escaped(self.title)}</h1>", f"<p>{counted(len(self.results), 'trace')}: {', '.join(said) or 'nothing to decide'}</p>"]
        meant = [f"{it}: {MEANINGS[it]}." for it in VERDICTS if self.numbers[it]]
        return "\n".join([*lines, f'<p class="quiet">{" ".join(meant)}</p>'])

    def tools(self):
        buttons = [f'<button type="button" value="{it}" aria-pressed="true" class="{it}">{it} {self.numbers[it]:,}</button>' for it in VERDICTS if self.numbers[it]]
        search = '<input type="search" placeholder="words of the name or the sentence" aria-label="show only rows with these words">'
        return f'<div class="tools" hidden>{"".join(buttons)}{search}</div>'

    # ---- the table

    def row(self, at, result):
        name = escaped(result.name())
        place = self.places.get(id(result))
        link = f'<a href="#t{place}">{name}</a>' if place else name
        why = escaped(first_sentence(result))
        return (
            f'<tr data-verdict="{result.verdict}"><td class="number">{at}</td><td class="name"><bdi>{link}</bdi></td><td class="number">{"" if result.line is None else result.line}</td>'
            f'<td class="verdict {result.verdict}" data-key="{VERDICTS.index(result.verdict)} {escaped(result.said())}">{escaped(result.said())}</td><td class="sentence">{why}</td></tr>'
        )

    def table(self):
        heads = (("No.", "number"), ("Trace", ""), ("Line", "number"), ("Verdict", ""), ("First sentence", ""))
        sorted_by = {"Verdict": ' aria-sort="ascending"'}
        head = "".join(f'<th scope="col" class="{kind}"{sorted_by.get(said, "")}><button type="button">{said}</button></th>' for said, kind in heads)
        placed = sorted(enumerate(self.listed, 1), key=lambda it: VERDICTS.index(it[1].verdict))
        rows = "\n".join(self.row(at, it) for at, it in placed)
        left = len(self.results) - len(self.listed)
        more = f'<p class="quiet">{counted(left, "more trace")}, which the lines of the run have, got no row here.</p>' if left else ""
        return f'<div class="rows"><table><thead><tr>{head}</tr></thead><tbody>\n{rows}\n</tbody></table></div>\n<p id="shown" class="quiet" aria-live="polite"></p>{more}'

    # ---- what there is on an INCONSISTENT

    def trace(self, text, marked):
        lines = lines_of(text)
        shown, made, gap = excerpt(lines, marked), [], False
        for at, line in enumerate(lines):
            if at not in shown:
                gap = True
                continue
            made += ['<span data-name="">..</span>'] if gap else []
            gap = False
            kind = "mark" if line.operation in marked else "span"
            made.append(f'<{kind} data-name="{escaped(line.operation or "")}">{escaped(line.text, kept=chr(9)) or " "}</{kind}>')
        made += ['<span data-name="">..</span>'] if gap else []
        return f'<pre class="trace" tabindex="0">{"".join(made)}</pre>'

    def why(self, result, kept):
        """The sentences, and the commands that check the verdict again."""
        made = []
        if result.why:
            made += ["<h3>Why</h3>", '<ul class="why">', *(f"<li>{escaped(it)}</li>" for it in result.why), "</ul>"]
        commands = kept.commands()
        if commands:
            made += ["<h3>Check it again</h3>", f"<pre>{escaped(chr(10).join(commands), kept=chr(10))}</pre>"]
        else:
            made.append('<p class="quiet">No certificate of it is in a folder that was given: <code>--keep FOLDER</code> keeps one.</p>')
        return f"<div>{''.join(made)}</div>"

    def marked_trace(self, result, kept):
        """The trace with the core marked, or else with what the sentences name."""
        text = kept.text(".trace")
        if text is None:
            return f"<div><h3>Core</h3><p>{escaped(' '.join(result.core))}</p></div>" if result.core else ""
        marked = set(result.core or []) or named_in(result.why or [])
        told = "marked: the core, which has no legal schedule by itself" if result.core else "marked: what the sentences name" if marked else "nothing is marked"
        return f"<div><h3>Trace ({told})</h3>{self.trace(text, marked)}</div>"

    def part(self, result):
        place = self.places[id(result)]
        kept = Kept(self.folder, stem_of(result, result.file in self.many))
        drawn = self.pictures.part(kept.text(".svg"), f"t{place}-", f"picture of {visible(result.name())}")
        picture = f'<div class="whole"><h3>Picture</h3>{drawn}</div>' if drawn else ""
        is_open = " open" if len(self.parts) <= MOST_OPEN else ""
        head = f'<summary><h2><bdi>{escaped(result.name())}</bdi> <span class="verdict INCONSISTENT">{escaped(result.said())}</span></h2></summary>'
        inner = f"{picture}{self.why(result, kept)}{self.marked_trace(result, kept)}"
        return f'<details id="t{place}"{is_open}>{head}\n<div class="parts">{inner}</div></details>'

    def text(self):
        parts = "\n".join(self.part(it) for it in self.parts)
        style, script = own_file("page.css") + self.pictures.style(), own_file("page.js")
        body = "\n".join([self.summary(), self.tools(), self.table(), parts])
        hashes = {"style_hash": hash_of(style), "script_hash": hash_of(script)}
        return FORM.format(title=escaped(self.title), style=style, script=script, body=body, **hashes)
