"""The lines of a trace's text, with the names of its operations."""

import re

OPERATIONS = ("R", "W", "U")
NAME = re.compile(r"\b([A-Za-z_][A-Za-z0-9_]{0,31})\.([1-9]\d{0,4})\b")


class Line:
    """A line: its number, its text, the name of the operation that it is, and whether it begins a process."""

    def __init__(self, number, text, operation, is_process):
        self.number, self.text, self.operation, self.is_process = number, text, operation, is_process


def lines_of(text):
    """The lines of a trace, whether or not it is well formed."""
    found, process, place = [], None, 0
    for number, line in enumerate(text.split("\n"), 1):
        words = line.split()
        is_process = len(words) == 2 and words[0] == "proc"
        is_operation = process is not None and bool(words) and words[0] in OPERATIONS
        if is_process:
            process, place = words[1], 0
        place += is_operation
        found.append(Line(number, line.rstrip("\r"), f"{process}.{place}" if is_operation else None, is_process))
    if found and not found[-1].text:
        found.pop()
    return found


def named_in(sentences):
    """The operations that sentences name."""
    return {f"{process}.{place}" for sentence in sentences for process, place in NAME.findall(sentence)}


def excerpt(lines, marked, around=2, most=60):
    """Which lines to show: all of a short trace; of a long one those that are marked, with their neighbours, the heads of their processes, and what
    their locations hold at the start and in the end."""
    if len(lines) <= most:
        return set(range(len(lines)))
    locations = {line.text.split()[1] for line in lines if line.operation in marked and len(line.text.split()) > 1}
    shown, head = set(), None
    for at, line in enumerate(lines):
        words = line.text.split()
        head = at if line.is_process else head
        if line.operation in marked:
            shown.update(range(max(0, at - around), min(len(lines), at + around + 1)), [] if head is None else [head])
        elif len(words) == 3 and words[0] in ("init", "final") and words[1] in locations:
            shown.add(at)
    return shown or set(range(most))
