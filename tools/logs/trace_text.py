"""Reads the text of a trace as a log, of any length: for cutting, which comes before `vsc` looks at what it may be."""

from logs.cells import number_of
from logs.log import Operation
from logs.mistakes import Mistake, at_line

WORDS = {"R": 3, "W": 3, "U": 4}


def is_trace(first):
    """Whether a line that is no comment is the header of a trace."""
    return first.split()[:1] == ["vsc"]


class TraceText:
    """The lines of a trace: its operations go into a log, and the rest is kept here."""

    def __init__(self, log):
        self.log = log
        self.initial, self.final, self.before = {}, {}, []
        self.operations = self.process = None

    def take(self, lines):
        for number, line in enumerate(lines, 1):
            words = line.split()
            if not words or words[0].startswith("#"):
                continue
            if not self.take_words(number, words):
                raise at_line(number, f"no line of a trace: {line.strip()}")

    def take_words(self, number, words):
        """Whether the line is known."""
        key, count = words[0], len(words)
        if key in WORDS:
            return self.operations is not None and count >= WORDS[key] and self.take_operation(number, key, words)
        if key == "vsc":
            return count == 2
        if key in ("init", "final") and count == 3:
            (self.initial if key == "init" else self.final)[words[1]] = value_of(number, words[2])
            return True
        if key == "proc" and count == 2 and words[1] not in self.log.processes:
            self.process, self.operations = words[1], []
            self.log.processes[words[1]] = self.operations
            return True
        if key == "before" and count == 5 and words[2].isdecimal() and words[4].isdecimal():
            self.before.append(((words[1], int(words[2])), (words[3], int(words[4]))))
            return True
        return False

    def take_operation(self, number, key, words):
        words, span = self.without_times(number, words)
        if len(words) < WORDS[key]:
            return False
        read = value_of(number, words[2]) if key != "W" else None
        written = value_of(number, words[-1 if key == "W" else 3]) if key != "R" else None
        rest, source = words[WORDS[key] :], None
        if rest[:1] == ["from"] and key != "W":
            source = "init" if rest[1:] == ["init"] else (rest[1], int(rest[2])) if len(rest) == 3 and rest[2].isdecimal() else None
        if rest and source is None:
            return False
        self.operations.append(Operation(number, self.process, len(self.operations) + 1, words[1], read, written, *span, source))
        return True

    def without_times(self, number, words):
        """The words of an operation without its times, and these, of which a trace has both or neither."""
        if len(words) < 6 or words[-3] != "at":
            return words, (None, None)
        self.log.has_times = True
        return words[:-3], (value_of(number, words[-2]), value_of(number, words[-1]))

    def look_at_names(self):
        """Refuses orders and sources that name no operation."""
        sources = [(op.process, op.place, op.source) for operations in self.log.processes.values() for op in operations if isinstance(op.source, tuple)]
        for process, place in [name for pair in self.before for name in pair] + [source for _, _, source in sources]:
            if not 1 <= place <= len(self.log.processes.get(process, ())):
                raise Mistake(f"a line names {process}.{place}, which is no operation")


def value_of(number, word):
    value = number_of(word)
    if not isinstance(value, int):
        raise at_line(number, f"{word} is no number")
    return value
