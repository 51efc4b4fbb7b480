"""Reads histories of Jepsen: EDN, a map for each event; registers and compare-and-set, also with independent keys.

What an operation was is known from its two events, `:invoke` and `:ok`. The place of an event in the history is its time, which is the
order that Jepsen's own checkers go by. After `:fail` an operation was not done. After `:info`, or with no event more, it was done at any
later time or never. If nothing read what it may have written, it is left out, which changes no verdict. Else a write has no end, and can
stand behind all that did not see it. A compare-and-swap is taken if nothing else can have written what was read; else it is left out.
"""

import collections
import re

from logs.mistakes import Mistake, at_line, note

# Text in quotes, brackets, tags and the like, and all else up to a blank or a bracket. Commas are blanks.
TOKEN = re.compile(r'[\s,]+|;[^\n]*|"(?:[^"\\]|\\.)*"|#\{|#_|[][(){}]|\\\S+|#?[^\s,;"()\[\]{}]+')
CLOSING = {"[": "]", "(": ")", "{": "}", "#{": "}"}
WORDS = {"nil": None, "true": True, "false": False}
ONLY_KEY = "register"

Event = collections.namedtuple("Event", "line place process type f value")
# An operation: its first event, the place of its last one or None, and what it did.
Call = collections.namedtuple("Call", "event end key read written")


class Map(dict):
    """A map, with the number of the line where it begins."""

    line = 0


class Edn:
    """The forms of a text, one after another, each with the number of its line. Keywords are texts that begin with a colon."""

    def __init__(self, text):
        self.text, self.at, self.line = text, 0, 1

    def token(self):
        """The next token that is no blank and no comment, or None at the end of the text."""
        while self.at < len(self.text):
            found = TOKEN.match(self.text, self.at)
            if not found:
                raise at_line(self.line, "no EDN")
            self.at = found.end()
            word = found[0]
            if not (word[0].isspace() or word[0] in ",;"):
                self.line += word.count("\n")
                return word
            self.line += word.count("\n")
        return None

    def form(self, closing=None):
        """The next form; Ellipsis where the text ends or the bracket `closing` comes."""
        word = self.token()
        if word is None or word == closing:
            if word is None and closing:
                raise at_line(self.line, f"the text ends before {closing}")
            return ...
        if word in CLOSING:
            return self.collection(word)
        if word in ("]", ")", "}"):
            raise at_line(self.line, f"{word} closes nothing")
        if word == "#_":
            self.form(closing)
            return self.form(closing)
        if word[0] == "#":
            # What is tagged, as a record is, is read as what stands behind the tag.
            return self.form(closing)
        if word[0] == '"':
            return re.sub(r"\\(.)", lambda found: {"n": "\n", "t": "\t"}.get(found[1], found[1]), word[1:-1])
        return WORDS[word] if word in WORDS else number_or_word(word)

    def collection(self, opening):
        items, begin = [], self.line
        while True:
            item = self.form(CLOSING[opening])
            if item is ...:
                break
            items.append(item)
        if opening != "{":
            return items
        if len(items) % 2:
            raise at_line(self.line, "a map with a key and no value")
        made = Map(zip(map(str, items[::2]), items[1::2]))
        made.line = begin
        return made

    def forms(self):
        while True:
            form = self.form()
            if form is ...:
                return
            yield form


def number_or_word(word):
    """A number without the letters N and M that EDN may put behind it, or the word itself."""
    plain = word[:-1] if word[-1] in "NM" else word
    return int(plain) if re.fullmatch(r"[+-]?\d{1,1000}", plain) else plain if re.fullmatch(r"[+-]?\d[\d.eE+-]*", plain) else word


# ---- what was done


def events(text):
    """The events of processes that have a number; those of the nemesis have none. A history may stand in brackets as a whole."""
    found = []
    for form in Edn(text).forms():
        for event in form if isinstance(form, list) else [form]:
            if not isinstance(event, Map):
                raise Mistake(f"a history is made of maps, and {str(event)[:40]} is none")
            if isinstance(event.get(":process"), int):
                kind, f = str(event.get(":type", "")).lstrip(":"), str(event.get(":f", "")).lstrip(":")
                found.append(Event(event.line, len(found), event[":process"], kind, f, event.get(":value")))
    return found


def cell(value):
    """A value as the cell of a row: `nil` is the value null, and not a cell that is missing."""
    return "null" if value is None else value


class History:
    """The operations of a history: those that were done, and those of which it is not known."""

    def __init__(self, found, kinds):
        self.kinds = kinds
        self.done, self.open = [], []
        # By process where its last operation begins.
        self.last = {}
        waiting = {}
        for event in found:
            if event.type == "invoke":
                self.leave_open(waiting.pop(event.process, None))
                waiting[event.process] = event
                self.last[event.process] = event.place
                continue
            if event.type not in ("ok", "fail", "info"):
                raise at_line(event.line, f":type is {event.type}, which is none of :invoke, :ok, :fail and :info")
            begun = waiting.pop(event.process, None)
            if begun is None and event.type != "info":
                raise at_line(event.line, f":{event.type} of process {event.process}, which has invoked nothing")
            if event.type == "ok":
                self.done.append(self.call(begun, event))
            elif event.type == "info":
                self.leave_open(begun)
        for event in waiting.values():
            self.leave_open(event)

    def kind(self, event):
        return self.kinds.get(event.f.lower())

    def leave_open(self, event):
        """An operation that may have been done. A read of which nothing is known says nothing."""
        if event is not None and self.kind(event) in ("write", "cas"):
            self.open.append(self.call(event, None))

    def call(self, event, last):
        """What was done from one event on: `last` is the event `:ok`, or None if it is not known to have been done."""
        kind, end = self.kind(event), last and last.place
        key, value = ONLY_KEY, last.value if kind == "read" else event.value
        is_pair = isinstance(value, list) and len(value) == 2
        if is_pair and (kind != "cas" or isinstance(value[1], list)):
            key, value = value
        if kind == "cas" and not (isinstance(value, list) and len(value) == 2):
            raise at_line(event.line, f"cas of {value}, and not of an old and a new value")
        read, written = {"read": (cell(value), None), "write": (None, cell(value))}.get(kind, (None, None))
        return Call(event, end, str(key), *(map(cell, value) if kind == "cas" else (read, written)))

    def settle(self, key_of, held, final):
        """The operations that are taken, of those without an end only what may have been seen."""
        left_by = lambda call: (call.key, key_of(call.written))
        seen = {(call.key, key_of(call.read)) for call in self.done if call.read is not None} | set(final.items())
        writers = collections.Counter(left_by(call) for call in self.done + self.open if call.written is not None)
        taken, left = list(self.done), self.open
        while True:
            now = [call for call in left if left_by(call) in seen and (call.read is None or writers[left_by(call)] == 1 and held(call.key) != left_by(call)[1])]
            if not now:
                break
            taken += now
            left = [call for call in left if call.event.place not in {call.event.place for call in now}]
            seen |= {(call.key, key_of(call.read)) for call in now if call.read is not None}
        unclear = [call for call in left if left_by(call) in seen]
        if unclear:
            note(f"line {unclear[0].event.line}: it is not known whether this compare-and-swap was done, and others may have written what was read: {len(unclear)} such left out, so INCONSISTENT says nothing")
        return sorted(taken, key=lambda call: call.event.place)

    def process(self, call):
        """The process of an operation. One without an end stands alone if its process went on."""
        is_last = self.last[call.event.process] == call.event.place
        return str(call.event.process) if call.end is not None or is_last else f"{call.event.process}.{call.event.place}"


def rows(text, kinds, key_of, held, final):
    """The rows of a history. `key_of` makes the key of a value, `held` gives what a location holds at the start, and `final` in the end."""
    history = History(events(text.read()), kinds)
    for call in history.settle(key_of, held, final):
        said = None if call.read is None or call.written is None else "yes"
        yield (call.event.line, history.process(call), call.event.f, call.key, call.read, call.written, said, call.event.place, call.end)
