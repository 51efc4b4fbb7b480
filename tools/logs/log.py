"""What a log holds: the operations of each process in order, and barriers as places between them."""

import collections
import itertools

from logs import cells
from logs.mistakes import Mistake, at_line, note

KINDS = {
    "read": "r read load ld get",
    "write": "w write store st set put",
    "update": "u update rmw swap exchange xchg",
    "cas": "cas compare_and_swap compare_exchange cmpxchg",
    "barrier": "barrier",
    "skip": "skip fence",
    # What `written` has of these is found out: what they left, or what they were given.
    "fetch_add": "fetch_add faa",
    "fetch_sub": "fetch_sub",
    "fetch_or": "fetch_or",
    "fetch_and": "fetch_and",
    "fetch_xor": "fetch_xor",
    # Of these it is what they were given.
    "add": "",
    "sub": "",
    "or": "",
    "and": "",
    "xor": "",
}
LEFT = {
    "add": lambda held, given: held + given,
    "sub": lambda held, given: held - given,
    "or": lambda held, given: held | given,
    "and": lambda held, given: held & given,
    "xor": lambda held, given: held ^ given,
}
# What a trace may have; how many operations, locations and orders each a text of versions 1 and 2 has room for; and what `vsc verify` takes.
MOST_PROCESSES, MOST_OPERATIONS, MOST_LOCATIONS, MOST_BEFORE = 64, 1048576, 65536, 4194304
MOST_SMALL, MOST_KEPT = 4096, 160
ADVICE = "cut the log (tools/cut-log; docs/LOGS.md, How much)"

# An operation of the trace, and the line of the log that has it: `read` and `written` are keys of values, or None. `source` is what a trace
# says of where it reads from.
Operation = collections.namedtuple("Operation", "line process place location read written start end source", defaults=(None,))
# An update that came with an operand or with what it left: where it stands, its function, and its word in the log if it may be either.
Fetch = collections.namedtuple("Fetch", "process at function word")


def has_times(op):
    return op.start is not None or op.end is not None


def kinds_of(wanted):
    """What each word of the column `kind` stands for."""
    kinds = {word: kind for kind, words in KINDS.items() for word in words.split()}
    for pair in filter(None, (wanted or "").split(",")):
        word, equals, kind = pair.partition("=")
        if not equals or kind not in KINDS:
            raise Mistake(f"--kinds {pair}: WORD=KIND, and KIND is one of {', '.join(KINDS)}")
        kinds[word.strip().lower()] = kind
    return kinds


class Log:
    def __init__(self, kinds, tells_both=True):
        # Whether the value read and the value written have a column each.
        self.kinds, self.tells_both = dict(kinds), tells_both
        self.processes = collections.OrderedDict()
        # By name and round of a barrier: for each process how many of its operations come before it.
        self.barriers = collections.OrderedDict()
        self.rounds = collections.Counter()
        self.values = cells.Spellings("value", cells.value_key)
        self.locations = cells.Spellings("location", cells.Places())
        self.names = cells.Spellings("process", cells.Places())
        self.fetches, self.has_swaps, self.has_times = [], False, False

    def take_rows(self, rows):
        """Adds an operation for each row. Most of the time of a large log goes into this loop."""
        kinds, processes, locations, names = self.kinds, self.processes, self.locations, self.names
        values, value = self.values, self.value_of
        for line, process, word, location, read, written, ok, start, end in rows:
            kind = kinds.get(word) or self.kind_of(line, word)
            if kind == "skip":
                continue
            if process is None or location is None:
                raise at_line(line, "no process" if process is None else "no location")
            name = names[process if type(process) is str else str(process)]
            operations = processes.get(name)
            if operations is None:
                operations = processes[name] = []
            place = locations[location if type(location) is str else str(location)]
            if kind == "read":
                if read is None:
                    raise at_line(line, "no read")
                read, written = values[read] if type(read) is str else value(read), None
            elif kind == "write":
                if written is None:
                    raise at_line(line, "no written")
                read, written = None, values[written] if type(written) is str else value(written)
            elif kind == "barrier":
                self.take_barrier(name, place, len(operations))
                continue
            else:
                read, written = self.values_of_update(line, name, kind, word, read, written, ok)
            if start is not None or end is not None:
                start, end = self.times(line, start, end)
            operations.append(Operation(line, name, len(operations) + 1, place, read, written, start, end))

    def kind_of(self, line, word):
        """What a word stands for that is not in small letters, or that is none of those that are known."""
        if word is None:
            raise at_line(line, "no kind")
        small = str(word).strip().lower()
        if small not in self.kinds:
            raise at_line(line, f"the kind {small} is none of those that are known; --kinds {small}=read says what it is")
        if isinstance(word, str):
            self.kinds[word] = self.kinds[small]
        return self.kinds[small]

    def value_of(self, cell):
        kind = type(cell)
        if kind is str:
            return self.values[cell]
        return cells.value_key(cell) if kind is not int and (cell is None or kind in (bool, list, dict)) else self.values[str(cell)]

    def take_barrier(self, process, barrier, place):
        passed = self.rounds[(barrier, process)]
        self.rounds[(barrier, process)] += 1
        self.barriers.setdefault((barrier, passed), {})[process] = place

    def values_of_update(self, line, process, kind, word, read, written, ok):
        """What an operation read that may have written, and what it wrote or None."""
        if not self.tells_both:
            raise at_line(line, f"--read and --written name one column, and {kind} needs one for each")
        if kind == "cas":
            self.has_swaps = True
            if written in (None, "null") if ok is None else not cells.is_yes(line, ok):
                written = None
            elif written is None:
                raise at_line(line, "no written")
        if read is None or written is None and kind != "cas":
            raise at_line(line, "no read" if read is None else "no written")
        if kind not in ("cas", "update"):
            is_open = kind.startswith("fetch_")
            self.fetches.append(Fetch(process, len(self.processes[process]), kind[6:] if is_open else kind, str(word).strip() if is_open else None))
        return self.value_of(read), None if written is None else self.value_of(written)

    def times(self, line, start, end):
        if not (type(start) is int and type(end) is int):
            start = int(start) if type(start) is str and len(start) < 20 and start.isdecimal() else cells.time_of(line, "start", start)
            end = int(end) if type(end) is str and len(end) < 20 and end.isdecimal() else cells.time_of(line, "end", end)
        if start is not None and end is not None and end < start:
            raise at_line(line, "it ends before it starts")
        if start is not None or end is not None:
            self.has_times = True
        return start, end

    # ---- what a log says as a whole

    def operations(self):
        return [operation for operations in self.processes.values() for operation in operations]

    def count(self):
        return sum(map(len, self.processes.values()))

    def look_at_limits(self):
        if len(self.processes) > MOST_PROCESSES:
            raise Mistake(f"{len(self.processes)} processes, and a trace has {MOST_PROCESSES} at most: {ADVICE}")
        if self.count() > MOST_OPERATIONS:
            raise Mistake(f"{self.count()} operations, and a trace has {MOST_OPERATIONS} at most: {ADVICE}")

    def look_at_what_is_kept(self, orders, with_times):
        """Says if `vsc verify` refuses the trace: it drops reads that repeat the operation before them, but none that an order names or that has times."""
        pairs = ((a, b) for ops in self.processes.values() for a, b in zip(ops, ops[1:]) if b.written is None and b.location == a.location)
        dropped = {(b.process, b.place) for a, b in pairs if b.read == (a.read if a.written is None else a.written) and not (with_times and has_times(b))}
        if dropped:
            dropped.difference_update(itertools.chain.from_iterable(orders))
        count = self.count()
        if count - len(dropped) > MOST_KEPT:
            note(f"{count} operations, {count - len(dropped)} beside reads that are dropped; `vsc verify` takes {MOST_KEPT}, and `vsc survey` all")

    def tell_spellings(self):
        for spellings in (self.names, self.locations, self.values):
            for line in spellings.told():
                note(line)
