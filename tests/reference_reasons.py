"""A plain checker of certificates of reasons, written after docs/REASONS.md and docs/FORMATS.md, for small traces: clear before fast.

`answer(trace, text)` is the line that `vsc recheck` has to print of a certificate, and its exit status. `check(trace, text)` is the number of
its clauses; it raises Refused, with the area, the name and the place of what is wrong. `clause_of(trace, words)` makes the clause of a
line, as a list of pairs of operations of which the first stands before the second. An operation is a pair of its process's number and its
place, counted from 0 and from 1.
"""

import re

NUMBERS = {
    "reasons": {
        "NoOperation": 2,
        "NoReader": 3,
        "NoWitness": 4,
        "HidesItself": 5,
        "InitialLeft": 7,
        "BadCycle": 8,
        "NoPair": 9,
        "EnoughSources": 10,
        "AlwaysTrue": 11,
        "TooManyVariables": 12,
        "BadHeader": 13,
        "BadLine": 14,
        "OneProcess": 15,
        "SecondPiece": 16,
        "NoWriter": 17,
        "LastLeft": 18,
        "SourceBefore": 19,
    },
    "lrat": {"BadLine": 2, "BadNumber": 3, "Unended": 4},
    "check": {
        "UnknownHint": 2,
        "NotUnit": 3,
        "NoConflict": 4,
        "IdInUse": 5,
        "NoEmptyClause": 6,
        "NotOpposed": 7,
        "NoPivot": 8,
        "GroupMissing": 9,
    },
    "cert": {"Header": 2},
}
VARIABLES, IDS = 4_194_304, 2**63 - 1


class Refused(Exception):
    """What is wrong: its name; with `in_area`, where."""

    def __init__(self, name, area="reasons", place=None):
        super().__init__(name)
        self.name, self.area, self.place = name, area, place

    def line(self):
        return f"refused: {self.area} {NUMBERS[self.area][self.name]} {self.name} at {self.place}"


# Traces


class Trace:
    """A trace as lists: each operation is (kind, location, read, left, origin, span), with a span of two times, or None."""

    def __init__(self, text):
        self.names, self.processes, self.initial, self.final, self.before = [], [], {}, {}, []
        origins = []
        for line in text.split("\n")[1:]:
            words = line.split()
            if not words or words[0].startswith("#"):
                continue
            kind = words[0]
            if kind == "init":
                self.initial[words[1]] = int(words[2])
            elif kind == "final":
                self.final[words[1]] = int(words[2])
            elif kind == "proc":
                self.names.append(words[1])
                self.processes.append([])
            elif kind == "before":
                self.before.append(words[1:5])
            else:
                count = 3 if kind in "RW" else 4
                read = None if kind == "W" else int(words[2])
                left = None if kind == "R" else int(words[count - 1])
                source, span = words[count:], None
                if source[-3:-2] == ["at"]:
                    source, span = source[:-3], (int(words[-2]), int(words[-1]))
                self.processes[-1].append([kind, words[1], read, left, None, span])
                if source == ["from", "init"]:
                    self.processes[-1][-1][4] = "init"
                elif source:
                    origins.append((self.processes[-1][-1], source[1:]))
        for op, (process, place) in origins:
            op[4] = (self.names.index(process), int(place))
        self.before = [((self.names.index(p), int(i)), (self.names.index(q), int(j))) for p, i, q, j in self.before]

    def op(self, n):
        return self.processes[n[0]][n[1] - 1]

    def ended_before(self, m, n):
        """Whether m had ended before n began: both have times, and the one of m ends below the start of n's."""
        first, second = self.op(m)[5], self.op(n)[5]
        return first is not None and second is not None and first[1] < second[0]

    def operations(self):
        return [(p, k + 1) for p, ops in enumerate(self.processes) for k in range(len(ops))]

    def writers(self, location, value=None):
        """The operations that write the location, or that leave the value there."""
        found = [n for n in self.operations() if self.op(n)[3] is not None and self.op(n)[1] == location]
        return [n for n in found if value is None or self.op(n)[3] == value]

    def number(self, word):
        """The operation of a word as `P.3`."""
        process, _, place = word.partition(".")
        most = 65535 if sum(map(len, self.processes)) <= 4096 else 4294967295
        if not re.fullmatch("[A-Za-z_][A-Za-z0-9_]{0,31}", process) or not re.fullmatch("[1-9][0-9]*", place) or int(place) > most:
            raise Refused("BadLine")
        if process not in self.names:
            raise Refused("NoOperation")
        n = (self.names.index(process), int(place))
        if n[1] > len(self.processes[n[0]]):
            raise Refused("NoOperation")
        return n

    def name(self, n):
        return f"{self.names[n[0]]}.{n[1]}"


# The words of a line


class Words:
    """What is left of a line."""

    def __init__(self, trace, words):
        self.trace, self.left = trace, list(words)

    def take(self):
        if not self.left:
            raise Refused("BadLine")
        return self.left.pop(0)

    def operation(self):
        return self.trace.number(self.take())

    def pair(self):
        return (self.operation(), self.operation())

    def end(self):
        if self.left:
            raise Refused("BadLine")

    def piece(self, kind):
        """The operations of a piece: `h` has two, the others one."""
        if kind not in ("h", "f", "i", "H", "L"):
            raise Refused("BadLine")
        return (kind, *(self.pair() if kind == "h" else (self.operation(),)))

    def pieces(self):
        found = []
        while self.left:
            found.append(self.piece(self.take()))
        return found

    def parts(self):
        """Members, and the pieces behind each."""
        found = []
        while self.left:
            kind = self.take()
            if kind == "r":
                found.append((kind, self.operation()))
            elif kind == "m":
                found.append((kind, *self.pair()))
            elif kind == "l":
                found.append((kind, self.take()))
            else:
                found.append(self.piece(kind))
        return found


class Pieces:
    """The pieces of a reader or of an end: no two of one kind for one process, for the initial value, or for all others."""

    def __init__(self, kinds, listed=()):
        self.kinds, self.hidden, self.later, self.initial, self.main = kinds, {}, {}, None, None
        for piece in listed:
            self.add(piece)

    def add(self, piece):
        kind, *operations = piece
        if kind not in self.kinds:
            raise Refused("BadLine")
        if kind == "h":
            is_second = operations[1][0] in self.hidden
            self.hidden.setdefault(operations[1][0], (operations[0], operations[1][1]))
        elif kind == "f":
            is_second = operations[0][0] in self.later
            self.later.setdefault(*operations[0])
        elif kind == "i":
            is_second = self.initial is not None
            self.initial = operations[0]
        else:
            is_second = self.main is not None
            self.main = (kind, operations[0])
        if is_second:
            raise Refused("SecondPiece")

    def want_witnesses(self, is_witness):
        """Witnesses: by process, then that of the initial value, then that of all others."""
        fronts = [self.hidden[process][0] for process in sorted(self.hidden)]
        initial = [self.initial] if self.initial else []
        main = [self.main[1]] if self.main and self.main[0] == "H" else []
        if not all(is_witness(x) for x in fronts + initial + main):
            raise Refused("NoWitness")


# Clauses


class Clause:
    """The orders of a clause: what program order denies is left out, and what it has so makes the clause void."""

    def __init__(self):
        self.orders, self.always = [], False

    def say(self, first, second):
        if first[0] == second[0]:
            self.always |= first[1] < second[1]
        elif (first, second) not in self.orders:
            self.always |= (second, first) in self.orders
            self.orders.append((first, second))


def sources(trace, reader):
    """The possible sources of a reader, by process, in order; and whether the initial value is one."""
    _, location, value, _, origin, _ = trace.op(reader)
    writers = trace.writers(location, value)
    if isinstance(origin, tuple):
        writers = [w for w in writers if w == origin]
    if origin == "init":
        writers = []
    own = [w for w in trace.writers(location) if w[0] == reader[0] and w[1] < reader[1]]
    writers = [w for w in writers if w[0] != reader[0] or w in own[-1:]]
    initial = not isinstance(origin, tuple) and trace.initial.get(location) == value
    return writers, initial


def by_process(writers):
    return [[w for w in writers if w[0] == p] for p in sorted({w[0] for w in writers})]


def hide(clause, x, last, reader):
    if x == last:
        raise Refused("HidesItself")
    clause.say(x, last)
    if reader:
        clause.say(reader, x)


def take(clause, pieces, reader, run):
    """Says what bars the sources of one process that a piece takes; the others are returned."""
    process = run[0][0]
    if process in pieces.hidden:
        x, bound = pieces.hidden[process]
        hidden = [w for w in run if w[1] <= bound]
        if hidden:
            hide(clause, x, hidden[-1], reader)
        run = run[len(hidden) :]
    if process in pieces.later:
        later = [w for w in run if w[1] >= pieces.later[process]]
        if later:
            clause.say(later[0], reader)
        run = run[: len(run) - len(later)]
    return run


def reads(trace, n):
    return trace.op(n)[2] is not None


def want_reader(trace, reader, pieces):
    """The operation reads, and the witnesses of its pieces are such against what it reads."""
    if not reads(trace, reader):
        raise Refused("NoReader")
    _, location, value, _, _, _ = trace.op(reader)

    def is_witness(x):
        _, at, read, left, _, _ = trace.op(x)
        return x != reader and at == location and (left is not None or read != value)

    pieces.want_witnesses(is_witness)


def source_clause(trace, clause, reader, pieces):
    """Says what bars each source of the reader."""
    want_reader(trace, reader, pieces)
    writers, initial = sources(trace, reader)
    for run in by_process(writers):
        rest = take(clause, pieces, reader, run)
        if not rest:
            continue
        if not pieces.main:
            clause.say(rest[0], reader)
        elif pieces.main[0] == "H":
            hide(clause, pieces.main[1], rest[-1], reader)
        else:
            clause.say(rest[0], pieces.main[1])
            clause.say(pieces.main[1], reader)
    if initial:
        if pieces.initial:
            clause.say(reader, pieces.initial)
        elif pieces.main and pieces.main[0] == "H":
            clause.say(reader, pieces.main[1])
        else:
            raise Refused("InitialLeft")


def left_sources(trace, clause, reader, pieces):
    """Says what bars the sources that a piece takes; the others, and whether the initial value is one."""
    want_reader(trace, reader, pieces)
    writers, initial = sources(trace, reader)
    rest = [w for run in by_process(writers) for w in take(clause, pieces, reader, run)]
    if initial and pieces.initial:
        clause.say(reader, pieces.initial)
    return rest, initial and not pieces.initial


def last_writers(trace, location, pieces):
    """The last writer of each process that leaves the final value, if there is one; the witnesses are such against the last writer."""
    final = trace.final.get(location)

    def is_witness(x):
        _, at, read, left, _, _ = trace.op(x)
        return at == location and (left is not None or (final is not None and read != final))

    pieces.want_witnesses(is_witness)
    lasts = [run[-1:] for run in by_process(trace.writers(location))]
    return [last for last in lasts if final is None or trace.op(last[0])[3] == final]


def last_clause(trace, clause, location, pieces):
    """Says what bars each possible last writer of the location."""
    lasts = last_writers(trace, location, pieces)
    final = trace.final.get(location)
    if not trace.writers(location) and (final is None or trace.initial.get(location) == final):
        raise Refused("NoWriter")
    for last in lasts:
        for w in take(clause, pieces, None, last):
            if not pieces.main:
                raise Refused("LastLeft")
            hide(clause, pieces.main[1], w, None)


def left_ends(trace, clause, location, pieces):
    """Says what bars the last writers that a piece takes; the others."""
    lasts = last_writers(trace, location, pieces)
    if not trace.writers(location):
        raise Refused("NoWriter")
    return [w for last in lasts for w in take(clause, pieces, None, last)]


def members_of(parts, kinds):
    """The members, each with its pieces, of which the kinds are those that its own kind has."""
    members = []
    for kind, *rest in parts:
        if kind in kinds:
            members.append((kind, rest, Pieces(kinds[kind])))
        elif kind in ("r", "m", "l") or not members:
            raise Refused("BadLine")
        else:
            members[-1][2].add((kind, *rest))
    return members


def counting_clause(trace, clause, parts):
    """`r R pieces` and `l A pieces`: updates and ends of locations, more than the sources that no piece takes."""
    members = members_of(parts, {"r": "hfi", "l": "h"})
    if len({member[0] for _, member, _ in members}) < len(members):
        raise Refused("SecondPiece")
    left = set()
    for kind, (member,), pieces in members:
        if kind == "r" and trace.op(member)[0] != "U":
            raise Refused("NoReader")
        if kind == "r":
            rest, initial = left_sources(trace, clause, member, pieces)
            left.update(rest + [("init", trace.op(member)[1])] * initial)
        else:
            left.update(left_ends(trace, clause, member, pieces))
        if len(members) <= len(left):
            raise Refused("EnoughSources")
    if not members:
        raise Refused("EnoughSources")


def all_updates_clause(trace, location, value):
    """`N A D`: updates of A that read D, and its end if it ends with D, are more than what leaves D there."""
    members = [n for n in trace.operations() if trace.op(n)[0] == "U" and trace.op(n)[1] == location and trace.op(n)[2] == value]
    left = len(trace.writers(location, value)) + (trace.initial.get(location) == value)
    ends = trace.final.get(location) == value and bool(trace.writers(location))
    if len(members) + ends <= left:
        raise Refused("EnoughSources")


def waiting_clause(trace, clause, parts):
    """`m X Y` and `r R pieces`: each waits for one of them."""
    members = members_of(parts, {"m": "", "r": "hfi"})
    if not members:
        raise Refused("BadLine")
    waiting = [operations[0] for _, operations, _ in members]

    def want_behind(y):
        if not any(z[0] == y[0] and z[1] <= y[1] for z in waiting):
            raise Refused("SourceBefore")

    for kind, operations, pieces in members:
        if kind == "m":
            if operations[0] == operations[1]:
                raise Refused("BadCycle")
            want_behind(operations[1])
            clause.say(*operations)
            continue
        rest, initial = left_sources(trace, clause, operations[0], pieces)
        if initial:
            raise Refused("InitialLeft")
        for w in rest:
            want_behind(w)


def cycle_clause(clause, cycle):
    if not cycle:
        raise Refused("BadCycle")
    for u, v in zip(cycle, cycle[1:] + cycle[:1]):
        if u == v:
            raise Refused("BadCycle")
        clause.say(v, u)


def value_of(word):
    """The value of a plain number."""
    if not re.fullmatch("0|[1-9][0-9]*", word) or int(word) >= 2**64:
        raise Refused("BadLine")
    return int(word)


def pair_clause(trace, clause, words):
    pair = words.pair()
    words.end()
    if pair not in trace.before:
        raise Refused("NoPair")
    clause.say(*pair)


def ended_clause(trace, clause, words):
    pair = words.pair()
    words.end()
    if not trace.ended_before(*pair):
        raise Refused("NoPair")
    clause.say(*pair)


def clause_of(trace, line):
    """The orders of the clause that a line makes."""
    clause, kind, words = Clause(), line[0], Words(trace, line[1:])
    if kind == "c":
        cycle_clause(clause, [trace.number(word) for word in words.left])
    elif kind == "b":
        pair_clause(trace, clause, words)
    elif kind == "t":
        ended_clause(trace, clause, words)
    elif kind == "s":
        reader = words.operation()
        source_clause(trace, clause, reader, Pieces("hfiHL", words.pieces()))
    elif kind == "l":
        location = words.take()
        last_clause(trace, clause, location, Pieces("hH", words.pieces()))
    elif kind == "n":
        counting_clause(trace, clause, words.parts())
    elif kind == "N":
        location, word = words.take(), words.take()
        words.end()
        all_updates_clause(trace, location, value_of(word))
    elif kind == "w":
        waiting_clause(trace, clause, words.parts())
    else:
        raise Refused("BadLine")
    if clause.always:
        raise Refused("AlwaysTrue")
    return clause.orders


def literals_of(orders, variables):
    """The clause over variables, which are numbered by their first use. The pair of a variable is rising."""
    literals = []
    for first, second in orders:
        pair = (first, second) if first < second else (second, first)
        number = variables.setdefault(pair, len(variables) + 1)
        literals.append(number if first < second else -number)
    return literals


# Derivations


def whole(word, last, least):
    """A number as solvers write it, from the least to the last one."""
    if not re.fullmatch("-?[0-9]+", word) or not least <= int(word) <= last or word.startswith("-") and int(word) == 0:
        raise Refused("BadNumber", "lrat")
    return int(word)


def up_to_zero(words, last, least):
    """The numbers up to the first 0, which is taken too."""
    found = []
    while words:
        number = whole(words.pop(0), last, least)
        if number == 0:
            return found
        found.append(number)
    raise Refused("Unended", "lrat")


def step_of(words):
    """The step of a line: an id with literals and hints, or the ids that go."""
    is_deletion = words[1:2] == ["d"]
    number, rest = whole(words[0], IDS, 0 if is_deletion else 1), words[2 if is_deletion else 1 :]
    if is_deletion:
        step = ("d", up_to_zero(rest, IDS, 0))
    else:
        step = (number, up_to_zero(rest, VARIABLES, -VARIABLES), up_to_zero(rest, IDS, -IDS))
    if rest:
        raise Refused("BadLine" if re.fullmatch("-?[0-9]+", rest[0]) and not re.fullmatch("-0+", rest[0]) else "BadNumber", "lrat")
    return step


def follow(active, true, hints):
    """Follows the hints. Whether they come to a false clause."""
    for hint in hints:
        if hint not in active:
            raise Refused("UnknownHint", "check")
        left = {z for z in active[hint] if -z not in true}
        if not left:
            return True
        if len(left) > 1:
            raise Refused("NotUnit", "check")
        true |= left
    return False


def groups_of(hints):
    """The hints before the first group, and the groups."""
    first, groups = [], []
    for hint in hints:
        if hint < 0:
            groups.append((-hint, []))
        else:
            (groups[-1][1] if groups else first).append(hint)
    return first, groups


def want_group(active, true, pivot, group):
    """The group settles its clause."""
    if group[0] not in active:
        raise Refused("UnknownHint", "check")
    if -pivot not in active[group[0]]:
        raise Refused("NotOpposed", "check")
    others = {z for z in active[group[0]] if z != -pivot}
    if not others & true and not follow(active, true | {-z for z in others}, group[1]):
        raise Refused("NoConflict", "check")


def want_justified(active, clause, hints):
    if any(-z in clause for z in clause):
        return
    true, (first, groups) = {-z for z in clause}, groups_of(hints)
    if follow(active, true, first):
        return
    if not clause:
        raise Refused("NoPivot" if groups else "NoConflict", "check")
    for group in groups:
        want_group(active, true, clause[0], group)
    settled = {group[0] for group in groups}
    if any(-clause[0] in active[id] and id not in settled for id in active):
        raise Refused("GroupMissing" if groups else "NoConflict", "check")


def follow_steps(active, steps):
    """Follows the steps up to the empty clause."""
    for number, step in enumerate(steps, 1):
        if step[0] == "d":
            for id in step[1]:
                active.pop(id, None)
            continue
        id, clause, hints = step
        try:
            if id in active:
                raise Refused("IdInUse", "check")
            want_justified(active, clause, hints)
        except Refused as refused:
            raise Refused(refused.name, "check", number) from None
        active[id] = clause
        if not clause:
            return
    raise Refused("NoEmptyClause", "check", len(steps) + 1)


# Certificates


def words_of(line):
    """The words of a line: what spaces, tabs and carriage returns part."""
    return [word for word in re.split("[ \t\r]", line) if word]


def lines_of(text):
    lines = text.split("\n")
    return lines[:-1] if lines[-1] == "" else lines


def read_clause(trace, words, active, variables):
    """Adds the clause of a line, or numbers a pair."""
    if words[0] == "v":
        rest = Words(trace, words[1:])
        pair = rest.pair()
        rest.end()
        if pair[0][0] == pair[1][0]:
            raise Refused("OneProcess")
        literals_of([pair], variables)
        return False
    active[len(active) + 1] = literals_of(clause_of(trace, words), variables)
    return not active[len(active)]


def read_clauses(trace, lines):
    """The clauses of the lines, and where the derivation begins; None if a clause is empty."""
    active, variables = {}, {}
    for number, words in enumerate(map(words_of, lines), 1):
        if number == 1 or not words or words[0].startswith("#"):
            continue
        try:
            if words[0] == "p":
                Words(trace, words[1:]).end()
                return active, number
            if read_clause(trace, words, active, variables):
                return active, None
        except Refused as refused:
            raise Refused(refused.name, "reasons", number) from None
    return active, len(lines)


def check(trace, text):
    """How many clauses a certificate names that refutes the trace."""
    lines = lines_of(text)
    if not lines or words_of(lines[0]) != ["vsc-reasons", "1"]:
        raise Refused("BadHeader", "reasons", 1)
    active, start = read_clauses(trace, lines)
    count = len(active)
    if start is not None:
        steps = []
        for number, words in enumerate(map(words_of, lines[start:]), start + 1):
            try:
                if words and not words[0].startswith("c"):
                    steps.append(step_of(words))
            except Refused as refused:
                raise Refused(refused.name, "lrat", number) from None
        follow_steps(active, steps)
    return count


def answer(trace, text):
    """What `vsc recheck` has to print of the certificate, and its exit status. Without the header it is read as one of a tree, and has not
    that header either."""
    try:
        return f"ACCEPTED clauses={check(trace, text)}", 0
    except Refused as refused:
        if refused.name == "BadHeader":
            lines = [words_of(line) for line in lines_of(text)]
            place = next((k for k, words in enumerate(lines) if words and not words[0].startswith("c")), len(lines)) + 1
            refused = Refused("Header", "cert", place)
        return refused.line(), 2
