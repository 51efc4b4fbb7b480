"""Decides small traces by trying all orders, for the tests of tools/from-log and tools/cut-log. It shares nothing with what they use."""

import collections

# `read` and `written` are numbers or None; `source` is None, "init" or the name of an operation: its process and its place, from 1. `span` has when it
# began and when it had ended, or is None.
Op = collections.namedtuple("Op", "location read written source span", defaults=(None,))
Trace = collections.namedtuple("Trace", "processes before initial final")


def read_trace(text):
    """A trace that is known to be well formed."""
    trace = Trace({}, [], {}, {})
    for line in text.split("\n"):
        words = line.split()
        if not words or words[0].startswith("#") or words[0] == "vsc":
            continue
        if words[0] in ("init", "final"):
            (trace.initial if words[0] == "init" else trace.final)[words[1]] = int(words[2])
        elif words[0] == "proc":
            operations = trace.processes.setdefault(words[1], [])
        elif words[0] == "before":
            trace.before.append(((words[1], int(words[2])), (words[3], int(words[4]))))
        else:
            words, span = (words[:-3], tuple(map(int, words[-2:]))) if words[-3] == "at" else (words, None)
            at = words.index("from") if "from" in words else len(words)
            source = None if at == len(words) else "init" if words[at + 1 :] == ["init"] else (words[at + 1], int(words[at + 2]))
            values = [int(word) for word in words[2:at]]
            operations.append(Op(words[1], None if words[0] == "W" else values[0], None if words[0] == "R" else values[-1], source, span))
    return trace


def write_trace(trace):
    lines = ["vsc 3" if any(op.span for operations in trace.processes.values() for op in operations) else "vsc 2"]
    lines += [f"init {location} {value}" for location, value in trace.initial.items()]
    lines += [f"final {location} {value}" for location, value in trace.final.items()]
    for process, operations in trace.processes.items():
        lines.append(f"proc {process}")
        for op in operations:
            words = ["W" if op.read is None else "R" if op.written is None else "U", op.location]
            words += [str(value) for value in (op.read, op.written) if value is not None]
            words += [] if op.source is None else ["from", "init"] if op.source == "init" else ["from", op.source[0], str(op.source[1])]
            words += [] if op.span is None else ["at", *map(str, op.span)]
            lines.append(" ".join(words))
    lines += [f"before {one[0]} {one[1]} {other[0]} {other[1]}" for one, other in trace.before]
    return "\n".join(lines) + "\n"


def known_order(trace):
    """Each pair that a line or times put in order."""
    spans = [((process, place), op.span) for process, operations in trace.processes.items() for place, op in enumerate(operations, 1) if op.span]
    return list(dict.fromkeys([*trace.before, *((one, other) for one, early in spans for other, late in spans if early[1] < late[0])]))


def step(trace, name, memory):
    """The memory after an operation, or None if it cannot read what it reads. Memory has by location the value and who left it."""
    op = trace.processes[name[0]][name[1] - 1]
    if op.read is not None:
        value, writer = memory.get(op.location, (trace.initial.get(op.location), "init"))
        if value != op.read or op.source is not None and op.source != writer:
            return None
    return memory if op.written is None else {**memory, op.location: (op.written, name)}


def ends_right(trace, memory):
    return all(memory.get(location, (trace.initial.get(location), "init"))[0] == value for location, value in trace.final.items())


def is_legal(trace, order):
    """Whether a list of names is a legal schedule."""
    memory, place = {}, dict.fromkeys(trace.processes, 0)
    at = {name: number for number, name in enumerate(order)}
    for process, number in order:
        if number != place[process] + 1:
            return False
        place[process] = number
        memory = step(trace, (process, number), memory)
        if memory is None:
            return False
    is_whole = all(place[process] == len(operations) for process, operations in trace.processes.items())
    return is_whole and ends_right(trace, memory) and all(at[one] < at[other] for one, other in known_order(trace))


def has_schedule(trace):
    """Whether there is a legal schedule."""
    waits_for = collections.defaultdict(list)
    for one, other in known_order(trace):
        waits_for[other].append(one)
    names, failed = list(trace.processes), set()

    def goes_on(places, memory):
        key = (tuple(places.values()), tuple(sorted(memory.items())))
        if key in failed:
            return False
        if all(places[name] == len(trace.processes[name]) for name in names):
            return ends_right(trace, memory)
        for process in names:
            following = (process, places[process] + 1)
            if following[1] > len(trace.processes[process]) or any(places[one] < place for one, place in waits_for[following]):
                continue
            left = step(trace, following, memory)
            if left is not None and goes_on({**places, process: following[1]}, left):
                return True
        failed.add(key)
        return False

    return goes_on(dict.fromkeys(names, 0), {})


def schedules(trace, most):
    """Legal schedules, each as a list of names: all of them, or the first that are found if they are more than `most`."""
    waits_for = collections.defaultdict(list)
    for one, other in known_order(trace):
        waits_for[other].append(one)
    count, found = sum(map(len, trace.processes.values())), []

    def go_on(order, places, memory):
        if len(found) >= most:
            return
        if len(order) == count:
            if ends_right(trace, memory):
                found.append(list(order))
            return
        for process, operations in trace.processes.items():
            following = (process, places[process] + 1)
            if following[1] > len(operations) or any(places[one] < place for one, place in waits_for[following]):
                continue
            left = step(trace, following, memory)
            if left is not None:
                go_on([*order, following], {**places, process: following[1]}, left)

    go_on([], dict.fromkeys(trace.processes, 0), {})
    return found
