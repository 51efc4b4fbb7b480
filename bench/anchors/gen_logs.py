#!/usr/bin/env python3
"""Writes logs of hundreds to thousands of operations as traces: recorded runs, runs of weaker memories, and runs with one fault.

usage: gen_logs.py [--seed N] [--values N] [--rounds N] [--sizes N,N,..] OUTDIR

Each is written to OUTDIR/KIND-SIZE-PROCESSES-LOCATIONS.vsc. Kinds: `sc` a recorded run; `tso` store buffers of depth 8; `pso` buffers that keep
order per location alone; `mut` one read has the value of another write of its location; `near` one read has the value before its own;
`counter` and `lost` a counter by updates, right and with one lost update; `passing` and `stale` messages, right and with one stale read. Without
`--values` each write has a value of its own. With `--rounds` the kinds `sc`, `tso` and `mut` are made alone, of up to 16 processes, and a
barrier comes after each so many operations: all buffers are empty then, the next operation is one of the first process, and the pairs of the
trace say that it comes after all operations before the barrier and before all others behind it. Nothing here depends on the version of
`random`: the numbers are those of a xorshift.
"""

import argparse
import os

WORD = 2**64 - 1
SHAPES = ((2, 1), (4, 4), (8, 1), (8, 8), (16, 16), (64, 4), (64, 64), (4, 64))
FAULTS = ("sc", "tso", "pso", "mut", "near")
# A smaller log has too few operations for many processes and locations: it is made of shapes alone of which the product is no larger.
SMALL = 200
# The most operations, and the most pairs, that a text of version 1 or 2 may have.
MOST_OF_VERSION_2 = 4096
ROUND_SHAPES = ((2, 1), (4, 4), (8, 1), (8, 8), (16, 16))
ROUND_FAULTS = ("sc", "tso", "mut")


class Rng:
    """Numbers that depend on the seed alone."""

    def __init__(self, seed):
        self.state = (seed * 0x9E3779B97F4A7C15 + 0xD1B54A32D192ED03) & WORD or 1
        for _ in range(8):
            self.next()

    def next(self):
        x = self.state
        x ^= (x << 13) & WORD
        x ^= x >> 7
        x ^= (x << 17) & WORD
        self.state = x
        return (x * 0x2545F4914F6CDD1D & WORD) >> 11

    def below(self, n):
        return self.next() % n

    def chance(self, per_mille):
        return self.below(1000) < per_mille


def text(initial, final, processes, pairs=()):
    """The text of a trace."""
    is_large = max(sum(map(len, processes)), len(pairs)) > MOST_OF_VERSION_2
    lines = ["vsc 3" if is_large else "vsc 2" if pairs else "vsc 1"]
    lines += [f"init {name} {initial[name]}" for name in sorted(initial)]
    lines += [f"final {name} {final[name]}" for name in sorted(final)]
    for number, ops in enumerate(processes):
        lines.append(f"proc P{number}")
        lines += [" ".join(map(str, op)) for op in ops]
    lines += [f"before P{p} {i} P{q} {j}" for (p, i), (q, j) in pairs]
    return "\n".join(lines) + "\n"


class Machine:
    """Memory with a buffer of writes for each process."""

    def __init__(self, rng, kind, processes, locations):
        self.rng, self.kind = rng, kind
        self.names = [f"x{i}" for i in range(locations)]
        self.memory = {name: 0 for name in self.names}
        self.buffers = [[] for _ in range(processes)]

    def flush(self, process):
        """Carries out one write of the buffer: the oldest, or with `pso` the oldest of some location."""
        buffer = self.buffers[process]
        place = 0
        if self.kind == "pso":
            name = buffer[self.rng.below(len(buffer))][0]
            place = next(i for i, write in enumerate(buffer) if write[0] == name)
        name, value = buffer.pop(place)
        self.memory[name] = value

    def read(self, process, name):
        buffered = (value for other, value in reversed(self.buffers[process]) if other == name)
        return next(buffered, self.memory[name])

    def write(self, process, name, value):
        if self.kind in ("tso", "pso"):
            self.buffers[process].append((name, value))
        else:
            self.memory[name] = value

    def update(self, process, name, value):
        while self.buffers[process]:
            self.flush(process)
        old, self.memory[name] = self.memory[name], value
        return old


class Recording:
    """A run, as the logs of its processes. `values` 0: each write has its own."""

    def __init__(self, seed, kind, processes, locations, values):
        self.rng = Rng(seed)
        self.machine = Machine(self.rng, kind, processes, locations)
        self.values, self.fresh = values, 0
        self.logs = [[] for _ in range(processes)]
        self.pairs = []

    def operate(self, p, updates=50, reads=500):
        """One more operation of a process."""
        name = self.machine.names[self.rng.below(len(self.machine.names))]
        if self.rng.chance(reads):
            self.logs[p].append(("R", name, self.machine.read(p, name)))
            return
        self.fresh += 1
        value = self.rng.below(self.values) if self.values else self.fresh
        if self.rng.chance(updates):
            self.logs[p].append(("U", name, self.machine.update(p, name, value), value))
        else:
            self.machine.write(p, name, value)
            self.logs[p].append(("W", name, value))

    def empty(self, p):
        while self.machine.buffers[p]:
            self.machine.flush(p)

    def go_on(self, size, depth=8):
        """So many operations more, and then all buffers are emptied."""
        processes, starts = len(self.logs), [len(log) for log in self.logs]
        until = [start + size // processes + (1 if p < size % processes else 0) for p, start in enumerate(starts)]
        end = sum(starts) + size
        if any(starts):
            self.operate(0)
            self.empty(0)
        while sum(map(len, self.logs)) < end:
            p = self.rng.below(processes)
            buffer = self.machine.buffers[p]
            if buffer and (len(buffer) >= depth or self.rng.chance(300)):
                self.machine.flush(p)
            elif len(self.logs[p]) < until[p]:
                self.operate(p)
        for p in range(processes):
            self.empty(p)
        self.set_apart(starts)

    def set_apart(self, starts):
        """The pairs of a barrier. The first process's operation behind it is the one that stands between all others."""
        middle = 0, starts[0] + 1
        for p, start in enumerate(starts):
            if p and start:
                self.pairs.append(((p, start), middle))
                if len(self.logs[p]) > start:
                    self.pairs.append((middle, (p, start + 1)))


def recorded(seed, kind, size, processes, locations, values, rounds):
    """A run of exactly so many operations. `rounds`: as many of them up to a barrier."""
    recording = Recording(seed, kind, processes, locations, values)
    for start in range(0, size, rounds):
        recording.go_on(min(rounds, size - start))
    machine = recording.machine
    return {name: 0 for name in machine.names}, dict(machine.memory), recording.logs, recording.pairs


def left_by(op):
    return op[-1] if op[0] != "R" else None


def with_other_value(logs, seed):
    """One read gets the value of another write of its location, or the initial one."""
    rng = Rng(seed)
    written = {}
    for ops in logs:
        for op in ops:
            if op[0] != "R":
                written.setdefault(op[1], [0]).append(left_by(op))
    while True:
        ops = logs[rng.below(len(logs))]
        place = rng.below(len(ops))
        if ops[place][0] == "R":
            choices = written.get(ops[place][1], [0])
            value = choices[rng.below(len(choices))]
            if value != ops[place][2]:
                ops[place] = ("R", ops[place][1], value)
                return


def with_value_before(logs, seed):
    """One read gets the value that its location had before: needs values of their own, which rise."""
    rng = Rng(seed)
    while True:
        ops = logs[rng.below(len(logs))]
        place = rng.below(len(ops))
        kind, name, value = ops[place][:3]
        if kind == "R":
            older = [left_by(op) for other in logs for op in other if op[0] != "R" and op[1] == name and left_by(op) < value]
            if older:
                ops[place] = ("R", name, max(older))
                return


def counter(seed, processes, size, lost):
    rng = Rng(seed)
    logs = [[] for _ in range(processes)]
    fault = size // 2 + rng.below(size // 4)
    value = 0
    for k in range(size):
        seen = value - 1 if lost and k == fault else value
        logs[rng.below(processes)].append(("U", "c", seen, seen + 1))
        value = seen + 1
    return {"c": 0}, {"c": value}, logs


def messages(seed, processes, size, channels, stale):
    """Producers write data and then a flag; consumers read the flag and then the data."""
    rng = Rng(seed)
    memory = {f"{kind}{i}": 0 for kind in "df" for i in range(channels)}
    initial = dict(memory)
    logs = [[] for _ in range(processes)]
    sent = [0] * channels
    seen = [None] * processes
    fault = size // 2 + rng.below(size // 4)
    for k in range(size):
        p = rng.below(processes)
        if p < channels:
            name = f"d{p}" if len(logs[p]) % 2 == 0 else f"f{p}"
            sent[p] += len(logs[p]) % 2 == 0
            memory[name] = sent[p] + (1000 if name[0] == "d" else 0)
            logs[p].append(("W", name, memory[name]))
        elif seen[p] is None:
            channel = rng.below(channels)
            seen[p] = channel, memory[f"f{channel}"]
            logs[p].append(("R", f"f{channel}", seen[p][1]))
        else:
            channel, flag = seen[p]
            value = memory[f"d{channel}"]
            if stale and k >= fault and flag >= 2:
                value, stale = 1000 + flag - 1, False
            logs[p].append(("R", f"d{channel}", value))
            seen[p] = None
    return initial, {}, logs


def locks(seed, processes, size, modulus, missing):
    """A lock, taken by an update of 0 to 1 and given back by a write of 0. Between them a counter is read and written, modulo so many values if
    this is not 0; with `None` there is none. `missing`: one release is not in the log, though the lock was taken again."""
    rng = Rng(seed)
    logs = [[] for _ in range(processes)]
    sections = size // (2 if modulus is None else 4)
    lost = sections // 2 + rng.below(sections // 4) if missing else -1
    for k in range(sections):
        log = logs[rng.below(processes)]
        log.append(("U", "l", 0, 1))
        if modulus is not None:
            log.append(("R", "c", k % modulus if modulus else k))
            log.append(("W", "c", (k + 1) % modulus if modulus else k + 1))
        if k != lost:
            log.append(("W", "l", 0))
    return {"c": 0, "l": 0}, {"l": 0}, logs


def logs_of(size, seed, values, rounds):
    """The name and the trace of each log of this size."""
    for processes, locations in ROUND_SHAPES if rounds else SHAPES:
        if size < SMALL and processes * locations > size:
            continue
        for kind in ROUND_FAULTS if rounds else FAULTS:
            if kind == "near" and values:
                continue
            seed += 1
            initial, final, logs, pairs = recorded(seed, kind, size, processes, locations, values, rounds or size)
            if kind == "mut":
                with_other_value(logs, seed)
            if kind == "near":
                with_value_before(logs, seed)
            yield f"{kind}-{size}-{processes}-{locations}", text(initial, final, logs, pairs)
    if rounds:
        return
    for kind in ("counter", "lost"):
        yield f"{kind}-{size}-16-1", text(*counter(seed + 101, 16, size, kind == "lost"))
    for kind in ("passing", "stale"):
        yield f"{kind}-{size}-16-8", text(*messages(seed + 102, 16, size, 4, kind == "stale"))


def main():
    parser = argparse.ArgumentParser(description=__doc__.split("\n", maxsplit=1)[0])
    parser.add_argument("--seed", type=int, default=1)
    parser.add_argument("--values", type=int, default=0, help="so many values; 0: each write has its own")
    parser.add_argument("--rounds", type=int, default=0, help="so many operations up to a barrier; 0: no barrier")
    parser.add_argument("--sizes", default="200,500,1000,2000,4096")
    parser.add_argument("outdir")
    options = parser.parse_args()
    os.makedirs(options.outdir, exist_ok=True)
    for size in map(int, options.sizes.split(",")):
        for name, trace in logs_of(size, options.seed + size, options.values, options.rounds):
            with open(f"{options.outdir}/{name}.vsc", "w", encoding="ascii") as out:
                out.write(trace)


if __name__ == "__main__":
    main()
