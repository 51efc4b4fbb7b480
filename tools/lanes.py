"""Which crates of a build are proved next, and with how many processes each.

`rt ci` takes a crate for the longer the more lines it has, and keeps memory free for three times what a check takes. Here the seconds and the memory
are those that docs/PROVING.md has of each crate. The crates with the longest chain of others behind them come first.

A check by two processes takes two thirds of the time, and by four two fifths, but three tenths more of the processors. So a crate has one process,
unless processors are idle; only the one with the longest chain has half of the processors, and all of them if nothing else can begin. With a process
for each processor, and others beside it, that chain took no less time.
"""

import os
import re
from concurrent.futures import FIRST_COMPLETED, ThreadPoolExecutor, wait

ROOT = os.path.dirname(os.path.dirname(os.path.realpath(__file__)))
# The most processes of a check, as of `rt ci`.
MOST_JOBS = 4
MEMORY_SHARE = 0.85
GIGABYTE = 1_000_000_000


def measured():
    """The seconds and the bytes of memory that a crate's proof takes, by the table of docs/PROVING.md."""
    found = {}
    with open(os.path.join(ROOT, "docs", "PROVING.md"), encoding="utf-8") as file:
        for line in file:
            words = [it.strip().replace(",", "") for it in line.split("|")]
            row = re.fullmatch(r"`(\w+)`", words[1]) if len(words) > 11 else None
            if row and words[6] and words[11].endswith("GB"):
                found[row[1]] = int(words[6]), float(words[11].split()[0]) * GIGABYTE
    return found


class Task:
    """A proof, or the tests of a crate: what it waits for, and what it is likely to take."""

    def __init__(self, key, given, costs):
        self.key = key
        self.waits, lines, needs, self.call = given
        seconds, memory = costs.get(key[0], (lines / 5, needs))
        # A crate without tests has nothing to do there.
        self.seconds = seconds if lines else 0
        self.memory = min(needs, 1.3 * memory)
        self.behind = self.seconds


def in_order(tasks, costs):
    """The tasks, those with the most seconds behind them first."""
    made = {key: Task(key, given, costs) for key, given in tasks.items()}
    # A task comes after those that it waits for.
    for key in reversed(list(made)):
        for it in made[key].waits:
            made[it].behind = max(made[it].behind, made[it].seconds + made[key].behind)
    return sorted(made.values(), key=lambda it: -it.behind)


def jobs_of(task, longest, idle, others, processors):
    """How many processes a task gets: its part of the idle processors, which others wait for too. If none has more seconds behind it, it gets half of all
    processors, or all if no other waits for one."""
    share = 1
    if task.behind == longest:
        share = processors // 2 if others else processors
    return min(MOST_JOBS, max(1, share, idle // (1 + others)))


def run_all(tasks, processors, free):
    """Runs the tasks side by side, each after those it waits for, and answers what each gave: the kit's `in_lanes` for a build without wrong bodies."""
    left, running, given = in_order(tasks, measured()), {}, {}
    with ThreadPoolExecutor(processors) as pool:
        while left or running:
            memory = MEMORY_SHARE * free - sum(task.memory for task, _ in running.values())
            longest = max(it.behind for it in [*left, *(task for task, _ in running.values())])
            ready = [it for it in left if all(below in given for below in it.waits)]
            for at, task in enumerate(ready):
                idle = processors - sum(jobs for _, jobs in running.values())
                if idle > 0 and (not running or task.memory <= memory):
                    others = sum(1 for it in ready[at + 1:] if it.seconds)
                    jobs = jobs_of(task, longest, idle, others, processors)
                    left.remove(task)
                    running[pool.submit(task.call, given, jobs)] = task, jobs
                    memory -= task.memory
            for done in wait(running, return_when=FIRST_COMPLETED).done:
                given[running.pop(done)[0].key] = done.result()
    return given
