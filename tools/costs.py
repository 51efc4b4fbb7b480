"""What the checks of a run of `rt ci` cost: seconds of processor and memory, by crate and by part.

They are read from /proc, a few times a second. What a process took after it was last looked at is known from its parent, which
counts what its ended children took.
"""

import os
import re
import threading

PARTS = ("proof", "tests", "wrong bodies")
TICKS = os.sysconf("SC_CLK_TCK")


def processes():
    """For each process: its parent, and the seconds that it and the children that it has waited for took, apart."""
    found = {}
    for pid in os.listdir("/proc"):
        if pid.isdigit():
            try:
                with open(f"/proc/{pid}/stat", encoding="utf-8", errors="replace") as file:
                    words = file.read().rpartition(")")[2].split()
            except OSError:
                continue
            user, system, user_below, system_below = map(int, words[11:15])
            found[int(pid)] = (int(words[1]), (user + system) / TICKS, (user_below + system_below) / TICKS)
    return found


def descendants(pid, found):
    """The processes that a process started, and those that these started."""
    children = {}
    for it, (parent, _, _) in found.items():
        children.setdefault(parent, []).append(it)
    below, left = [], list(children.get(pid, []))
    while left:
        it = left.pop()
        below.append(it)
        left += children.get(it, [])
    return below


def read_text(path):
    try:
        with open(path, encoding="utf-8", errors="replace") as file:
            return file.read()
    except OSError:
        return ""


def free_memory():
    """The memory that is free, in megabytes."""
    found = re.search(r"MemAvailable:\s+(\d+)", read_text("/proc/meminfo"))
    return int(found[1]) // 1024 if found else 0


def free_disk(folder):
    """The room of a folder's disk, in megabytes."""
    try:
        disk = os.statvfs(folder)
    except OSError:
        return 0
    return disk.f_bavail * disk.f_frsize // 2**20


def peak_memory(pid):
    """The most memory that a process has held, in megabytes."""
    found = re.search(r"VmHWM:\s+(\d+)", read_text(f"/proc/{pid}/status"))
    return int(found[1]) // 1024 if found else 0


def task_of(pid):
    """The crate and the part that a process of `rt ci` works on, if it is one that checks or tests a crate."""
    words = read_text(f"/proc/{pid}/cmdline").split("\0")
    if "--crate-name" in words[:-1] and any(os.path.basename(it) == "rattle" for it in words):
        crate = words[words.index("--crate-name") + 1]
        try:
            folder = os.readlink(f"/proc/{pid}/cwd")
        except OSError:
            return None
        return crate, "wrong bodies" if "/rt-edit-" in folder else "tests" if "--test" in words else "proof"
    program = next((it for it in words if re.search(r"/bin/\w+_tests$", it)), None)
    return (os.path.basename(program)[: -len("_tests")], "tests") if program else None


class Costs:
    """Watches a process that runs `rt ci`, until it is told that this has ended."""

    def __init__(self, pid, folder):
        self.pid = pid
        self.folder = folder
        self.seconds = {}
        self.megabytes = {}
        self.running = {}
        self.below = 0.0
        self.memory = self.least_memory = free_memory()
        self.disk = self.least_disk = free_disk(folder)
        self.ended = threading.Event()
        self.thread = threading.Thread(target=self.watch, daemon=True)
        self.thread.start()

    def watch(self):
        while not self.ended.wait(0.3):
            self.look()

    def add(self, task, seconds):
        if task:
            self.seconds[task] = self.seconds.get(task, 0.0) + seconds

    def look(self):
        """Notes what runs now, and counts what has ended since the last look."""
        found = processes()
        self.least_memory = min(self.least_memory, free_memory())
        self.least_disk = min(self.least_disk, free_disk(self.folder))
        if self.pid not in found:
            return
        before, self.running = self.running, {}
        for pid, (parent, _, _) in found.items():
            if parent == self.pid:
                taken = sum(sum(found[it][1:]) for it in [pid, *descendants(pid, found)])
                task = task_of(pid) or before.get(pid, (None,))[0]
                self.running[pid] = (task, taken)
                if task:
                    self.megabytes[task] = max(self.megabytes.get(task, 0), peak_memory(pid))
        ended = [it for pid, it in before.items() if pid not in self.running]
        unseen = found[self.pid][2] - self.below - sum(taken for _, taken in ended)
        for task, taken in ended:
            self.add(task, taken + max(unseen, 0.0) / len(ended))
        self.below = found[self.pid][2]

    def end(self):
        """Ends the watch."""
        self.ended.set()
        self.thread.join()
        for task, taken in self.running.values():
            self.add(task, taken)
        self.running = {}

    def lines(self):
        """A line for each crate and part, as `tools/gate-costs` reads them."""
        order = sorted(self.seconds, key=lambda it: (it[0], PARTS.index(it[1])))
        for crate, part in order:
            seconds, megabytes = self.seconds[crate, part], self.megabytes.get((crate, part), 0)
            yield f"cost: {crate}, {part}: {seconds:.1f} s of processor, {megabytes} MB"
        yield f"cost: processors: {len(os.sched_getaffinity(0))}"
        yield f"cost: most memory in use beside what was before: {self.memory - self.least_memory} MB"
        yield f"cost: most disk in use beside what was before: {self.disk - self.least_disk} MB"
