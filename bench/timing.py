"""Runs programs and takes their times: what the benchmarks share."""

import ctypes
import os
import re
import resource
import signal
import statistics
import tempfile
import time

ROOT = os.path.dirname(os.path.dirname(os.path.realpath(__file__)))
PROGRAM = f"{ROOT}/crates/vsc/out/vsc"


def run(command, out):
    """One run: its wall and CPU time in milliseconds, and its exit status. A spawn copies nothing of this process."""
    actions = [(os.POSIX_SPAWN_DUP2, out, 1), (os.POSIX_SPAWN_DUP2, out, 2)]
    begin = time.monotonic()
    child = os.posix_spawn(command[0], command, os.environ, file_actions=actions)
    _, status, usage = os.wait4(child, 0)
    wall = time.monotonic() - begin
    return 1e3 * wall, 1e3 * (usage.ru_utime + usage.ru_stime), os.waitstatus_to_exitcode(status)


def peak_of(command, out):
    """The largest resident set of the program itself, in MB. The kernel's figure for a child counts its parent's
    pages too, up to the exec, so the program is stopped as it ends and asked for its own."""
    traceme, cont, setoptions, at_exit = 0, 7, 0x4200, 0x40
    ptrace = ctypes.CDLL(None, use_errno=True).ptrace
    ptrace.argtypes = [ctypes.c_long, ctypes.c_long, ctypes.c_void_p, ctypes.c_void_p]
    ptrace.restype = ctypes.c_long
    child = os.fork()
    if child == 0:
        # A fault must end the child here, and not in the rest of this program.
        try:
            os.dup2(out, 1)
            os.dup2(out, 2)
            ptrace(traceme, 0, None, None)
            os.execv(command[0], command)
        finally:
            os._exit(127)
    peak = None
    _, status = os.waitpid(child, 0)
    if os.WIFSTOPPED(status):
        ptrace(setoptions, child, None, at_exit)
    while os.WIFSTOPPED(status):
        is_event = status >> 8 != os.WSTOPSIG(status)
        if is_event:
            with open(f"/proc/{child}/status", encoding="ascii") as lines:
                peak = next(int(line.split()[1]) / 1024 for line in lines if line.startswith("VmHWM"))
        passed_on = 0 if is_event or os.WSTOPSIG(status) == signal.SIGTRAP else os.WSTOPSIG(status)
        ptrace(cont, child, None, passed_on)
        _, status = os.waitpid(child, 0)
    return peak


def processor_time(command, seconds, out):
    """The processor time of one run that may take so many seconds, in seconds, and its exit status: 127 where there is no such
    command."""
    child = os.fork()
    if child == 0:
        # A fault must end the child here, and not in the rest of this program.
        try:
            resource.setrlimit(resource.RLIMIT_CPU, (seconds, seconds + 1))
            os.dup2(os.open(out, os.O_WRONLY | os.O_CREAT | os.O_TRUNC), 1)
            os.dup2(os.open(os.devnull, os.O_WRONLY), 2)
            os.execvp(command[0], command)
        finally:
            os._exit(127)
    _, status, usage = os.wait4(child, 0)
    return usage.ru_utime + usage.ru_stime, os.waitstatus_to_exitcode(status)


def family_of(name):
    """What stands before the first hyphen of a trace's name; those of 160 operations are families of their own."""
    large = re.search(r"-160-|-80-80", name)
    return name.split("-")[0] + (", 160" if large else "")


def output_of(command):
    """What a run prints, and its exit status."""
    with tempfile.TemporaryFile() as out:
        _, _, status = run(command, out.fileno())
        out.seek(0)
        return out.read(), status


def heading():
    print(f"{'':<46}{'wall ms':>9}{'CPU ms':>9}{'peak MB':>9}{'ratio':>8}")


def row(label, wall, cpu, peak, ratio=""):
    print(f"{label:<46}{wall:>9.2f}{cpu:>9.2f}{'?' if peak is None else f'{peak:.1f}':>9}{ratio:>8}", flush=True)


def measure(label, commands, runs):
    """The rows of one input: the programs take turns, so that all see the same minute. The ratio is that of the first
    one's CPU time to the other's."""
    with open(os.devnull, "wb") as null:
        seen = {name: [] for name in commands}
        for _ in range(runs):
            for name, command in commands.items():
                seen[name].append(run(command, null.fileno()))
        first = None
        for name, command in commands.items():
            wall, cpu = (statistics.median(it[k] for it in seen[name]) for k in (0, 1))
            ratio = "" if first is None else f"{first / cpu:.2f}"
            first = cpu if first is None else first
            row(f"{label}, {name}", wall, cpu, peak_of(command, null.fileno()), ratio)
