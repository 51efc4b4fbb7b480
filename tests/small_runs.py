"""Small runs of each command of the program, which tests/refused-memory and tests/failing-devices repeat with something that fails."""

import collections
import itertools
import os
import re
import subprocess
import tempfile

import reference_reasons

HERE = os.path.dirname(os.path.realpath(__file__))
ROOT = os.path.dirname(HERE)
SECONDS = 300
REFUSED = (2, b"refused: memory\n")
NO_THREAD = (2, b"refused: search 3 NoThread\n")
DEVICE = (4, b"refused: device\n")

# What each file that a command writes has before a run, and what stands for their paths in a command, in the order in which these files are
# opened and written: a certificate, the names of a core, and its part; and a picture, which is written after the report.
EARLIER = b"what stood here before\n"
WRITTEN = ("CERT", "NAMES", "PART", "PICTURE")

# What stands for the path of a text in a command; the texts that are not named so come at its end.
TEXT = "TEXT"

# How a run has ended: its exit status, both streams, and what each file that it writes holds.
Ended = collections.namedtuple("Ended", "status out err files")
HANGS = Ended(None, b"", b"it did not end", ())
NOTE = b"note: "

HAND_OFF = "vsc 1\nproc P\nW x 1\nproc Q\nR x 1\n"
STORE_BUFFERING = "vsc 1\ninit x 0\ninit y 0\nproc P\nW x 1\nR y 0\nproc Q\nW y 1\nR x 0\n"
TWO_READERS = "vsc 1\ninit x 0\ninit y 0\nproc P\nW x 1\nproc Q\nW y 1\nproc R\nR x 1\nR y 0\nproc S\nR y 1\nR x 0\n"
TOO_FEW_SOURCES = "vsc 1\ninit x 0\n" + "".join(f"proc P{n}\nU x {n // 4} {1 - n // 4}\n" for n in range(6))
UNWRITTEN = "vsc 1\nproc P\nW x 1\nW y 1\nproc Q\nR y 1\nR x 2\n"
UPDATED_BACK = "vsc 1\ninit x 0\nfinal x 0\nproc P\nU x 0 1\nproc Q\nU x 1 0\n"
READ_AGAIN = "vsc 1\nproc P\nW x 1\n" + 4095 * "R x 1\n"
WRITTEN_AGAIN = "vsc 1\ninit x 0\nproc P\nW x 0\nproc Q\nR x 0\n"
WRITES = "vsc 1\nproc P\n" + 32 * "W x 1\n" + "proc Q\n" + 32 * "W x 1\n"
STORE_BUFFERING_CNF = (
    "p cnf 8 14\n1 0\n6 0\n-1 -4 2 0\n1 4 -2 0\n-1 -5 3 0\n1 5 -3 0\n-2 -6 3 0\n2 6 -3 0\n-4 -6 5 0\n4 6 -5 0\n7 0\n-7 4 0\n8 0\n-8 -3 0\n"
)
STORE_BUFFERING_PROOF = "15 0 1 2 11 12 3 7 13 14 0\n"

CERTIFICATE = "vsc-cert 1\nsplit 3\nleaf\nleaf\nproof 0\n16 0 13 14 15 0\nend\nproof 1\n16 0 1 2 11 12 3 7 15 0\nend\n"
THREE_TRACES = HAND_OFF + STORE_BUFFERING + "vsc 1\nproc P\n"
THREE_ANSWERS = ("CONSISTENT", "INCONSISTENT cubes=4", "CONSISTENT")
PART_OF_HAND_OFF = "vsc 1\nproc P\n# P.1\nW x 1\nproc Q\n# Q.1\nR x 1\n"

# Of the part of `UNWRITTEN` that Q.2 makes up, since nothing writes what it reads; and the notes on that.
UNWRITTEN_CERTIFICATE = "vsc-cert 1\nleaf\nproof 0\n3 0 1 2 0\nend\n"
UNWRITTEN_NOTES = (
    "note: Q.2 reads 2 at x, which nothing writes, and x has no init line\nnote: this alone rules out all schedules\n"
)

# The cubes of each tree, those with a legal schedule first among the names of the row.
TWO_CUBES = ("3", "-3")
FOUR_CUBES = ("3 4", "3 -4", "-3 4", "-3 -4")
ALL_CUBES = ("",) + TWO_CUBES + FOUR_CUBES
EIGHT_CUBES = tuple(map(" ".join, itertools.product(("2", "-2"), ("5", "-5"), ("7", "-7"))))


class Row:
    """A command, the files that it reads, how it ends where nothing fails, and which cubes it may leave open.

    Of `with_schedule` are the cubes in which there is a legal schedule: a report that leaves cubes open has to name them. Where the
    command names files that are written, `written` is what these hold in the end. Where it explains its answer, `notes` are the notes on
    standard error; notes are left out where something fails, so they are not looked at then. Where `printed` is None, it is what is
    printed where nothing fails.
    """

    def __init__(self, title, command, texts, status, printed, cubes=(), with_schedule=(), told="", notes=None):
        self.title, self.command, self.texts = title, command, texts
        self.status, self.printed = status, printed.encode() if isinstance(printed, str) else printed
        self.told, self.notes = told.encode(), notes
        self.cubes, self.with_schedule = cubes, with_schedule
        self.written = ()

    def outputs_in(self, folder):
        """The paths of the files that the command writes, in the order in which it writes them."""
        return [os.path.join(folder, word) for word in WRITTEN if word in self.command.split()]

    def left_by_refusal(self, opened):
        """What the files that the command writes hold if nothing was written and so many of them were opened: a certificate of `verify` was emptied
        then, and all others are as they were."""
        words = [word for word in WRITTEN if word in self.command.split()]
        empties = [self.command.startswith("verify") and word == "CERT" and number < opened for number, word in enumerate(words)]
        return tuple(b"" if is_emptied else EARLIER for is_emptied in empties)

    def left_untouched(self):
        """What the files that the command writes hold after a report that has nothing for them."""
        return self.left_by_refusal(len(self.written))

    def words(self, program, folder):
        """The command line, with the texts as files in the folder."""
        paths = {word: os.path.join(folder, word) for word in WRITTEN}
        for number, text in enumerate(self.texts):
            paths[f"{TEXT}{number}"] = os.path.join(folder, str(number))
            with open(os.path.join(folder, str(number)), "w", encoding="ascii") as file:
                file.write(text)
        words = self.command.split()
        last = [paths[f"{TEXT}{number}"] for number in range(len(self.texts)) if f"{TEXT}{number}" not in words]
        return [program, *(paths.get(word, word) for word in words), *last]

    def run(self, words, environment, folder, tells=None):
        """Runs the command line in this environment, its notes left out: see `run`."""
        ended, was_told = run(words, environment, tells, self.outputs_in(folder))
        return (ended if self.notes is None else without_notes(ended)), was_told

    def wanted(self):
        """How the command ends where nothing fails."""
        return Ended(self.status, self.printed, self.told, self.written)

    def allows_whole(self, ended):
        """Whether it is a report on the whole trace of a survey whose part was left open, where that part is the whole."""
        if not self.written or not self.printed.startswith(b"INCONSISTENT operations="):
            return False
        report = b"INCONSISTENT " + re.search(rb"cubes=\d+\n", self.printed).group()
        return ended == Ended(1, report, self.told, (self.written[0], EARLIER, EARLIER))

    def allows_reasons(self, ended):
        """Whether it is a report by reasons of a survey whose core's part was left open, with a certificate that a plain checker accepts."""
        found = re.match(rb"INCONSISTENT operations=\d+ reasons=(\d+)\n", ended.out)
        if found is None or not self.written or not self.printed.startswith(b"INCONSISTENT operations="):
            return False
        certificate, *others = ended.files
        is_silent = (ended.status, ended.err) == (1, self.told) and all(content == EARLIER for content in others)
        return is_silent and reference_reasons.answer(reference_reasons.Trace(self.texts[0]), certificate.decode()) == (
            f"ACCEPTED clauses={int(found[1])}",
            0,
        )

    def opened(self, ended):
        """The cubes that a report leaves open, or None where it is no such report."""
        lines = ended.out.decode().split("\n")
        cubes = [" ".join(line.split()[1:-1]) for line in lines[1:-1]]
        are_lines = all(line.startswith("open ") and line.endswith("0") for line in lines[1:-1])
        is_report = (
            ended.status == 3
            and ended.err == b""
            and lines[0] == f"UNKNOWN open={len(cubes)}"
            and lines[-1] == ""
            and are_lines
            and len(set(cubes)) == len(cubes) > 0
        )
        return cubes if is_report else None

    def allows_open(self, ended):
        """Whether it is a report of open cubes that is true: each is one of the tree, and those with a legal schedule are there."""
        cubes = self.opened(ended)
        is_true = cubes is not None and set(self.with_schedule) <= set(cubes) <= set(self.cubes)
        return is_true and ended.files == self.left_untouched()

    def starts_threads(self):
        """Whether the command may start threads: a single cube, or a single worker, needs none."""
        return len(self.cubes) > 1 and "--workers 1" not in self.command

    def is_beginning(self, files, out):
        """Whether the files and the report are a prefix of all that is written, the files first, one after the other. A file to which nothing was
        written may hold what it held before."""
        wanted, found = [*self.written, self.printed], [*(b"" if content == EARLIER else content for content in files), out]
        whole = list(itertools.takewhile(lambda pair: pair[0] == pair[1], zip(wanted, found)))
        left = found[len(whole):]
        return not left or (wanted[len(whole)].startswith(left[0]) and not any(left[1:]))

    def learn(self, program):
        """Runs the command where nothing fails: what is wrong with how it ends, or None. What the files hold in the end is not fixed: the
        certificate is one that `recheck` accepts, for the part that the names make up where these are written too, or nothing; the names
        are those of the report, and the part is what `part` prints of them."""
        with tempfile.TemporaryDirectory(prefix="vsc-small-") as folder:
            words, paths = self.words(program, folder), self.outputs_in(folder)
            ended, _ = run(words, {}, outputs=paths)
            if self.notes is not None and ended.err != self.told + self.notes.encode():
                return told(ended)
            ended = ended if self.notes is None else without_notes(ended)
            self.written = ended.files
            if self.printed is None and ended.out:
                self.printed = ended.out
            if ended != self.wanted() or (self.status != 1 and ended.files != self.left_untouched()):
                return told(ended)
            if not paths or self.status != 1:
                return None
            trace, cert, *others = words[-1], *paths
            checked, _ = run([program, "recheck", trace, cert, *(["--part", others[0]] if others else [])], {})
            accepted = b"ACCEPTED " + re.search(rb"cubes=\d+\n", self.printed).group()
            if checked != Ended(0, accepted, b"", ()):
                return told(checked)
            if not others:
                return None
            part, _ = run([program, "part", "--names", trace, others[0]], {})
            are_right = self.written[1] == self.printed.partition(b"\n")[2] and part == Ended(0, self.written[2], b"", ())
            return None if are_right else told(ended)


class Many(Row):
    """A command that decides many traces of one file, whose name stands in each line: so it has one path for all runs."""

    def __init__(self, title, command, text, status, lines, told=""):
        self.folder = tempfile.TemporaryDirectory(prefix="vsc-many-")
        self.path = os.path.join(self.folder.name, "traces")
        with open(self.path, "w", encoding="ascii") as file:
            file.write(text)
        printed = "".join(f"{self.path}:{number} {line}\n" for number, line in enumerate(lines, 1))
        super().__init__(title, command, [text], status, printed, told=told)

    def words(self, program, folder):
        return [program, *self.command.split(), self.path]

    def is_left_off(self, out):
        """Whether these are the lines of the first traces, each whole, and then one that says that the rest could not be read."""
        lines = out.splitlines(keepends=True)
        first = self.printed.splitlines(keepends=True)[: len(lines) - 1]
        return lines == [*first, f"{self.path}:{len(lines)} refused: device\n".encode()]

    def allows_refused(self, ended):
        """Whether each line is the one that is wanted, or says that memory was refused or that cubes are open, with the status of these lines."""
        lines, wanted = ended.out.splitlines(), self.printed.splitlines()
        said = [line.partition(b" ")[2] for line in lines]
        # Where memory was refused to the reading, the last line says so, and stands for the traces that were not read.
        is_short = len(lines) < len(wanted) and said[-1:] == [REFUSED[1].strip()]
        places = [line.partition(b" ")[0] for line in wanted]
        are_places = [line.partition(b" ")[0] for line in lines] == (places[: len(lines)] if is_short else places)
        are_answers = are_places and all(
            line == right or answer == REFUSED[1].strip() or re.fullmatch(rb"UNKNOWN open=[1-9]\d*", answer)
            for line, right, answer in zip(lines, wanted, said)
        )
        refusals = [answer + b"\n" for answer in said if answer.startswith(b"refused: ")]
        if any(answer.startswith(b"INCONSISTENT") for answer in said):
            status, err = 1, b""
        elif refusals:
            status, err = 2, refusals[0]
        else:
            status, err = (3 if any(answer.startswith(b"UNKNOWN") for answer in said) else 0), b""
        return are_answers and (ended.status, ended.err) == (status, err)


def without_notes(ended):
    """The same with nothing but the first line on standard error where notes stand there, the last of them perhaps cut short."""
    *lines, last = ended.err.split(b"\n")
    kept = [line + b"\n" for line in lines if not line.startswith(NOTE)]
    is_note = last.startswith(NOTE) or NOTE.startswith(last)
    return ended._replace(err=b"".join(kept) + (b"" if is_note else last))


def told(ended):
    text = f"status {ended.status}, printed {ended.out[:200]!r}, on standard error {ended.err[:200]!r}"
    return text + "".join(f", in a file {content[:200]!r}" for content in ended.files)


def names(*schedule):
    return "".join(f"{name}\n" for name in schedule)


def inconsistent(count, core=()):
    """The report where all cubes are refuted: of the whole trace, or of the part that a core makes up."""
    return f"INCONSISTENT operations={len(core)} cubes={count}\n" + names(*core) if core else f"INCONSISTENT cubes={count}\n"


def compiler():
    """The C compiler of the kit, or the system's."""
    page = subprocess.run(["rt", "doc"], stdout=subprocess.PIPE, check=True).stdout.decode().strip()
    own = os.path.join(os.path.dirname(page), "toolchain", "bin", "clang")
    return own if os.access(own, os.X_OK) else os.environ.get("CC", "cc")


def library(folder, name):
    """Makes a library of the file of this name here, and gives its path."""
    path = os.path.join(folder, f"{name}.so")
    source = os.path.join(HERE, f"{name}.c")
    subprocess.run([compiler(), "-shared", "-fPIC", "-O1", "-nostdlib", "-o", path, source], check=True)
    return path


def built_program():
    """The program that the environment variable VSC names, or else the one that ./vsc at the top has built."""
    program = os.path.abspath(os.environ.get("VSC") or os.path.join(ROOT, "vsc"))
    # The script at the top may have to build the program first. It is the program itself that is run.
    subprocess.run([program, "--version"], stdout=subprocess.DEVNULL, check=True)
    return os.path.join(ROOT, "crates", "vsc", "out", "vsc") if program == os.path.join(ROOT, "vsc") else program


def run(words, environment, tells=None, outputs=()):
    """Runs a command in this environment: how it ended, and whether it wrote to the file descriptor that the variable `tells` names. The
    files at the paths `outputs` are made anew before."""
    for path in outputs:
        with open(path, "wb") as file:
            file.write(EARLIER)
    reading, telling = os.pipe()
    environment = {**environment, **({tells: str(telling)} if tells else {})}
    how = {"stdin": subprocess.DEVNULL, "stdout": subprocess.PIPE, "stderr": subprocess.PIPE, "timeout": SECONDS}
    try:
        done = subprocess.run(words, env=environment, pass_fds=[telling], **how)
        ended = Ended(done.returncode, done.stdout, done.stderr, tuple(map(content_of, outputs)))
    except subprocess.TimeoutExpired:
        ended = HANGS
    finally:
        os.close(telling)
        was_told = os.read(reading, 1) != b""
        os.close(reading)
    return ended, was_told


def content_of(path):
    """What the file at the path holds."""
    with open(path, "rb") as file:
        return file.read()
