"""What a run says: a result for each trace. A line is a JSON object, of which docs/CI.md has the names, or plain."""

import json
import re

VERDICTS = ("INCONSISTENT", "refused", "UNKNOWN", "CONSISTENT")
# What a verdict may be followed by on its line, in this order.
COUNTS = ("operations", "cubes", "reasons", "open", "placed", "undecided")
# A plain line: the file, the number of the trace in it, and the verdict.
PLAIN = re.compile(r"(.+):(\d+) (CONSISTENT|(?:INCONSISTENT|UNKNOWN)((?: \w+=\d+)*)|refused: (\w+)(?: (\d+) (\w+)(?: at (\d+))?)?)")


class Mistake(Exception):
    """What is wrong with the input."""


def is_number(value):
    return isinstance(value, int) and not isinstance(value, bool)


def texts(made, name):
    """A list of texts that the object may have."""
    found = made.get(name, [])
    if not isinstance(found, list) or not all(isinstance(it, str) for it in found):
        raise Mistake(f"`{name}` is no list of texts")
    return found


class Result:
    """A trace and its verdict. The schedule of a CONSISTENT is not kept, since nothing shows it."""

    __slots__ = ("file", "number", "line", "verdict", "counts", "core", "why", "refusal", "kept")

    def __init__(self, made):
        if not isinstance(made, dict):
            raise Mistake("it is no JSON object")
        self.file, self.number, self.line, self.verdict = (made.get(name) for name in ("file", "number", "line", "verdict"))
        if not isinstance(self.file, str) or not is_number(self.number) or not (self.line is None or is_number(self.line)):
            raise Mistake("it does not say `file`, `number` and `line`")
        if self.verdict not in VERDICTS:
            raise Mistake(f"its `verdict` is none of {', '.join(VERDICTS)}")
        self.counts = {name: made[name] for name in COUNTS if is_number(made.get(name))} or None
        self.core, self.why = texts(made, "core") or None, texts(made, "why") or None
        self.refusal = made.get("refusal") if self.verdict == "refused" else None
        if self.refusal is not None and not isinstance(self.refusal, dict):
            raise Mistake("its `refusal` is no JSON object")
        self.kept = made.get("kept")
        if self.kept is not None and not isinstance(self.kept, str):
            raise Mistake("its `kept` is no text")

    def name(self):
        """The trace as a plain line names it."""
        return f"{self.file}:{self.number}"

    def said(self):
        """The verdict as a plain line says it."""
        if self.verdict != "refused":
            return " ".join([self.verdict, *(f"{name}={number}" for name, number in (self.counts or {}).items())])
        refusal = self.refusal or {}
        words = [str(refusal[name]) for name in ("area", "number", "name") if name in refusal]
        place = [f"at {refusal['line']}"] if "line" in refusal else []
        return " ".join(["refused:", *words, *place])


def object_of(line):
    """The object that a line of a run is, or stands for."""
    plain = PLAIN.fullmatch(line.rstrip("\n"))
    if not plain or line.startswith("{"):
        return json.loads(line)
    file, number, said, counts, *refusal = plain.groups()
    made = {"file": file, "number": int(number), "verdict": said.split()[0].rstrip(":")}
    made.update((name, int(value)) for name, value in re.findall(r"(\w+)=(\d+)", counts or ""))
    if made["verdict"] == "refused":
        made["refusal"] = {name: it for name, it in zip(("area", "number", "name", "line"), refusal) if it}
    return made


def read(lines):
    """The results of the lines of a run."""
    for number, line in enumerate(lines, 1):
        if not line.strip():
            continue
        try:
            yield Result(object_of(line))
        except (Mistake, ValueError, RecursionError) as fault:
            said = fault if isinstance(fault, Mistake) else "it is no JSON object"
            raise Mistake(f"line {number} is no result of a run: {said}") from None


def counted(results):
    """How many results have each verdict."""
    numbers = dict.fromkeys(VERDICTS, 0)
    for result in results:
        numbers[result.verdict] += 1
    return numbers
