"""The results as JUnit XML, which CI systems show: a suite for each file, a test case for each trace."""

from .kept import Kept, stem_of
from .shown import escaped

# How each verdict counts. A trace that was not decided is no failure: it shows nothing.
KINDS = {"INCONSISTENT": "failure", "refused": "error", "UNKNOWN": "skipped"}
COUNTS = {"tests": None, "failures": "failure", "errors": "error", "skipped": "skipped"}


def counts(results):
    kinds = [KINDS.get(it.verdict) for it in results]
    return " ".join(f'{name}="{len(kinds) if kind is None else kinds.count(kind)}"' for name, kind in COUNTS.items())


def case(result, folder, are_many):
    head = f'    <testcase classname="{escaped(result.file)}" name="{escaped(result.name())}"'
    kind = KINDS.get(result.verdict)
    if kind is None:
        return head + "/>\n"
    told = "" if kind == "skipped" else f' type="{result.verdict}"'
    lines = list(result.why or [])
    if result.core:
        lines.append(f"core: {' '.join(result.core)}")
    lines += Kept(folder, stem_of(result, are_many)).commands() if result.verdict == "INCONSISTENT" else []
    text = escaped("\n".join(lines), kept="\n")
    return f'{head}>\n      <{kind} message="{escaped(result.said())}"{told}>{text}</{kind}>\n    </testcase>\n'


def lines(results, folder, title):
    """The document, in pieces."""
    suites = {}
    for result in results:
        suites.setdefault(result.file, []).append(result)
    yield f'<?xml version="1.0" encoding="UTF-8"?>\n<testsuites name="{escaped(title)}" {counts(results)}>\n'
    for file, inside in suites.items():
        yield f'  <testsuite name="{escaped(file)}" {counts(inside)}>\n'
        are_many = inside[-1].number > 1
        for result in inside:
            yield case(result, folder, are_many)
        yield "  </testsuite>\n"
    yield "</testsuites>\n"
