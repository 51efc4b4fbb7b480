"""What is said of a log on standard error, and what it is refused for."""

import sys

# So many of a kind are named; of the others a note says how many they are.
MOST_NAMED = 8
CIRCLE = "times and barriers go round in a circle: no order of the operations keeps them all"


class Mistake(Exception):
    """What is wrong with the log or with an option."""


def at_line(line, what):
    return Mistake(f"line {line}: {what}")


def note(text):
    print(f"{TOOL}: {text}", file=sys.stderr)


def some_of(texts):
    """The first of these texts as one, and how many more there are."""
    texts = list(texts)
    more = len(texts) - MOST_NAMED
    return ", ".join(texts[:MOST_NAMED]) + (f" and {more} more" if more > 0 else "")


# The name before each note; tools/cut-log puts its own here.
TOOL = "from-log"
