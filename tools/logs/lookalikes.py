"""Which names of locations look like mistakes: another differs by capital letters or by one letter, or one operation alone has it."""

import collections
import re

from logs.cells import number_of
from logs.mistakes import note, some_of

# Names that are shorter differ by one letter anyway, and longer ones are no words.
SHORTEST, LONGEST = 3, 64


def tell(log, named_by_options):
    """Says it of the locations of a log, and which of those that options name no operation has."""
    count = collections.Counter(op.location for operations in log.processes.values() for op in operations)
    names = [name for name in count if number_of(name) is None]
    tell_pairs(by_case(names), "capital letters")
    tell_pairs(by_letter(names), "one letter")
    single = [name for name, times in count.items() if times == 1]
    if single:
        note(f"only one operation names {some_of(single)}")
    strange = [name for name in dict.fromkeys(named_by_options) if name not in count]
    if strange:
        note(f"no operation names {some_of(strange)}, of which an option says a value")


def tell_pairs(pairs, by_what):
    if pairs:
        note(f"locations that differ by {by_what}: {some_of(f'{one} and {other}' for one, other in pairs)}")


def by_case(names):
    """Names that are one without capital letters."""
    small = collections.defaultdict(list)
    for name in names:
        small[name.lower()].append(name)
    return [(first, other) for first, *others in small.values() for other in others]


def by_letter(names):
    """Names of which one becomes the other if a letter is left out or replaced. A letter that is a word by itself, as in `lock_a` or `lockA`, is
    a number by another name, and does not count."""
    names = [name for name in names if len(name) <= LONGEST]
    known, found = set(names), []
    without = collections.defaultdict(list)
    for name in names:
        for at, letter in enumerate(name):
            if letter.isalpha() and not is_word(name, at):
                rest = name[:at] + name[at + 1 :]
                if rest in known and len(name) >= SHORTEST + 1:
                    found.append((rest, name))
                without[(at, rest)].append(name)
    for (at, rest), alike in without.items():
        if len(rest) + 1 >= SHORTEST:
            found += [(alike[0], other) for other in alike[1:] if other.lower() != alike[0].lower()]
    return list(dict.fromkeys(found))


def is_word(name, at):
    """Whether the letter at this place stands alone: between what is no small letter, and behind no capital letter."""
    before, after = name[at - 1 : at] if at else "", name[at + 1 : at + 2]
    begins = not re.match(r"[A-Za-z]", before) or name[at].isupper() and before.islower()
    return begins and not after.islower() and not (name[at].isupper() and after.isupper())
