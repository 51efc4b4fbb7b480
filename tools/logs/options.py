"""The options that say how a log is read, and the log that they give."""

import csv
import lzma

from logs import fetches, jepsen
from logs.log import Log, kinds_of
from logs.mistakes import Mistake
from logs.rows import COLUMNS, WORDS_OF_DELIMITERS, Reading, form_of, open_log

FAULTS = (Mistake, OSError, EOFError, UnicodeDecodeError, csv.Error, lzma.LZMAError)


def add(parser):
    parser.add_argument("log", nargs="?")
    for column in COLUMNS:
        parser.add_argument(f"--{column}", default=column)
    parser.add_argument("--kinds")
    parser.add_argument("--delimiter")
    parser.add_argument("--init", action="append", default=[])
    parser.add_argument("--init-all")
    parser.add_argument("--final", action="append", default=[])
    parser.add_argument("--json", action="store_true")
    parser.add_argument("--edn", action="store_true")
    parser.add_argument("--no-times", action="store_true")
    parser.add_argument("--help", "-h", action="store_true")


class Input:
    """A log as options say how to read it, and what locations hold at the start and in the end."""

    def __init__(self, wanted):
        self.columns = {column: getattr(wanted, column) for column in COLUMNS}
        self.log = Log(kinds_of(wanted.kinds), self.columns["read"] != self.columns["written"])
        self.everywhere = None if wanted.init_all is None else self.log.values[wanted.init_all.strip()]
        self.reading = Reading(self.columns, form_of(wanted.log, wanted), delimiter_of(wanted.delimiter), lambda text: self.history(text, wanted))
        self.log.take_rows(self.reading.rows_of(open_log(wanted.log)))
        self.reading.tell(self.log.has_swaps)
        self.initial, self.final = self.pairs("--init", wanted.init), self.pairs("--final", wanted.final)
        # What an option says of a location, which may be one that no operation names.
        self.named_by_options = [*self.initial, *self.final]
        if self.everywhere is not None:
            locations = dict.fromkeys(op.location for operations in self.log.processes.values() for op in operations)
            self.initial = {**dict.fromkeys([*locations, *self.final], self.everywhere), **self.initial}
        fetches.settle(self.log, self.initial)
        self.log.tell_spellings()

    def pairs(self, option, texts):
        found = {}
        for text in texts:
            location, equals, value = text.rpartition("=")
            if not equals:
                raise Mistake(f"{option} {text}: LOCATION=VALUE")
            found[self.log.locations[location.strip()]] = self.log.values[value.strip()]
        return found

    def history(self, text, wanted):
        initial, final = self.pairs("--init", wanted.init), self.pairs("--final", wanted.final)
        return jepsen.rows(text, self.log.kinds, self.log.value_of, lambda location: initial.get(location, self.everywhere), final)


def delimiter_of(wanted):
    if wanted is None:
        return None
    delimiter = WORDS_OF_DELIMITERS.get(wanted, wanted)
    if len(delimiter) != 1 or delimiter in '"\r\n':
        raise Mistake(f"--delimiter {wanted}: one character, or tab")
    return delimiter
