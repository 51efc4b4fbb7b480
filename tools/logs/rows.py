"""Reads the rows of a log: CSV, JSON lines, or a history of Jepsen, also packed by gzip or xz. A row is the number of its line and a cell for
each of COLUMNS, those that are missing as None."""

import csv
import decimal
import gzip
import io
import json
import lzma
import operator
import os
import sys

from logs.mistakes import Mistake, at_line, note, some_of

COLUMNS = ("process", "kind", "location", "read", "written", "ok", "start", "end")
NEEDED = ("process", "kind", "location")
DELIMITERS = (",", ";", "\t", "|")
WORDS_OF_DELIMITERS = {"tab": "\t", "\\t": "\t", "comma": ",", "semicolon": ";", "space": " "}
PACKED = ((b"\x1f\x8b", gzip.open), (b"\xfd7zXZ\x00", lzma.open))
JSON_ENDINGS = (".jsonl", ".ndjson", ".json")


def open_log(path):
    """The bytes of a log, unpacked if they begin as those of gzip or xz do. `-` is standard input."""
    file = sys.stdin.buffer if path == "-" else open(path, "rb")
    begin = file.peek(6)[:6]
    for magic, unpack in PACKED:
        if begin.startswith(magic):
            return unpack(file, "rb")
    return file


def form_of(path, wanted):
    """What the log is: what an option says, or else the end of its name."""
    stem = path
    while stem.endswith((".gz", ".xz")):
        stem = os.path.splitext(stem)[0]
    if wanted.edn or stem.endswith(".edn") and not wanted.json:
        return "edn"
    return "json" if wanted.json or stem.endswith(JSON_ENDINGS) else "csv"


class Reading:
    """The rows of a log, one after another, and what was seen of its columns."""

    def __init__(self, columns, form, delimiter=None, history=None):
        # The name of each column in the log; and what makes rows of a history of Jepsen's.
        self.columns, self.form, self.delimiter, self.history = columns, form, delimiter, history
        # Columns that no option uses, in the order in which they come.
        self.unused = {}
        self.has_ok = form == "edn"

    def rows_of(self, file):
        """The rows of an open file of bytes."""
        with io.TextIOWrapper(file, encoding="utf-8-sig", newline="" if self.form == "csv" else None) as text:
            yield from self.rows_of_text(text)

    def rows_of_text(self, text):
        return {"csv": self.csv_rows, "json": self.json_rows, "edn": self.history}[self.form](text)

    # ---- CSV

    def csv_rows(self, text):
        first = text.readline()
        delimiter = self.delimiter or self.delimiter_of(first)
        have = self.header(first, delimiter)
        self.look_at_header(have)
        at = {name: number for number, name in enumerate(have)}
        # Behind its cells a row gets a None, which is what a column that is not there has.
        pick = operator.itemgetter(*(at.get(name, -1) for name in self.columns.values()))
        ok = at.get(self.columns["ok"], -1)
        self.has_ok = ok >= 0
        reader, width = csv.reader(text, delimiter=delimiter, skipinitialspace=True), len(have)
        for row in reader:
            if not row:
                continue
            if len(row) < width:
                row.extend([None] * (width - len(row)))
            row.append(None)
            # A blank cell is missing; but where there is a column `ok`, that has to say yes or no.
            cells = [cell.strip() or None if cell else None for cell in pick(row)]
            if ok >= 0 and cells[5] is None and row[ok] is not None:
                cells[5] = ""
            yield (reader.line_num + 1, *cells)

    @staticmethod
    def header(first, delimiter):
        return [name.strip() for names in csv.reader([first], delimiter=delimiter, skipinitialspace=True) for name in names]

    def delimiter_of(self, first):
        """The delimiter with which the first line names the columns that each log needs; a comma if none does."""
        needed = {self.columns[column] for column in NEEDED}
        return next((delimiter for delimiter in DELIMITERS if needed <= set(self.header(first, delimiter))), ",")

    def look_at_header(self, have):
        for column, name in self.columns.items():
            # What each row needs, and what an option names: else a wrong name would only make the trace say less.
            if name not in have and (column in NEEDED or name != column):
                raise Mistake(f"line 1: there is no column {name}; --{column} says which is it of {', '.join(have)}")
        used = set(self.columns.values())
        self.unused = {name: 1 for name in have if name and name not in used}

    # ---- JSON lines

    def json_rows(self, text):
        decoder = json.JSONDecoder(parse_float=decimal.Decimal)
        unseen = {name: column for column, name in self.columns.items() if name != column}
        names, used = tuple(self.columns.values()), frozenset(self.columns.values())
        values, ok = (self.columns["read"], self.columns["written"]), self.columns["ok"]
        for number, line in enumerate(text, 1):
            line = line.strip()
            if not line:
                continue
            cells = self.json_object(number, line, decoder)
            if not used.issuperset(cells):
                self.unused.update((name, 1) for name in cells if name not in used)
            if unseen:
                unseen = {name: column for name, column in unseen.items() if name not in cells}
            if not self.has_ok and ok in cells:
                self.has_ok = True
            # A value may be null; everything else that is null is missing.
            if None in cells.values():
                cells.update((name, "null") for name in values if name in cells and cells[name] is None)
            yield (number, *map(cells.get, names))
        for name, column in unseen.items():
            raise Mistake(f"no line has {name}, which --{column} names")

    @staticmethod
    def json_object(number, line, decoder):
        try:
            # What the decoder does itself, but that it would look for blanks twice.
            cells, end = decoder.scan_once(line, 0)
            cells = cells if end == len(line) else decoder.decode(line)
        except (StopIteration, ValueError):
            cells = None
        if isinstance(cells, dict):
            return cells
        try:
            decoder.decode(line)
        except ValueError as fault:
            raise at_line(number, f"no JSON: {fault}") from None
        raise at_line(number, "not an object")

    # ---- what is said

    def tell(self, has_swaps):
        """Names the columns that no option uses. If a log has compare-and-swaps and no `ok`, one of them may be that."""
        if not self.unused:
            return
        advice = "" if self.has_ok or not has_swaps else "; if one says whether a compare-and-swap wrote, --ok names it"
        note(f"no option uses the column{'s' if len(self.unused) > 1 else ''} {some_of(self.unused)}{advice}")
