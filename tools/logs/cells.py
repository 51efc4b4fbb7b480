"""What the cells of a log mean: numbers, values, times, and which spellings are one."""

import collections
import datetime
import decimal
import json
import re

from logs.mistakes import at_line

WHOLE = re.compile(r"[+-]?\d{1,1000}")
HEXADECIMAL = re.compile(r"[+-]?0[xX][0-9a-fA-F]{1,1000}")
# A fraction has a point; without one, `1e3` may as well be the beginning of a hash.
FRACTION = re.compile(r"[+-]?\d{1,1000}(\.\d{0,1000}([eE][+-]?\d{1,3})?|[eE][+-]\d{1,3})")
NOTHING = ("null", "nil", "none")
YES = ("1", "t", "true", "y", "yes", "ok")
NO = ("0", "f", "false", "n", "no", "fail", "failed")


def number_of(text):
    """The number that a text writes, whole ones as `int`, or None."""
    # Longer ones stay texts: Python refuses to read thousands of digits.
    if WHOLE.fullmatch(text):
        return int(text)
    if HEXADECIMAL.fullmatch(text):
        return int(text, 16)
    if FRACTION.fullmatch(text):
        number = decimal.Decimal(text)
        return int(number) if number == number.to_integral_value() else number.normalize()
    return None


def key_of(text):
    """What makes two texts the same: their number, or else the text."""
    number = number_of(text)
    return text if number is None else number if isinstance(number, int) else str(number)


def value_key(cell):
    """What makes two cells the same value."""
    # Most of the values of a large log are new, and digits alone.
    if type(cell) is str and cell.isdecimal() and len(cell) <= 1000:
        return int(cell)
    if cell is None or isinstance(cell, str) and cell.strip().lower() in NOTHING:
        return "null"
    if isinstance(cell, (bool, list, dict)):
        return json.dumps(cell, sort_keys=True, default=str)
    return key_of(str(cell).strip())


class Spellings(dict):
    """What stands for each text of a column, which is looked up as in any other dictionary; and the texts that mean the same number."""

    def __init__(self, what, make):
        super().__init__()
        self.what, self.make = what, make
        # Texts of a number that are not the plainest one.
        self.unusual = []

    def __missing__(self, text):
        key = self[text] = self.make(text)
        if text != str(key) and number_of(text) is not None:
            self.unusual.append(text)
        return key

    def several(self):
        """The spellings of each number that has several. Capital letters of a hexadecimal number make none."""
        found = collections.OrderedDict()
        for text in self.unusual:
            key = self[text]
            spelled = found.setdefault(key, [str(key)] if str(key) in self else [])
            if text.lower() not in spelled:
                spelled.append(text.lower())
        return [spelled for spelled in found.values() if len(spelled) > 1]

    def told(self):
        """What is said of such spellings, in one line, or nothing."""
        several = self.several()
        if not several:
            return []
        more = f"; so are spellings of {len(several) - 1} more" if len(several) > 1 else ""
        return [f"{' and '.join(several[0])} are taken for one {self.what}{more}"]


class Places:
    """Names of locations or processes: the first spelling of a number stands for all of them."""

    def __init__(self):
        self.of_number = {}

    def __call__(self, text):
        number = number_of(text)
        return text if number is None else self.of_number.setdefault(number, text.lower())


def time_of(line, column, cell):
    """A number, or a date and time by ISO 8601, as a number; None if the cell is missing."""
    if cell is None:
        return None
    if type(cell) is int:
        return cell
    text = str(cell).strip()
    if text == "":
        return None
    try:
        number = decimal.Decimal(text)
    except decimal.InvalidOperation:
        number = None
    # What is no number, `nan`, compares with none.
    return number if number is not None and not number.is_nan() else seconds_of(line, column, text)


def seconds_of(line, column, text):
    try:
        moment = datetime.datetime.fromisoformat(text[:-1] + "+00:00" if text[-1] in "zZ" else text)
    except ValueError:
        raise at_line(line, f"{column} is {text}, which is neither a number nor a date with a time") from None
    moment = moment if moment.tzinfo else moment.replace(tzinfo=datetime.timezone.utc)
    passed = moment - datetime.datetime(1970, 1, 1, tzinfo=datetime.timezone.utc)
    return decimal.Decimal(passed // datetime.timedelta(microseconds=1)) / 1000000


def is_yes(line, said):
    """Whether the cell `ok` says that a compare-and-swap wrote. A word that is not known is not taken for either."""
    word = str(said).strip().lower()
    if word not in YES + NO:
        raise at_line(line, f"ok is `{word}`, which is none of {', '.join(YES + NO)}")
    return word in YES
