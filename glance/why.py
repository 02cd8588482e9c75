"""Why a bench is refused, in a sentence. usage: why.py DIR

The program desk_why gives the answer's number, what it carries and, of the log, the block. The words stand here, with the line or the
record itself out of the file.
"""
import pathlib
import sys

from files import CHANGED, RECORD, Stopped, open_log, printed, run
from lines import EDITIONS, dates, edition_of
from words import listed, some

BLOCK = 64
TEXT_READ = 1 << 16  # the desk needs 4,096 bytes to decide; a line in them may go on for longer


class Why:
    def __init__(self, folder):
        self.folder = folder
        told = [line.split("=") for line in printed("desk_why", folder).decode().split()]
        self.number = int(told[0][1])
        self.carries = [int(value) for key, value in told if key == "carries"]
        self.block = next((int(value) for key, value in told if key == "block"), None)

    def sentence(self):
        """What is refused; empty where nothing is."""
        tell = [None, self._text, self._range, self._relation, self._board, self._length, self._room, self._record, self._life, self._store]
        return tell[self.number]() if self.number else ""

    # ---- board.set

    def _settings(self):
        try:
            with open(pathlib.Path(self.folder) / "board.set", "rb") as file:
                return file.read(TEXT_READ)
        except OSError:
            return b""

    def _text(self):
        text, line = self._settings(), self.carries[0]
        lines = text.split(b"\n")
        found = lines[line - 1] if line <= len(lines) else b""
        return f"board.set, line {line}: {_ill(edition_of(text), line, found, ends=line < len(lines), empty=not text)}"

    def _range(self):
        text, line = self._settings(), self.carries[0]
        _, low, high = EDITIONS[edition_of(text)][line - 1]
        return f"board.set, line {line}: {text.splitlines()[line - 1].decode()} is outside {low}..{high}"

    def _relation(self):
        text, (relation, controller) = self._settings(), self.carries
        edition = edition_of(text)
        keys = [key for key, _, _ in EDITIONS[edition]]
        values = dict(zip(keys, (int(line.partition(b"=")[2]) for line in text.split(b"\n")[: len(keys)])))
        told = RELATIONS[relation](values, dates(controller, edition))
        where = sorted(keys.index(key) + 1 for key in told[1])
        return f"board.set, {'line' if len(where) == 1 else 'lines'} {listed(where)}: {told[0]}"

    # ---- run.rec

    def _place(self, index):
        """A record by its number in the log, and in its block."""
        return f"run.rec, record {BLOCK * self.block + index} (block {self.block}, record {index})"

    def _length(self):
        with open_log(self.folder) as log:
            size = log.seek(0, 2)
        left, whole = size % RECORD, size // RECORD
        return f"{self._place(whole - BLOCK * self.block)}: the log ends after {some(left, 'byte')} of it, a record has {RECORD}"

    def _record(self):
        place = BLOCK * self.block + self.carries[0]
        with open_log(self.folder) as log:
            log.seek(RECORD * place)
            record = log.read(RECORD)
        if len(record) < RECORD:
            raise Stopped(CHANGED)
        return f"{self._place(self.carries[0])}: {'; '.join(ill_formed(record))}\n    {record.hex(' ')}"

    def _life(self):
        return f"run.rec, block {self.block}: with it the board would have done more than 2^40 - 1 crossings"

    # No file can lead to these three: the programs' boards are sound and their buffers long enough, and desk_why has no store.

    def _board(self):
        return "the board is not sound"

    def _room(self):
        return f"a buffer is too short: {some(self.carries[0], 'byte')} are needed"

    def _store(self):
        return "the words of the history store are no groups"


def _quoted(line):
    """A line as it stands, bytes that do not print in the form \\x0d, and not more of it than a reader wants."""
    text = "".join(chr(b) if 32 <= b < 127 else f"\\x{b:02x}" for b in line[:60])
    return f'"{text}{"..." if len(line) > 60 else ""}"'


def _ill(edition, line, found, ends, empty):
    """Why a line is not the expected key, `=`, number and newline."""
    if empty:
        return "the text is empty, or there is none"
    if edition is None:
        known = " or ".join(f"edition={n}" for n in sorted(EDITIONS, reverse=True) if n > 1)
        return f"{_quoted(found)} opens no known edition: that is {known}, or orbit= for the first"
    table = EDITIONS[edition]
    if line > len(table):
        return f"the text goes on after its last line, {table[-1][0]}: {_quoted(found)}"
    key = table[line - 1][0]
    if not found and not ends:
        return f"the text ends where {key}= is expected"
    if not found.startswith(key.encode() + b"="):
        return f"{key}= is expected, and the line is {_quoted(found)}"
    value = found[len(key) + 1 :]
    return f"{_quoted(found)}: {_ill_number(value, ends)}"


def _ill_number(value, ends):
    if value.endswith(b"\r"):
        return "a carriage return stands before the newline, as files from Windows have it"
    if not value:
        return "there is no number"
    if not value.isdigit():
        return "a number has digits alone"
    if len(value) > 1 and value.startswith(b"0"):
        return "a number has no leading zero"
    if len(value) > 5:
        return "a number has at most five digits"
    return "a newline is missing at its end" if not ends else "the line is not as it should be"


# Each relation in words, and the keys of the lines that break it.


def _gap(values, _):
    low, high, orbit = (values[key] for key in ("gap_low", "gap_high", "orbit"))
    if low > high:
        return f"gap_low={low} is above gap_high={high}", ["gap_low", "gap_high"]
    return f"gap_high={high} is not below orbit={orbit}", ["gap_high", "orbit"]


def _below(values, keys):
    above = [key for key in keys if values[key] >= values["orbit"]]
    named = listed([f"{key}={values[key]}" for key in above])
    return f"{named} {'is' if len(above) == 1 else 'are'} not below orbit={values['orbit']}", above


def _distinct(values, keys):
    number = next(values[key] for n, key in enumerate(keys) if values[key] in [values[other] for other in keys[:n]])
    same = [key for key in keys if values[key] == number]
    return f"{listed(same)} are all {number}" if len(same) > 2 else f"{listed(same)} are both {number}", same


def _ordered(values, keys):
    wte, te, cal = (next(key for key in keys if key.endswith(f"_{date}")) for date in ("wte", "te", "cal"))
    first, second = (wte, te) if values[wte] >= values[te] else (te, cal)
    return f"{first}={values[first]} is not below {second}={values[second]}", [first, second]


def _limits(values, _):
    rule = next(rule for rule in (2, 3, 4) if values[f"r{rule}_low"] > values[f"r{rule}_norm"])
    low, normal = f"r{rule}_low", f"r{rule}_norm"
    return f"{low}={values[low]} is above {normal}={values[normal]}", [low, normal]


RELATIONS = {1: _gap, 2: _below, 3: _distinct, 4: _ordered, 5: _limits}


def ill_formed(record):
    """What is wrong with a record, byte by byte."""
    kind = record[0]
    if kind > 1:
        return [f"byte 0 is {kind}, a record is 0 (a crossing) or 1 (a command)"]
    if kind == 0:
        faults = [(1, record[1] > 1, "an orbit marker is 0 or 1"), (3, record[3] > 15, "a GTFE code is 0..15")]
    else:
        faults = [(1, record[1] > 7, "a controller is 0..7"), (2, not 1 <= record[2] <= 6, "a command is 1..6")]
        faults += [(n, record[n] > 0, "the bytes of a command after its third are 0") for n in range(3, RECORD)]
    return [f"byte {n} is {record[n]}, {rule}" for n, is_wrong, rule in faults if is_wrong]


def main():
    sentence = Why(sys.argv[1]).sentence()
    sys.stdout.write(sentence + "\n" if sentence else "nothing is refused\n")
    return 1 if sentence else 0


if __name__ == "__main__":
    run(main)
