#!/usr/bin/env python3
"""Logs, rows and histories of the desk in a form that a person can write and read.

usage: benchlog.py make LOG.txt > run.rec       the records of a readable log
       benchlog.py show LOG.txt ROWS.bin        its rows, those that say something, one to a line
       benchlog.py history INPUT HISTORY.bin    the changes of an input's code, one to a line

A readable log has one word and its details to a line; `#` begins a comment.

    codes all=ready part3=error atts1=warning   from here on; gtfe, part0..part31, atts0..atts7, or a number 0..15
    cross 100                                   100 crossings with these codes
    cross 20 ask=0,1                            20 crossings, each with a request to controllers 0 and 1
    bounce part3=disconnected ask=0             one crossing in which part3 carries another code
    marker ask=0                                one crossing with the orbit marker
    START 0                                     a command to a controller: START STOP HARD RESYNC CALIBRATE PANIC
    damage 1=3 3=24                             the record before has these bytes, 0..23, at these values: as a bad disk leaves it
    cut 5                                       the record before has but its first 5 bytes: where a log breaks off
"""
import pathlib
import sys

sys.path.insert(0, str(pathlib.Path(__file__).resolve().parent.parent / "glance"))
from words import COMMANDS, SENDS, STATUS, code_words

CODES = {"disconnected": 0, "warning": 1, "sync": 2, "busy": 4, "ready": 8, "error": 12}


class Codes:
    def __init__(self, of=None):
        self.of = of or {name: 8 for name in self.names()}

    @staticmethod
    def names():
        return ["gtfe"] + [f"part{n}" for n in range(32)] + [f"atts{n}" for n in range(8)]

    def set(self, word):
        name, _, value = word.partition("=")
        code = CODES[value] if value in CODES else int(value)
        for key in self.names() if name == "all" else [name]:
            if key not in self.of or not 0 <= code <= 15:
                raise ValueError(word)
            self.of[key] = code

    def record(self, marker, requests):
        """A crossing's 24 bytes: the even input of a pair has the low nibble."""
        inputs = [self.of[name] for name in self.names()[1:]]
        pairs = [inputs[n] + 16 * inputs[n + 1] for n in range(0, 40, 2)]
        return bytes([0, marker, requests, self.of["gtfe"]] + pairs)


class Steady:
    """What each input is believed to carry: a code counts when the input carried it in two consecutive crossings."""

    def __init__(self):
        self.carried = self.believed = [0] * 41

    def news(self, record):
        """The next crossing, and in words what it changed."""
        codes = [record[3]] + [nibble for pair in record[4:] for nibble in (pair % 16, pair // 16)]
        inputs = list(zip(Codes.names(), self.carried, self.believed, codes))
        bounced = [name for name, before, old, now in inputs if before not in (old, now)]
        counts = {}
        for name, before, old, now in inputs:
            if before == now != old:
                counts.setdefault(now, []).append(name)
        self.believed = [now if before == now else old for _, before, old, now in inputs]
        self.carried = codes
        named = {code: word for word, code in CODES.items()}
        said = [f"{some(names)} counts as {named.get(code, code)}" for code, names in counts.items()]
        return said + ([f"{some(bounced)} bounced"] if bounced else [])


def some(names):
    return ", ".join(names) if len(names) < 5 else "every input" if len(names) == 41 else f"{names[0]} with {len(names) - 1} others"


def requests_of(words):
    bits = 0
    for word in words:
        if not word.startswith("ask="):
            raise ValueError(word)
        for k in word[4:].split(","):
            bits |= 1 << int(k)
    return bits


def damaged(record, words):
    spoilt = bytearray(record)
    for word in words:
        place, value = word.split("=")
        spoilt[int(place)] = int(value)
    return bytes(spoilt)


def records_of(lines):
    """Each record of a readable log."""
    codes, records = Codes(), []
    for number, line in enumerate(lines, 1):
        words = line.split("#")[0].split()
        if not words:
            continue
        try:
            if words[0] == "codes":
                for word in words[1:]:
                    codes.set(word)
            elif words[0] == "cross":
                records += [codes.record(0, requests_of(words[2:]))] * int(words[1])
            elif words[0] == "bounce":
                other = Codes(dict(codes.of))
                for word in words[1:]:
                    if not word.startswith("ask="):
                        other.set(word)
                records.append(other.record(0, requests_of([word for word in words if word.startswith("ask=")])))
            elif words[0] == "marker":
                records.append(codes.record(1, requests_of(words[1:])))
            elif words[0] == "damage":
                records[-1] = damaged(records[-1], words[1:])
            elif words[0] == "cut":
                records[-1] = records[-1][: int(words[1])]
            else:
                records.append(bytes([1, int(words[1]), COMMANDS.index(words[0]) + 1] + [0] * 21))
        except (ValueError, KeyError, IndexError):
            sys.exit(f"benchlog: line {number}: {line.strip()}")
    return records


def row_words(row):
    """What each controller sent, and the statuses."""
    said = []
    for k in range(8):
        parts = [SENDS[row[k] % 16]] if row[k] % 16 else []
        parts += ["trigger"] if row[k] & 16 else []
        parts += ["calibration trigger"] if row[k] & 32 else []
        said += [f"{k} sends {' and '.join(parts)}"] if parts else []
    shown = [row[8 + k // 2] >> 4 * (k % 2) & 15 for k in range(8)]
    return said, shown


def show(records, rows):
    if rows[:1] == b"r":
        sys.exit(rows.decode().strip())
    crossing, before, steady = 0, None, Steady()
    for n, record in enumerate(records):
        row = rows[12 * n : 12 * n + 12]
        if record[0] == 1:
            taken = "taken" if row[0] == 0xF0 else "not taken"
            print(f"before {crossing}: {COMMANDS[record[2] - 1]} to {record[1]} {taken}")
            continue
        said, shown = row_words(row)
        said += steady.news(record)
        # Codes BC0 and GAP come in every orbit and from all eight: only what is rarer is worth a line.
        said = [s for s in said if "sends BC0" != s[2:] and "sends GAP" != s[2:]]
        for k in range(8):
            if before is None or before[k] != shown[k]:
                if before is not None or shown[k] != 10:
                    said.append(f"{k} shows {STATUS[shown[k]]}")
        if said:
            print(f"crossing {crossing}: {'; '.join(said)}")
        crossing, before = crossing + 1, shown


def history(source, changes):
    """A refusal is handed on as it is. No history begins like one: its seventh byte is a code, which is below 16."""
    if changes[:8] == b"refused=":
        say(changes.decode())
        sys.exit(1)
    if len(changes) % 7:
        sys.exit("benchlog: the history ends within a change")
    lines = ""
    for n in range(0, len(changes), 7):
        orbit, number, code = (int.from_bytes(changes[n + a : n + b], "little") for a, b in [(0, 4), (4, 6), (6, 7)])
        lines += f"orbit {orbit} crossing {number}: {code_words(code, int(source))}\n"
    say(lines)


def say(text):
    """Prints; what keeps it from that is told as the desk's programs tell it."""
    try:
        with open(1, "w", encoding="utf-8", closefd=False) as out:
            out.write(text)
    except OSError as error:
        sys.exit(f"standard output: {error.strerror}")


def main():
    if len(sys.argv) == 3 and sys.argv[1] == "make":
        with open(sys.argv[2], encoding="utf-8") as log:
            sys.stdout.buffer.write(b"".join(records_of(log)))
    elif len(sys.argv) == 4 and sys.argv[1] == "show":
        with open(sys.argv[2], encoding="utf-8") as log, open(sys.argv[3], "rb") as rows:
            show(records_of(log), rows.read())
    elif len(sys.argv) == 4 and sys.argv[1] == "history":
        with open(sys.argv[3], "rb") as changes:
            history(sys.argv[2], changes.read())
    else:
        sys.exit(__doc__)


if __name__ == "__main__":
    main()
