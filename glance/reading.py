"""What a bench sees of its log: settings, records and rows, piece by piece. It finds each crossing's number, orbit count and holder, and
for each request the cause of its loss, and counts as the report does. The desk has decided all of it: the counts are compared."""
import bisect
import collections

from columns import BIT, LOW, SOME, column, moved, number, places, shown
from course import NOBODY, Course
from files import RECORD, ROW
from rules import Windows
from words import CAUSES

SENT = [moved(4, k) for k in range(8)]
CALIBRATED = [moved(5, k) for k in range(8)]
READY = [shown((8, 1), pair) for pair in range(4)]
WARNED = [shown((1,), pair) for pair in range(4)]
START = 1
CODE_EVENTS_CLEARED = 7
CODE_CYCLE_OPENS = 13

# A command, before the crossing of this number.
Command = collections.namedtuple("Command", "crossing ptc command taken")


class Piece:
    """A piece of the log in columns, its commands apart, and what was found of each crossing."""

    def __init__(self, begin, records, rows):
        self.commands, records, rows = _apart(begin, records, rows)
        self.begin = begin
        self.size = len(rows) // ROW
        self.records = records
        self.asked = records[2::RECORD]
        self.markers = records[1::RECORD]
        self.rows = [rows[n::ROW] for n in range(ROW)]
        self.codes = [self.rows[k].translate(LOW) for k in range(8)]
        self.statuses = self.rows[8:]
        self.sent = self._gathered(SENT)
        self.calibrated = self._gathered(CALIBRATED)
        self.stretches = []
        self.triggers = []
        self.lost = {}

    def _gathered(self, tables):
        """A bit of each controller's byte of the rows, all eight in one column."""
        gathered = 0
        for k, table in enumerate(tables):
            gathered |= number(self.rows[k].translate(table))
        return gathered

    def showing(self, tables):
        """Which controllers show one of some statuses."""
        showing = 0
        for pair, table in enumerate(tables):
            showing |= number(self.statuses[pair].translate(table))
        return showing


def _apart(begin, records, rows):
    """The commands, and records and rows of the crossings alone."""
    kinds = records[::RECORD]
    if 1 not in kinds:
        return [], records, rows
    commands, kept_records, kept_rows, at = [], [], [], 0
    for place in places(kinds, 1):
        kept_records.append(records[RECORD * at : RECORD * place])
        kept_rows.append(rows[ROW * at : ROW * place])
        ptc, command = records[RECORD * place + 1], records[RECORD * place + 2]
        commands.append(Command(begin + place - len(commands), ptc, command, rows[ROW * place] == 0xF0))
        at = place + 1
    kept_records.append(records[RECORD * at :])
    kept_rows.append(rows[ROW * at :])
    return commands, b"".join(kept_records), b"".join(kept_rows)


class Reading:
    def __init__(self, settings):
        self.course = Course(settings)
        self.windows = Windows(settings)
        self.gap = settings["gap_low"], settings["gap_high"]
        self.at_cal = [settings[f"at{k}_cal"] for k in range(8)]
        self.open = [False] * 8
        self.counts = [collections.Counter() for _ in range(8)]
        self.asked = [0] * 8  # over the whole log
        self.started = [None] * 8  # the crossing that the last START came before
        self.odd = 0  # requests that were sent against a cause, or kept back without one

    def read(self, records, rows):
        piece, calibrations = Piece(self.course.crossings, records, rows), []
        if piece.size:
            piece.stretches = self.course.stretches(piece.markers, piece.codes[0])
            piece.triggers = list(places(column(piece.sent | piece.calibrated, piece.size).translate(SOME), 255))
            self.windows.enter(piece.begin, piece.triggers)
            holds, gap = self._by_course(piece)
            ready = piece.showing(READY)
            open_now, calibrations = self._cycles(piece, column(ready & holds, piece.size))
            self._lose(piece, ready, holds, gap, open_now)
        self._count(piece, calibrations)
        return piece

    def leave(self):
        """A piece is done with. Its windows are looked at before."""
        self.windows.leave()

    def _by_course(self, piece):
        """Who holds the slot, and which crossings lie in the gap."""
        holds, gap = bytearray(piece.size), bytearray(piece.size)
        for start, end, first, _, holder in piece.stretches:
            if holder != NOBODY:
                holds[start:end] = bytes([1 << holder]) * (end - start)
            low = max(start, start + self.gap[0] - first)
            high = min(end, start + self.gap[1] + 1 - first)
            if low < high:
                gap[low:high] = b"\xff" * (high - low)
        return number(holds), number(gap)

    def _cycles(self, piece, may):
        """Where a calibration cycle is open: from code 13 on, while its controller holds the slot and shows ready or warning, to the
        crossing at its at_cal, which asks for the trigger. `may` has the bits of controllers that hold the slot so."""
        opened, asked = bytearray(piece.size), []
        for k in range(8):
            own = may.translate(BIT[k])
            at = 0 if self.open[k] else piece.codes[k].find(CODE_CYCLE_OPENS)
            while at >= 0:
                ends = own.find(0, at)
                ends = piece.size if ends < 0 else ends
                asks = self._next_at(piece, self.at_cal[k], at, ends)
                end = ends if asks is None else asks + 1
                for place in range(at, end):
                    opened[place] |= 1 << k
                if asks is not None:
                    asked.append((k, asks, piece.calibrated >> 8 * asks + k & 1))
                self.open[k] = end == piece.size and asks is None
                at = piece.codes[k].find(CODE_CYCLE_OPENS, max(end, at + 1))
        return number(opened), asked

    @staticmethod
    def _next_at(piece, wanted, start, end):
        """The next crossing with a number, within some."""
        for stretch in piece.stretches[bisect.bisect_right(piece.stretches, (start, piece.size + 1)) - 1 :]:
            place = stretch.start + wanted - stretch.number
            if max(start, stretch.start) <= place < min(end, stretch.end):
                return place
            if stretch.start >= end:
                break
        return None

    def _lose(self, piece, ready, holds, gap, opened):
        """Each request's cause, the first that holds; the rules come last, and only they look at the windows."""
        left = number(piece.asked)
        for cause, held in (("lost_state", ready), ("lost_slot", holds)):
            piece.lost[cause] = left & held ^ left
            left &= held
        for cause, held in (("lost_gap", gap), ("lost_cal", opened)):
            piece.lost[cause] = left & held
            left ^= left & held
        free = left
        if left:
            first = self._first_rules(piece, left, holds)
            for rule in range(1, 5):
                refused = left & number(first.translate(bytes(255 * (b == rule) for b in range(256))))
                piece.lost[f"lost_r{rule}"] = refused
                free ^= refused
        self.odd += bin(free ^ piece.sent).count("1")

    def _first_rules(self, piece, left, holds):
        """The first rule that refuses: low limits where the holder warns."""
        warned = piece.showing(WARNED) & holds
        if not left & warned:
            return self.windows.refusing(piece.size, False)
        low = self.windows.refusing(piece.size, True)
        if left & warned == left:
            return low
        mask = number(column(warned, piece.size).translate(SOME))
        normal = number(self.windows.refusing(piece.size, False))
        return column(normal ^ (normal ^ number(low)) & mask, piece.size)

    def _count(self, piece, calibrations):
        """The counts since a controller's last START, and its events since its last code 7."""
        since = {c.ptc: c.crossing - piece.begin for c in piece.commands if c.taken and c.command == START}
        for k in since:
            self.started[k] = piece.begin + since[k]
            events = self.counts[k]["events"]
            self.counts[k].clear()
            self.counts[k]["events"] = events
        if not piece.size:
            return
        for k in range(8):
            self.asked[k] += piece.asked.translate(BIT[k]).count(1)
        columns = {"requested": piece.asked, "accepted": column(piece.sent, piece.size)}
        columns.update((cause, column(value, piece.size)) for cause, value in piece.lost.items() if value)
        for name, counted in columns.items():
            for k in range(8):
                self.counts[k][name] += counted[since.get(k, 0) :].translate(BIT[k]).count(1)
        for k, place, sent in calibrations:
            if place >= since.get(k, 0):
                self.counts[k].update({"cal_requested": 1, "cal_accepted": sent, "cal_lost": 1 - sent})
        both = column(piece.sent | piece.calibrated, piece.size)
        for k in range(8):
            cleared = piece.codes[k].rfind(CODE_EVENTS_CLEARED)
            if cleared >= 0:
                self.counts[k]["events"] = 0
            self.counts[k]["events"] += both[max(cleared, 0) :].translate(BIT[k]).count(1)

    def common(self):
        """The report's common lines."""
        course = self.course
        return {"crossings": course.crossings, "orbit": course.orbit, "bc_errors": course.errors, "holder": course.holder}

    def block(self, k):
        """The report's lines of a controller, but for its state, which a status does not always tell."""
        counts = self.counts[k]
        names = ["requested", "accepted", *CAUSES, "cal_requested", "cal_accepted", "cal_lost", "events"]
        lines = {name: counts[name] for name in names}
        lines["lost_throttle"] = sum(counts[f"lost_r{rule}"] for rule in range(1, 5))
        return lines
