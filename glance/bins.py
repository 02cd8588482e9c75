"""Bins: what the page draws, of the whole log or of a part, in a fixed number of bins however long that is. A bin sums what is counted,
keeps the greatest fill, and gathers what was there at all: one trigger in a million crossings stays one trigger."""
from columns import BIT, column
from inputs import GTFE, Inputs, carried
from words import CAUSES, STATUS

MOST = 8192  # bins
PLACES = list(STATUS)  # a set of statuses has the bits of these
ALONE = [1 << PLACES.index(code) if code in STATUS else 0 for code in range(16)]
PAIRS = [(ALONE[b % 16], ALONE[b // 16]) for b in range(256)]


class Lane:
    """One controller's bins. A set has a bit for each of its values."""

    def __init__(self, count):
        self.status = [0] * count
        self.codes = [0] * count
        self.sent = [0] * count
        self.calibrated = [0] * count
        self.first = [0] * count  # the first trigger's crossing
        self.lost = {cause: [0] * count for cause in CAUSES}
        self.commands = {}  # by bin and by what it was: how many, and before which crossing the first


class Bins:
    def __init__(self, crossings, shown, rules):
        """`crossings` is the range of those that are drawn."""
        self.crossings = crossings
        self.width = max(1, -(-len(crossings) // MOST))
        self.count = -(-len(crossings) // self.width)
        self.shown = shown
        self.rules = rules
        self.lanes = {k: Lane(self.count) for k in shown}
        self.holders = [0] * self.count
        self.numbers = [0] * self.count  # of a bin's first crossing
        self.orbits = [0] * self.count
        self.fills = [[0] * self.count for _ in rules]
        self.inputs = Inputs()
        self.believed = [[0] * self.count for _ in range(GTFE + 1)]

    def add(self, piece, windows):
        for command in piece.commands:
            self._add_command(command)
        if not piece.size:
            return
        low, high = (min(piece.size, max(0, end - piece.begin)) for end in (self.crossings.start, self.crossings.stop))
        cuts = list(self._cuts(piece, low, high))
        self._add_inputs(piece, cuts, low, high)
        if not cuts:
            return
        self._add_course(piece, low, high)
        for k in self.shown:
            self._add_sets(self.lanes[k], k, piece, cuts)
        for cause, value in piece.lost.items():
            if value:
                self._add_losses(cause, column(value, piece.size), cuts)
        triggers = [place for place in piece.triggers if low <= place < high]
        self._add_triggers(piece, triggers)
        self._add_fills(piece, triggers, windows, cuts)

    def _index(self, crossing):
        return (crossing - self.crossings.start) // self.width

    def _begin(self, index):
        return self.crossings.start + index * self.width

    def _cuts(self, piece, low, high):
        """Each bin that the piece has a part of, and that part."""
        while low < high:
            index = self._index(piece.begin + low)
            end = min(high, self._begin(index + 1) - piece.begin)
            yield index, low, end
            low = end

    def _add_command(self, command):
        """One that comes after the last crossing stands in the last bin."""
        if command.ptc in self.lanes and self.count and self.crossings.start <= command.crossing <= self.crossings.stop:
            index = min(self._index(command.crossing), self.count - 1)
            kinds = self.lanes[command.ptc].commands.setdefault(index, {})
            kind = kinds.setdefault((command.command, int(command.taken)), [0, command.crossing])
            kind[0] += 1

    def _add_course(self, piece, low, high):
        for start, end, number, orbit, holder in piece.stretches:
            if end <= low or high <= start:
                continue
            first = piece.begin + max(start, low)
            for index in range(self._index(first), self._index(piece.begin + min(end, high) - 1) + 1):
                self.holders[index] |= 1 << holder
                if self._begin(index) >= first:
                    self.numbers[index] = number + self._begin(index) - piece.begin - start
                    self.orbits[index] = orbit

    def _add_sets(self, lane, k, piece, cuts):
        statuses, codes, half = piece.statuses[k // 2], piece.codes[k], k % 2
        for index, start, end in cuts:
            for pair in set(statuses[start:end]):
                lane.status[index] |= PAIRS[pair][half]
            for code in set(codes[start:end]):
                lane.codes[index] |= 1 << code

    def _add_losses(self, cause, lost, cuts):
        for k in self.shown:
            own = lost.translate(BIT[k])
            if 1 not in own:
                continue
            counts = self.lanes[k].lost[cause]
            for index, start, end in cuts:
                counts[index] += own.count(1, start, end)

    def _add_triggers(self, piece, triggers):
        sent, calibrated = column(piece.sent, piece.size), column(piece.calibrated, piece.size)
        for place in triggers:
            index = self._index(piece.begin + place)
            ptc = (sent[place] | calibrated[place]).bit_length() - 1
            lane = self.lanes[ptc]
            if not lane.sent[index] and not lane.calibrated[index]:
                lane.first[index] = piece.begin + place
            lane.sent[index] += sent[place] > 0
            lane.calibrated[index] += calibrated[place] > 0

    def _add_fills(self, piece, triggers, windows, cuts):
        """A fill is greatest at a trigger, or where the bin begins."""
        places = [piece.begin + start for _, start, _ in cuts] + [piece.begin + place for place in triggers]
        for rule, fills in zip(self.rules, self.fills):
            for crossing in places:
                index = self._index(crossing)
                fill = windows.fill(rule, crossing)
                if fill > fills[index]:
                    fills[index] = fill

    def _add_inputs(self, piece, cuts, low, high):
        """What is not drawn of the piece is followed too: a code is believed until another is."""
        parts = [(None, 0, low)] * (low > 0) + cuts + [(None, high, piece.size)] * (high < piece.size)
        for source, sets in enumerate(self.believed):
            for (index, _, _), codes in zip(parts, self.inputs.follow(source, carried(piece.records, source), parts)):
                if index is not None:
                    sets[index] |= codes
