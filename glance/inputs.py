"""What each of the 41 inputs is believed to carry (document 02, P1): a code counts in the second of two consecutive crossings that carry
it, and stands until another does. Inputs 0 to 31 are the partitions, 32 to 39 the aTTS, 40 is the GTFE, as in a history."""
from columns import LOW
from files import RECORD

HIGH = bytes(b >> 4 for b in range(256))
TWICE = [bytes([code, code]) for code in range(16)]
GTFE = 40


def carried(records, source):
    """The column of an input's codes."""
    if source == GTFE:
        return records[3::RECORD]
    return records[4 + source // 2 :: RECORD].translate(HIGH if source % 2 else LOW)


class Inputs:
    def __init__(self):
        self.last = [0] * (GTFE + 1)
        self.believed = [0] * (GTFE + 1)

    def follow(self, source, codes, cuts):
        """For each part of a piece the set of codes that an input is believed to carry in it."""
        last = self.last[source]
        self.last[source] = codes[-1]
        if codes == bytes([last]) * len(codes):
            self.believed[source] = last
            return [1 << last] * len(cuts)
        led = bytes([last]) + codes
        return [self._part(source, led[start : end + 1]) for _, start, end in cuts]

    def _part(self, source, codes):
        """The same for one part, led by the crossing before it: a code is believed from where it stands twice."""
        found = {code: codes.rfind(TWICE[code]) for code in set(codes)}
        sets = sum(1 << code for code, at in found.items() if at >= 0)
        if codes[0] != codes[1]:
            sets |= 1 << self.believed[source]
        newest = max(found, key=found.get)
        if found[newest] >= 0:
            self.believed[source] = newest
        return sets
