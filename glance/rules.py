"""The four rules over the triggers of all controllers (document 01, "Throttle"): which of them refuses first, crossing by crossing, and how
full each rule's window is. Told from the rows alone."""
import bisect
import collections

Rule = collections.namedtuple("Rule", "name period normal low")

# No limit is above 511, so a window is decided by this many triggers before.
KEPT = 512


def rules_of(settings):
    """Rule 1 reads as period r1_gap + 1 with both limits 1."""
    return [Rule(1, settings["r1_gap"] + 1, 1, 1)] + [
        Rule(n, settings[f"r{n}_period"], settings[f"r{n}_norm"], settings[f"r{n}_low"]) for n in (2, 3, 4)
    ]


class Windows:
    def __init__(self, settings):
        self.rules = rules_of(settings)
        self.past = []  # the crossings of the last triggers before the piece
        self.triggers = []  # those of the piece too
        self.begin = 0

    def enter(self, begin, triggers):
        """The piece that begins with a crossing and has its triggers in these places."""
        self.begin = begin
        self.triggers = self.past + [begin + at for at in triggers]

    def leave(self):
        self.past = self.triggers[-KEPT:]

    def refusing(self, size, warned):
        """The first rule that refuses in each crossing of the piece, or 0, by normal or by low limits. A trigger and the limit - 1 before
        it refuse every crossing after it within the period that the earliest of them begins. What earlier triggers refuse after it, it
        refuses too, so it is enough to write over, the first rule last."""
        limits = [(rule.name, rule.period, rule.low if warned else rule.normal) for rule in self.rules]
        closed = next((name for name, _, limit in limits if limit == 0), 0)
        open_rules = [rule for rule in reversed(limits) if not closed or rule[0] < closed]
        first = bytearray([closed]) * size
        filling = {name: bytes([name]) * size for name, _, _ in open_rules}
        for i in range(max(0, len(self.past) - 1), len(self.triggers)):
            start = max(0, self.triggers[i] + 1 - self.begin)
            for name, period, limit in open_rules:
                if i + 1 < limit:
                    continue
                end = min(size, self.triggers[i + 1 - limit] + period - self.begin)
                if start < end:
                    first[start:end] = filling[name][: end - start]
        return bytes(first)

    def fill(self, rule, crossing):
        """How many triggers lie in the rule's last period of crossings, this one among them."""
        return bisect.bisect_right(self.triggers, crossing) - bisect.bisect_right(self.triggers, crossing - rule.period)
