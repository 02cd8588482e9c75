"""Number, orbit count and holder of each crossing, from the settings, the markers and code 8 of controller 0 (document 01, step 1)."""
import collections

NOBODY = 8

# Crossings `start` to `end` of a piece, the last not counted, that follow each other in one orbit: `number` is the first one's.
Stretch = collections.namedtuple("Stretch", "start end number orbit holder")


class Course:
    def __init__(self, settings):
        self.length = settings["orbit"]
        self.slots = [settings[f"slot{k}"] for k in range(8)]
        self.crossings = self.expected = self.orbit = self.errors = 0
        self.holder = next((k for k in range(8) if self.slots[k]), NOBODY)
        self.left = 10 * self.slots[self.holder] if self.holder != NOBODY else 0

    def _turn(self):
        """An orbit is over: the next controller with a slot takes over when the holder has none left."""
        if self.holder == NOBODY:
            return
        self.left -= 1
        if self.left == 0:
            self.holder = next(k % 8 for k in range(self.holder + 1, self.holder + 9) if self.slots[k % 8])
            self.left = 10 * self.slots[self.holder]

    def stretches(self, markers, clears):
        """A piece's stretches. `markers` has a 1 for each crossing with a marker, `clears` an 8 where controller 0 sends code 8: the orbit
        count is 0 after that crossing, and within it still the one that step 1 left."""
        found, at, size = [], 0, len(markers)
        marker, clear = markers.find(1), clears.find(8)
        while at < size:
            number = self.expected
            if at == marker:
                self.errors += number != 0
                number, marker = 0, markers.find(1, at + 1)
            if number == 0 and self.crossings + at > 0:
                self.orbit += 1
                self._turn()
            end = min(size, at + self.length - number)
            if at < marker < end:
                end = marker
            if at <= clear < end:
                end = clear + 1
            found.append(Stretch(at, end, number, self.orbit, self.holder))
            if clear == end - 1:
                self.orbit, clear = 0, clears.find(8, end)
            self.expected = (number + end - at) % self.length
            at = end
        self.crossings += size
        return found
