"""One group's triggers, a line each, as the log goes. usage: triggers.py K DIR [--csv]

The orbit count is the one that the crossing begins with, as in a history: where controller 0 sends OC0, those after it count from 0.
"""
import sys

from columns import SOME, places
from course import Course
from files import pieces, run, settings
from reading import Piece

COLUMNS = ["crossing", "orbit", "number", "kind"]
KINDS = {16: "request", 32: "calibration"}


def found(course, k, records, rows):
    """A piece's triggers of a controller."""
    piece = Piece(course.crossings, records, rows)
    stretches = iter(course.stretches(piece.markers, piece.codes[0]))
    stretch = None
    own = piece.rows[k].translate(bytes(b & 48 for b in range(256)))
    for place in places(own.translate(SOME), 255):
        while stretch is None or stretch.end <= place:
            stretch = next(stretches)
        yield piece.begin + place, stretch.orbit, stretch.number + place - stretch.start, KINDS[own[place]]


def main():
    k, folder, as_csv = int(sys.argv[1]), sys.argv[2], sys.argv[3:] == ["--csv"]
    line = "{},{},{},{}\n" if as_csv else "{:>13} {:>13} {:>6}  {}\n"
    course = Course(settings(folder))
    log = pieces(folder)
    piece = next(log, None)  # a refusal comes before the header
    sys.stdout.write(line.format(*COLUMNS))
    while piece:
        sys.stdout.write("".join(line.format(*trigger) for trigger in found(course, k, *piece)))
        piece = next(log, None)
    return 0


if __name__ == "__main__":
    run(main)
