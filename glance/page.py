"""The bench on one page. usage: page.py DIR [FROM TO] > bench.html, with the crossings FROM to TO drawn, and else all

One file without a network: the sentences and the table are plain HTML, the drawing is made by the scripts in page/ from the bins.
"""
import html
import json
import pathlib
import string
import sys
import time

import summary
from bins import PLACES, Bins
from files import CHANGED, Refused, Stopped, pieces, report, run, settings
from reading import Reading
from why import Why
from words import CAUSES, COMMANDS, INPUTS, SENDS, STATUS, code_words

PAGE = pathlib.Path(__file__).resolve().parent / "page"
SCRIPTS = ["data.js", "view.js", "drawing.js", "telling.js", "lanes.js", "hands.js"]


def text_of(name):
    return (PAGE / name).read_text(encoding="utf-8")


def part(name, **values):
    return string.Template(text_of(name)).substitute(values)


def laid_out(title, said, check, body):
    return part("page.html", title=html.escape(title), summary=said, check=check, body=body, style=text_of("page.css"))


class Progress:
    """How far a long log is read, at each tenth, on standard error."""

    def __init__(self, crossings):
        self.crossings, self.shown, self.begun = crossings, 0, time.monotonic()

    def at(self, done):
        tenth = 10 * done // max(1, self.crossings)
        if tenth > self.shown and time.monotonic() - self.begun > 1:
            sys.stderr.write(f"run: page: {10 * tenth}% of {self.crossings:,} crossings\n")
            self.shown = tenth


def packed(values):
    """A list as it is, or as runs, a value and how often it comes, where that is shorter."""
    runs = []
    for value in values:
        if runs and runs[-2] == value:
            runs[-1] += 1
        else:
            runs += [value, 1]
    return {"runs": runs} if len(runs) < len(values) else values


def lane_data(k, lane):
    commands = [[index, [[*kind, *found] for kind, found in kinds.items()]] for index, kinds in sorted(lane.commands.items())]
    lists = {name: packed(getattr(lane, name)) for name in ("status", "codes", "sent", "calibrated", "first")}
    return {"ptc": k, "commands": commands, "lost": [packed(lane.lost[cause]) for cause in CAUSES], **lists}


def inputs_data(bins, settings):
    """Each input: its name, the controller that it is a member of, or None for all, its codes' names, and the sets of codes believed."""
    owners = [settings[f"part{n}"] for n in range(32)] + [*range(8), None]
    return [
        {"name": name, "owner": owners[n], "codes": [code_words(code, n) for code in range(16)], "believed": packed(bins.believed[n])}
        for n, name in enumerate(INPUTS)
    ]


def data_of(bins, settings):
    return {
        "from": bins.crossings.start,
        "to": bins.crossings.stop,
        "width": bins.width,
        "bins": bins.count,
        "statuses": [STATUS[code] for code in PLACES],
        "causes": [{"key": cause, "words": words} for cause, words in CAUSES.items()],
        "codes": SENDS,
        "commands": COMMANDS,
        "holders": packed(bins.holders),
        "numbers": packed(bins.numbers),
        "orbits": packed(bins.orbits),
        "rules": [dict(rule._asdict(), fills=packed(fills)) for rule, fills in zip(bins.rules, bins.fills)],
        "inputs": inputs_data(bins, settings),
        "groups": [lane_data(k, lane) for k, lane in bins.lanes.items()],
    }


def scripts():
    return "\n".join(f"<script>\n{text_of(name)}</script>" for name in SCRIPTS)


def bench_page(folder, title, drawn=slice(None)):
    values, (common, blocks) = settings(folder), report(folder)
    reading = Reading(values)
    bins = Bins(range(common["crossings"])[drawn], list(blocks), reading.windows.rules)
    progress = Progress(common["crossings"])
    for records, rows in pieces(folder):
        piece = reading.read(records, rows)
        if reading.course.crossings > common["crossings"]:
            raise Stopped(CHANGED)
        bins.add(piece, reading.windows)
        reading.leave()
        progress.at(reading.course.crossings)
    body = part(
        "bench.html",
        sentences=summary.sentences(reading, blocks),
        table=summary.table(blocks),
        legend=summary.legends(),
        data=json.dumps(data_of(bins, values), separators=(",", ":")).replace("<", "\\u003c"),
        scripts=scripts(),
    )
    return laid_out(title, summary.headline(common, values, blocks, bins), summary.check(reading, common, blocks), body)


def refusal_page(folder, title, refusal):
    """A log that is refused the one time and not the other has changed in between: then the refusal is all that is known."""
    told = Why(folder).sentence() or refusal.strip()
    body = f'<section><p class="refusal">{html.escape(told)}</p></section>'
    return laid_out(title, "This bench is refused, so there are no rows to show.", "", body)


def main():
    folder, part_drawn = sys.argv[1], sys.argv[2:]
    drawn = slice(int(part_drawn[0]), int(part_drawn[1]) + 1) if part_drawn else slice(None)
    title = f"Bench {pathlib.Path(folder).resolve().name}"
    try:
        page, status = bench_page(folder, title, drawn), 0
    except Refused as refusal:
        page, status = refusal_page(folder, title, str(refusal)), 1
    sys.stdout.reconfigure(encoding="utf-8")
    sys.stdout.write(page)
    return status


if __name__ == "__main__":
    run(main)
