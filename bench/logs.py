"""The bench's logs, one table: LOGS. What each of them is for:

    holder asks        the throttle at every crossing, and nothing else: one group, codes that stay
    all ask            the same, with seven requests more to count as lost at every crossing
    codes change       codes that bounce: other ones at nearly every crossing, and a merge at three in ten
    quiet              nothing but the way through the log
    a working day      a bit of everything, as a bench has it: two groups, markers, codes that now and then change, calibrations
    eight ask          as `all ask`, but each of eight groups by chance, and with hand-overs
    loose rules        as `all ask`, but the rules let one crossing in three have a trigger
    codes flip         a merge at nine crossings in ten, after which mostly one or two of eight groups move and several ask
    anything goes      any code, a merge at two crossings in three, 2 % commands, 1 % markers: no shortcut lasts for long
    orbit of 64        a number that some controller acts at every six crossings: shortcuts up to the next one are short
    all wait           eight controllers that wait for the whole log, up to 2,700,000 crossings
    codes in pairs     a merge at every second crossing: the codes of `codes change`, each carried twice, so that all are believed
    a code bounces     as `holder asks`, with one input that carries a code in no two crossings in a row: it stays believed ready
    eight schedules    as `eight ask`, but each controller goes by its own schedule: some controller acts at every fortieth number
    stopped by warning as `holder asks`, but under warning, with text whose `warn_blocks` is 1: every request is lost to the throttle
    rule 4 refuses     as `holder asks`, but rule 4 allows one trigger in 2,047 crossings: all four rules are counted, and the last refuses
    an input alternates as `holder asks`, with one input that changes its code at every second crossing: `desk_history` has most to keep

A code counts when two crossings in a row carry it (P1), so `codes change`, `codes flip` and `anything goes`, which are older and
had a merge at every crossing, have fewer. They stay as they were: what P1 does to the speed shows in them.

Only `eight schedules` has settings that need edition 2 (P2). The others are written in edition 1, which a desk from before P2 reads
too: what P2, P3 and P5 do to the speed shows in them.

A log is START for each group, three quiet orbits, in which the controllers become ready, and then ten orbits of records, which
are repeated, since chance is slow to make. So many are not learned by the processor that README.md names: with fifty orbits the
figures were the same.
"""
import random
import re
from dataclasses import dataclass
from pathlib import Path
from typing import Callable

ORBIT = 3564  # of the standard settings
WARMING, BODY = 3 * ORBIT, 10 * (ORBIT + 1)  # ten orbits, each with room for a command
START, HARD, CALIBRATE = 1, 3, 5
READY = bytes([0x88]) * 20

TWO = {"slot0": 2, "slot1": 1} | {f"part{n}": n % 2 for n in range(32)}
EIGHT = {f"slot{k}": 1 for k in range(8)} | {f"part{n}": n % 8 for n in range(32)}
LOOSE = {"r2_norm": 15, "r2_low": 15, "r3_norm": 63, "r3_low": 63, "r4_norm": 511, "r4_low": 511}
SHORT = {"orbit": 64, "gap_low": 60, "gap_high": 63, "at_gap": 60, "at_bc0": 0, "at_resync": 6, "at_hard": 12, "at_ec0": 18}
SHORT |= {"at_oc0": 24, "at_start": 30, "at_stop": 36, "at_wte": 42, "at_te": 48, "at_cal": 54}
LONG_WAITS = {"settle_resync": 255, "settle_hard": 255, "recover_hard": 255}
# The eleven in the order that the standard schedule has them in, each at eight numbers, one for each controller: every fortieth
# number up to 3480.
DATES = ("bc0", "resync", "hard", "ec0", "oc0", "start", "stop", "wte", "te", "gap", "cal")
OWN = {f"at{k}_{date}": 40 * (8 * n + k) for n, date in enumerate(DATES) for k in range(8)}


def crossing(requests=0, codes=READY, marker=False, gtfe=8):
    return bytes([0, marker, requests, gtfe]) + codes


def command(k, number):
    return bytes([1, k, number]) + bytes(21)


def asked_by_chance(chance, _):
    return crossing(chance.randrange(256))


def changing(chance, _):
    """Nine bytes of codes in ten are ready, the others have a warning."""
    return crossing(1, bytes(chance.choices((0x88, 0x81), (9, 1), k=20)))


def paired(_, n):
    """As `changing`, by twos: chance that begins alike gives the same codes again."""
    return changing(random.Random(n // 2), n)


def alternating(_, n):
    """Partition 0 is ready in two crossings and warns in the next two."""
    return crossing(1, bytes([0x88 if n // 2 % 2 else 0x81]) + READY[1:])


def bouncing(_, n):
    """A partition with a bad connector: ready, busy, disconnected, busy."""
    return crossing(1, bytes([0x80 + (8, 4, 0, 4)[n % 4]]) + READY[1:])


def warned(_, __):
    """The GTFE warns, and the holder asks."""
    return crossing(1, gtfe=1)


def flipping(chance, _):
    """Every controller goes between ready and warning."""
    return crossing(chance.randrange(256), bytes(chance.choices((0x88, 0x18, 0x81), (3, 1, 1), k=20)))


def anything(chance, _):
    kind = chance.random()
    if kind < 0.02:
        return command(chance.randrange(8), chance.randrange(1, 7))
    codes = chance.choices((0x88, 0x18, 0x48, 0x00, 0xCC, 0x2F, 0xB8, 0x84, 0x21), (12, 1, 1, 1, 1, 1, 1, 1, 1), k=20)
    return crossing(chance.randrange(256), bytes(codes), marker=kind > 0.99, gtfe=chance.choice((8, 8, 8, 1, 4)))


def working_day(chance, n):
    """Each orbit has its marker, and CALIBRATE at its end; a group asks at one crossing in 20; 50 in 500 have a warning."""
    number = n % (ORBIT + 1)
    if number == ORBIT:
        return command(chance.randrange(2), CALIBRATE)
    asks = (chance.random() < 0.05) + 2 * (chance.random() < 0.05)
    codes = b"\x81" + READY[1:] if n % 500 < 50 else READY
    return crossing(asks, codes, marker=number == 0)


def calibrating(chance, n):
    """As `asked_by_chance`. At an orbit's end CALIBRATE, to each in turn: it calibrates once it holds the slot."""
    orbit, number = divmod(n, ORBIT + 1)
    return command(orbit % 8, CALIBRATE) if number == ORBIT else asked_by_chance(chance, n)


@dataclass(frozen=True)
class Log:
    name: str
    settings: dict  # those that are not standard
    groups: int
    record: Callable[[random.Random, int], bytes]  # by its place in the ten orbits
    first: tuple = ()  # records after the quiet orbits
    edition: int = 1  # of the settings' text


LOGS = [
    Log("holder asks", {}, 1, lambda chance, n: crossing(1)),
    Log("all ask", {}, 1, lambda chance, n: crossing(255)),
    Log("codes change", {}, 1, changing),
    Log("quiet", {}, 1, lambda chance, n: crossing(n % 1000 == 0)),
    Log("a working day", TWO, 2, working_day),
    Log("eight ask", EIGHT, 8, asked_by_chance),
    Log("loose rules", EIGHT | LOOSE, 8, lambda chance, n: crossing(255)),
    Log("codes flip", EIGHT, 8, flipping),
    Log("anything goes", EIGHT | LOOSE, 8, anything),
    Log("orbit of 64", EIGHT | SHORT, 8, asked_by_chance),
    Log("all wait", EIGHT | LONG_WAITS, 8, asked_by_chance, tuple(command(k, HARD) for k in range(8))),
    Log("codes in pairs", {}, 1, paired),
    Log("a code bounces", {}, 1, bouncing),
    Log("eight schedules", EIGHT | OWN, 8, calibrating, edition=2),
    Log("stopped by warning", {"warn_blocks": 1}, 1, warned),
    Log("rule 4 refuses", {"r4_period": 2047, "r4_norm": 1, "r4_low": 1}, 1, lambda chance, n: crossing(1)),
    Log("an input alternates", {}, 1, alternating),
]


def in_edition_2(lines):
    """Standard settings of edition 3 as edition 2 has them: a line more, `warn_blocks`."""
    at = lines.index("ignore_disc=0")
    return ["edition=2", *lines[1:at], "warn_blocks=0", *lines[at:]]


def in_edition_1(lines):
    """And as edition 1 has them: no line for the edition, and one schedule for all eight. The standard ones are alike, so that of
    controller 0 is it."""
    return [line.replace("at0_", "at_") for line in in_edition_2(lines) if not re.match("edition=|at[1-7]_", line)]


def write(log, records, standard, folder):
    """Writes the files of a log of so many records, over the standard settings' text, which is of edition 3, and hands back their
    folder."""
    older = {1: in_edition_1, 2: in_edition_2}[log.edition]
    pairs = (line.split("=") for line in older(standard.splitlines()))
    text = "".join(f"{key}={log.settings.get(key, value)}\n" for key, value in pairs)
    chance = random.Random(log.name)
    head = [command(k, START) for k in range(log.groups)] + [crossing()] * WARMING + list(log.first)
    body = [log.record(chance, n) for n in range(BODY)]
    times = -(-records // BODY)
    folder.mkdir(parents=True)
    (folder / "board.set").write_text(text)
    (folder / "run.rec").write_bytes(b"".join((head + body * times)[:records]))
    return folder
