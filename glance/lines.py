"""The lines of a settings text with their ranges, edition by edition (documents 01, "Settings text", and 02, P2 and P3), so that a refused
line can be told in words. The desk has its own table, which is proved; tests/glance compares the two line by line."""

RULES = [("orbit", 64, 4096), ("gap_low", 0, 4095), ("gap_high", 0, 4095), ("r1_gap", 2, 7)]
RULES += [("r2_period", 1, 63), ("r2_norm", 0, 15), ("r2_low", 0, 15)]
RULES += [("r3_period", 64, 176), ("r3_norm", 0, 63), ("r3_low", 0, 63)]
RULES += [("r4_period", 1, 2047), ("r4_norm", 0, 511), ("r4_low", 0, 511)]
RETIRED = [("warn_blocks", 0, 1)]
HANDLING = [("ignore_disc", 0, 1), ("ignore_bad", 0, 1)]
HANDLING += [(key, 0, 255) for key in ("settle_resync", "settle_hard", "recover_resync", "recover_hard")]
HANDLING += [(f"slot{k}", 0, 255) for k in range(8)]
DATES = ["bc0", "te", "resync", "hard", "ec0", "oc0", "start", "stop", "gap", "wte", "cal"]
PARTS = [(f"part{n}", 0, 8) for n in range(32)]


def dates(controller, edition):
    """A controller's eleven keys; in the first edition all eight have the same."""
    return [f"at_{date}" if edition == 1 else f"at{controller}_{date}" for date in DATES]


def schedules(edition):
    return [(key, 0, 4095) for k in range(1 if edition == 1 else 8) for key in dates(k, edition)]


EDITIONS = {
    1: RULES + RETIRED + HANDLING + schedules(1) + PARTS,
    2: [("edition", 2, 2)] + RULES + RETIRED + HANDLING + schedules(2) + PARTS,
    3: [("edition", 3, 3)] + RULES + HANDLING + schedules(3) + PARTS,
}


def edition_of(text):
    """The edition that a text's first line opens, or None."""
    if text.startswith(b"orbit="):
        return 1
    opened = [n for n in EDITIONS if n > 1 and text.startswith(b"edition=%d\n" % n)]
    return opened[0] if opened else None
