"""The desk's numbers in words: what a status, a sent code, a command and the cause of a loss are called (documents 01 and 003)."""

STATUS = {10: "idle", 8: "ready", 1: "warning", 0: "disconnected", 2: "out of sync", 12: "error", 4: "busy"}
SENDS = {1: "BC0", 2: "TE", 5: "RESYNC", 6: "HARD", 7: "EC0", 8: "OC0", 9: "START", 10: "STOP", 11: "GAP", 13: "WTE"}
COMMANDS = ["START", "STOP", "HARD", "RESYNC", "CALIBRATE", "PANIC"]

# The manual's names for the codes of an input (document 003, Table 1).
CODES = {0: "disconnected", 1: "warning", 2: "out of sync", 4: "busy", 8: "ready", 12: "error", 15: "disconnected"}
INPUTS = [f"partition {n}" for n in range(32)] + [f"aTTS {k}" for k in range(8)] + ["GTFE"]
EMULATORS = range(24, 32)

# The causes of a loss in the order in which they are tried, by the report's line that counts them.
CAUSES = {
    "lost_state": "its state",
    "lost_slot": "the slot",
    "lost_gap": "the gap",
    "lost_cal": "a calibration",
    "lost_r1": "rule 1",
    "lost_r2": "rule 2",
    "lost_r3": "rule 3",
    "lost_r4": "rule 4",
}


def code_words(code, source):
    """What an input carries. Code 11 says something from partitions 24 to 31 alone."""
    if code == 11 and source in EMULATORS:
        return "trigger or inhibit"
    return CODES.get(code, f"bad code {code}")


def listed(words):
    """`a`, `a and b`, `a, b and c`"""
    *before, last = map(str, words)
    return f"{', '.join(before)} and {last}" if before else last


def some(count, one, many=None):
    """A count with its noun: `1 record`, `2 records`."""
    return f"{count:,} {one if count == 1 else many or one + 's'}"
