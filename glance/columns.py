"""Columns: a byte for each crossing of a piece, and in most of them bit k of it for controller k. Taken as one long number, all crossings
are compared at once, which is what makes plain Python quick enough here."""

LOW = bytes(b & 15 for b in range(256))
BIT = [bytes(b >> k & 1 for b in range(256)) for k in range(8)]
SOME = bytes([0] + [255] * 255)


def number(column):
    return int.from_bytes(column, "little")


def column(value, size):
    return value.to_bytes(size, "little")


def moved(bit, k):
    """The table that takes a bit of a row's byte to bit k."""
    return bytes((b >> bit & 1) << k for b in range(256))


def shown(statuses, pair):
    """The table that takes a byte of two status codes to the bits of its two controllers, set where the status is one of these."""
    return bytes((b % 16 in statuses) << 2 * pair | (b // 16 in statuses) << 2 * pair + 1 for b in range(256))


def places(column, value):
    """Where a value stands."""
    at = column.find(value)
    while at >= 0:
        yield at
        at = column.find(value, at + 1)
