"""Integers, by the program of cases and by Python's: INTEGER and ENUMERATED contents of no octet to nine, with every first octet and others
behind it, all alike, at both sides of a sign, and at random."""
import make
import ours
from model import ENUMERATED, INTEGER
from segments import plain

# An ENUMERATED that lists numbers at both sides of a sign, and what negative ones would be with another fill.
LISTED = [0x00, 0x01, 0x7F, 0x80, 0xFE, 0xFF, 0x0100, 0x017F, 0x7F80, 0x7FFF, 0x8000, 0x80FF, 0xFF00, 0xFF7F, 0xFF80, 0xFFFF]
TABLES = [(INTEGER, make.rendered([plain(INTEGER, None)])), (ENUMERATED, make.rendered([plain(ENUMERATED, LISTED)]))]


def contents(R):
    yield b''
    for first in range(256):
        yield bytes([first])
        for n in range(1, 9):
            for more in (bytes(n), b'\xFF' * n, b'\x7F' + b'\xFF' * (n - 1), b'\x80' + bytes(n - 1), bytes(n - 1) + b'\x80', R.randbytes(n), R.randbytes(n)):
                yield bytes([first]) + more


def by_python(kind, c):
    """The answer to contents, by Python's integers: those of 64 bits in the fewest octets, and of an ENUMERATED those listed."""
    z = int.from_bytes(c, 'big', signed=True)
    if not c or len(c) > 8 or (len(c) > 1 and -(1 << 8 * len(c) - 9) <= z < 1 << 8 * len(c) - 9) or (kind == ENUMERATED and z not in LISTED):
        return 'no', 25, 0
    return 'ok', b'\x56\x41' + bytes([kind]) + z.to_bytes(8 if kind == INTEGER else 2, 'big', signed=kind == INTEGER)


def compare(command, R, add, fault):
    """Adds up answers by add(words), and calls fault(words, table, message, ours, Python's)."""
    some = [(table, bytes([kind, len(c)]) + c, by_python(kind, c)) for kind, table in TABLES for c in contents(R)]
    for (table, m, they), we in zip(some, ours.run(command, [(ours.READ, 0, table, m) for table, m, _ in some])):
        if we == they:
            add('integers by Python: %s' % ('same value' if we[0] == 'ok' else 'no %d, same place' % we[1]))
        else:
            fault('integers by Python', table, m, we, they)
