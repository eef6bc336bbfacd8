"""Strings in segments, by the program of cases and by the model: the same value, or the same number and place.

Permitted encodings of any shape, each cut at every octet, with every octet changed to every other, left out, and with octets put in
before it; and everything that a few octets, up to five of them, make inside a string. Prints how many there are of each answer; each
disagreement is printed with its octets.
  segments.py [--ours COMMAND] [--seed N] [--messages N]"""
import argparse
import collections
import itertools
import os
import random
import sys

import make
import model
import ours
from model import BIT_STRING, BOOLEAN, CHOICE, NULL, OCTET_STRING, SEQUENCE, SEQUENCE_OF, SET

UNIVERSAL, APPLICATION, CONTEXT, PRIVATE = 0, 1, 2, 3
LONGEST, BATCH = 48, 100000
O, T, B = [(kind, [(UNIVERSAL, kind)], None) for kind in (OCTET_STRING, BIT_STRING, BOOLEAN)]


def plain(kind, own):
    return kind, [(UNIVERSAL, model.OWN_NUMBER[kind])], own


# Tables whose type 0 is or holds strings: tagged in each way, as members, elements and alternatives, optional and not.
TABLES = [
    [O], [T],
    [(OCTET_STRING, [(CONTEXT, 0)], None)], [(BIT_STRING, [(PRIVATE, 65535)], None)],
    [(OCTET_STRING, [(CONTEXT, 0), (UNIVERSAL, 4)], None)], [(BIT_STRING, [(APPLICATION, 31), (CONTEXT, 3), (CONTEXT, 3)], None)],
    [plain(SEQUENCE, [(1, 1), (2, 0), (1, 1)]), O, T],
    [plain(SEQUENCE, [(1, 1), (2, 1)]), T, B],
    [plain(SET, [(1, 0), (2, 1), (3, 1)]), O, T, B],
    [(CHOICE, [], [1, 2]), O, (CHOICE, [], [3, 4]), T, B],
    [plain(SEQUENCE_OF, [1]), O], [plain(SEQUENCE_OF, [1]), (CHOICE, [], [2, 3]), T, O],
    [plain(SEQUENCE, [(1, 1), (2, 0)]), (CHOICE, [], [3, 4]), (NULL, [(CONTEXT, 9)], None), (OCTET_STRING, [(CONTEXT, 1)], None), T],
]


class Seen(model.Reader):
    """A reader that says whether a string came in segments."""
    found = False

    def string(self, *what):
        self.found = True
        return super().string(*what)


def in_segments(records, t, m):
    """Whether a permitted encoding has a string in segments."""
    seen = Seen(records, m)
    seen.value(t, 0, len(m), 1)
    return seen.found


def messages(R, count):
    """So many permitted encodings with a string in segments: table, records, message, value."""
    while count:
        records = R.choice(TABLES) if R.random() < .8 else make.table(R)[1]
        h, t = model.heights(records), 0
        if h[t] > model.LEVELS:
            continue
        tree = make.value(R, records, t, min(model.LEVELS, h[t] + 2), h)
        if len(model.octets(tree)) > 40:
            continue
        m, sent = make.encoding(R, records, t, tree)
        if len(m) <= LONGEST and in_segments(records, t, m):
            count -= 1
            yield make.rendered(records), records, m, model.octets(sent)


def damages(m):
    """What is made of a message, with words for it."""
    for k in range(len(m)):
        yield 'cut', m[:k]
    for k in range(len(m)):
        for b in range(256):
            if b != m[k]:
                yield 'one octet changed', m[:k] + bytes([b]) + m[k + 1:]
    for k in range(len(m)):
        yield 'one octet left out', m[:k] + m[k + 1:]
    for k in range(len(m) + 1):
        for more in (b'\0', b'\0\0', b'\3', b'\4', b'\x23', b'\x24', b'\x80', b'\3\1\0', b'\4\0', b'\x23\0', b'\x24\0', b'\x24\x80\0\0'):
            yield 'octets put in', m[:k] + more + m[k:]


def small():
    """Strings of indefinite and of definite length with all that a few octets make in them, or three deep in them: records, message."""
    for records, some in (([O], '00 01 03 04 24 23 80 1F AA FF'), ([T], '00 01 02 03 04 23 24 80 1F F8')):
        around = bytes([records[0][0] + 0x20, 0x80])
        for n in range(6):
            for c in itertools.product(bytes.fromhex(some), repeat=n):
                yield records, around + bytes(c)
                yield records, around[:1] + bytes([n]) + bytes(c)
                if n < 5:
                    yield records, 4 * around + bytes(c) + bytes(8)


def read(records, m):
    """The model's answer, for a table that was checked before."""
    return model.answer(lambda: model.octets(model.read_tree(records, 0, m)))


def compare(command, R, count, add, fault):
    """Adds up answers by add(words), and calls fault(words, table, message, ours, the model's)."""
    waiting = []

    def answered():
        for (table, words, m, they), we in zip(waiting, ours.run(command, [(ours.READ, 0, table, m) for table, _, m, _ in waiting])):
            if we == they:
                add('in segments, %s: %s' % (words, 'same value' if we[0] == 'ok' else 'no %d, same place' % we[1]))
            else:
                fault('in segments, ' + words, table, m, we, they)
        waiting.clear()
    for table, records, m, value in messages(R, count):
        waiting.append((table, 'permitted', m, ('ok', value)))
        assert read(records, m) == ('ok', value), m.hex(' ')
        for words, n in damages(m):
            waiting.append((table, words, n, read(records, n)))
        if len(waiting) > BATCH:
            answered()
    for records, m in small():
        waiting.append((make.rendered(records), 'a few octets', m, read(records, m)))
        if len(waiting) > BATCH:
            answered()
    answered()


def main():
    here = os.path.dirname(os.path.abspath(__file__))
    p = argparse.ArgumentParser(description=__doc__)
    p.add_argument('--ours', default=os.path.join(here, '..', '..', 'cases'))
    p.add_argument('--seed', type=int, default=1)
    p.add_argument('--messages', type=int, default=300)
    args = p.parse_args()
    counts, faults = collections.Counter(), []

    def fault(words, table, m, we, they):
        faults.append(words)
        if len(faults) <= 20:
            print('DISAGREEMENT %s\n  table %s\n  octets %s\n  we %s\n  the model %s' % (words, table.hex(' '), m.hex(' '), we, they))
    compare(args.ours, random.Random(args.seed), args.messages, lambda words: counts.update([words]), fault)
    for words, n in sorted(counts.items()):
        print('%8d %s' % (n, words))
    print('%d disagreements; ours: %s; seed %d' % (len(faults), os.path.basename(args.ours), args.seed))
    return 1 if faults else 0


if __name__ == '__main__':
    sys.exit(main())
