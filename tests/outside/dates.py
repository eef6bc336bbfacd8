"""Times, by the program of cases and by the model: the same octets, or the same number and place. And the order of two times and the seconds
between them, by the archive for C, by Python's datetime and by the model.

Read and written: every month and day of some years, 29 February of every year, every hour, minute and second, those that there are not too;
random times in tables of each shape, each encoding and each value cut at every octet, with every octet changed to every other, left out, and
with octets put in before it. Ordered: random pairs from the years 1 to 9999 by datetime; pairs with year 0, with nodes of other kinds, with
whole values, long ones and damaged ones by the model. Prints how many there are of each answer; each disagreement is printed with its octets.
  dates.py [--ours COMMAND] [--archive FILE] [--seed N] [--messages N] [--pairs N]
The archive is target/yinscarf/libyinscarf.a; without it, or with --archive none, order and seconds are left out."""
import argparse
import collections
import datetime
import os
import random
import subprocess
import sys

import make
import model
import ours
import segments
from model import (BIT_STRING, BOOLEAN, CHOICE, GENERALIZED_TIME, NULL, OCTET_STRING, SEQUENCE, SEQUENCE_OF, SET, SET_OF, TIMES, UTC_TIME)

HERE = os.path.dirname(os.path.abspath(__file__))
ROOT = os.path.join(HERE, '..', '..')
ARCHIVE = os.path.join(ROOT, 'target', 'yinscarf', 'libyinscarf.a')
CONTEXT, PRIVATE = 2, 3
BATCH, LONGEST = 100000, 48
U, G, B = [segments.plain(kind, None) for kind in (UTC_TIME, GENERALIZED_TIME, BOOLEAN)]

# Tables whose type 0 is or holds times: tagged in each way, as members, elements and alternatives, optional and not.
TABLES = [
    [U], [G],
    [(UTC_TIME, [(CONTEXT, 0)], None)], [(GENERALIZED_TIME, [(PRIVATE, 65535)], None)],
    [(UTC_TIME, [(CONTEXT, 0), (CONTEXT, 0)], None)], [(GENERALIZED_TIME, [(CONTEXT, 31), (0, 24)], None)],
    [segments.plain(SEQUENCE, [(1, 1), (2, 0)]), U, G], [segments.plain(SET, [(1, 1), (2, 1), (3, 0)]), G, U, B],
    [segments.plain(SEQUENCE_OF, [1]), U], [segments.plain(SET_OF, [1]), G],
    [(CHOICE, [], [1, 2]), U, (CHOICE, [(CONTEXT, 1)], [3, 4]), G, B],
]


# ---- read and written ----
def each_number():
    """Numbers for the fields of a time, whether there is such a time or not: kind, fields."""
    for kind, years in ((UTC_TIME, (0, 1, 99)), (GENERALIZED_TIME, (0, 1900, 2000, 2023))):
        for year in years:
            for month in range(100):
                for day in range(100):
                    yield kind, (year, month, day, 12, 34, 56)
        for k in range(1, 6):
            for n in range(256):
                yield kind, (99, 12, 31, 23, 59, 59)[:k] + (n,) + (99, 12, 31, 23, 59, 59)[k + 1:]
    for year in range(65536):
        if year < 10300 or year % 64 < 2:
            yield GENERALIZED_TIME, (year, 2, 29, 0, 0, 0)
            yield UTC_TIME, (year, 2, 29, 0, 0, 0)


def by_datetime(kind, time):
    """Whether there is such a time by Python's datetime, which has no year 0; the leap years of a UTCTime are those from 2000 to 2099."""
    year = time[0] + (2000 if kind == UTC_TIME else 0)
    try:
        datetime.datetime(year or 400, *time[1:])
        return year < (2100 if kind == UTC_TIME else 10000)
    except ValueError:
        return False


def numbers():
    """Those numbers as a value, and as a message if they have the digits: words, operation, records, octets."""
    for kind, time in each_number():
        assert model.exists(kind, time) == by_datetime(kind, time), (kind, time)
        records = [U] if kind == UTC_TIME else [G]
        yield 'a field', ours.WRITE, records, model.octets((kind, time))
        if time[0] < 10 ** model.YEAR[kind] and max(time[1:]) < 100:
            c = model.digits(kind, time)
            yield 'a field', ours.READ, records, bytes([kind, len(c)]) + c


def damaged(R, count):
    """Random times in messages and in values, sound and damaged: words, operation, records, octets."""
    for _ in range(count):
        records = R.choice(TABLES)
        h = model.heights(records)
        tree = make.value(R, records, 0, h[0] + 2, h)
        if not 1 < len(model.octets(tree)) <= LONGEST:
            continue
        m, sent = make.encoding(R, records, 0, tree)
        if len(m) <= LONGEST:
            yield 'sound', ours.READ, records, m
            for words, n in segments.damages(m):
                yield words, ours.READ, records, n
        yield 'sound', ours.WRITE, records, model.octets(sent)
        for words, n in segments.damages(model.octets(sent)):
            yield words, ours.WRITE, records, n


def by_model(op, records, octets):
    """The model's answer, for a table that was checked before."""
    if op == ours.READ:
        return model.answer(lambda: model.octets(model.read_tree(records, 0, octets)))
    return model.answer(lambda: model.written(records, 0, octets))


def compare(command, R, count, add, fault):
    """Adds up answers by add(words), and calls fault(words, table, octets, ours, the model's)."""
    waiting = []

    def answered():
        for (words, op, table, octets, they), we in zip(waiting, ours.run(command, [(op, 0, table, o) for _, op, table, o, _ in waiting])):
            what = 'times %s, %s' % ('read' if op == ours.READ else 'written', words)
            if we == they:
                add('%s: %s' % (what, 'same octets' if we[0] == 'ok' else 'no %d, same place' % we[1]))
            else:
                fault(what, table, octets, we, they)
        waiting.clear()
    for some in (numbers(), damaged(R, count)):
        for words, op, records, octets in some:
            waiting.append((words, op, make.rendered(records), octets, by_model(op, records, octets)))
            if len(waiting) > BATCH:
                answered()
    answered()


# ---- ordered, and seconds between them ----
def built(archive):
    """The command that answers pairs by the archive."""
    program = os.path.join(ROOT, 'target', 'c', 'pairs')
    os.makedirs(os.path.dirname(program), exist_ok=True)
    source = os.path.join(ROOT, 'tests', 'c', 'times.c')
    subprocess.run(['cc', '-std=c11', '-O2', '-I' + os.path.join(ROOT, 'include'), source, archive, '-o', program], check=True)
    return [program, '--pairs']


def answers(command, pairs):
    """Of each pair the order and the seconds, each ('ok', number) or ('no', number, 0)."""
    def unpacked(n):
        return ('ok', n) if n < 1 << 40 else ('no', n >> 40, n & (1 << 40) - 1)
    octets = b''.join(len(x).to_bytes(2, 'big') + x for pair in pairs for x in pair)
    lines = subprocess.run(command, check=True, input=octets, stdout=subprocess.PIPE).stdout.decode().split('\n')[:-1]
    assert len(lines) == len(pairs), 'answered %d of %d pairs' % (len(lines), len(pairs))
    return [tuple(unpacked(int(n)) for n in line.split()) for line in lines]


def moment(R):
    """A moment of datetime, often close to the edge of a year."""
    year = R.choice([1, 4, 100, 400, 1582, 1900, 1970, 1999, 2000, 2100, 9999]) if R.random() < .2 else R.randrange(1, 10000)
    if R.random() < .2:
        return R.choice([datetime.datetime(year, 1, 1), datetime.datetime(year, 12, 31, 23, 59, 59), datetime.datetime(year, 2, 28, 23, 59, 59),
                         datetime.datetime(year, 3, 1)])
    return datetime.datetime(year, 1, 1) + datetime.timedelta(R.randrange(365), R.randrange(86400))


def other(R, a):
    """A moment for a pair with that: any, or one that is near."""
    span = R.choice([0, 1, 60, 3600, 86400, 31 * 86400, 366 * 86400, None])
    if span is not None:
        try:
            return a + datetime.timedelta(seconds=R.randrange(-span, span + 1))
        except OverflowError:
            pass
    return moment(R)


def node(a):
    return model.octets((GENERALIZED_TIME, (a.year, a.month, a.day, a.hour, a.minute, a.second)))


def moments(R, count):
    """Pairs with their order and seconds by datetime."""
    for _ in range(count):
        a = moment(R)
        b = other(R, a)
        if R.random() < .5:
            a, b = b, a
        elapsed = b - a
        yield (node(a), node(b)), (('ok', (a > b) - (a < b)), ('ok', elapsed.days * 86400 + elapsed.seconds))


def lone(R):
    """An input: a time, a node of another kind, a whole value, a long string; sound or damaged."""
    x = R.random()
    if x < .5:
        kind = GENERALIZED_TIME if R.random() < .9 else UTC_TIME
        v = model.octets((kind, make.time(R, kind)))
    elif x < .52:
        n = R.choice([255, 256, 8192, 16378, 16379, 16380])
        v = model.octets(R.choice([(OCTET_STRING, bytes(n)), (BIT_STRING, (0, bytes(min(n, 8191)))), (SEQUENCE, [None] * min(n, 255)),
                                   (SET, [None] * min(n - 1, 254) + [(NULL, None)])]))
    else:
        records = make.table(R)[1]
        h = model.heights(records)
        t = R.randrange(len(records))
        v = model.octets(make.value(R, records, t, h[t] + 1, h))[:60000]
    x = R.random()
    if x < .4:
        return v
    if x < .6 and len(v) > 2:
        p = R.randrange(len(v))
        return v[:p] + bytes([R.choice([0, 1, 12, 13, 23, 24, 28, 29, 30, 31, 32, 59, 60, 100, 255, R.randrange(256)])]) + v[p + 1:]
    return make.damaged(R, v) if v and x < .8 else v


def compare_pairs(command, R, count, add, fault):
    """Adds up answers by add(words), and calls fault(words, first, second, ours, theirs), for so many pairs of each kind."""
    some = [('by datetime', pair, they) for pair, they in moments(R, count)]
    for _ in range(count // 2):
        pair = lone(R), lone(R)
        some.append(('by the model', pair, (model.order(*pair), model.seconds(*pair))))
    for (words, pair, they), we in zip(some, answers(command, [pair for _, pair, _ in some])):
        if we == they:
            add('order and seconds %s: %s' % (words, 'same' if we[0][0] == 'ok' else 'no %d' % we[0][1]))
        else:
            fault('order and seconds ' + words, pair[0], pair[1], we, they)


def main():
    p = argparse.ArgumentParser(description=__doc__, formatter_class=argparse.RawDescriptionHelpFormatter)
    p.add_argument('--ours', default=os.path.join(ROOT, 'cases'))
    p.add_argument('--archive', default=ARCHIVE)
    p.add_argument('--seed', type=int, default=1)
    p.add_argument('--messages', type=int, default=100)
    p.add_argument('--pairs', type=int, default=100000)
    args = p.parse_args()
    counts, faults = collections.Counter(), []

    def fault(words, first, second, we, they):
        faults.append(words)
        if len(faults) <= 20:
            print('DISAGREEMENT %s\n  %s\n  %s\n  we %s\n  they %s' % (words, first.hex(' ')[:600], second.hex(' ')[:600], we, they))

    def add(words):
        counts.update([words])
    compare(args.ours, random.Random(args.seed), args.messages, add, fault)
    if os.path.exists(args.archive):
        compare_pairs(built(args.archive), random.Random(args.seed), args.pairs, add, fault)
    else:
        print('order and seconds are left out: no archive')
    for words, n in sorted(counts.items()):
        print('%8d %s' % (n, words))
    print('%d disagreements; ours: %s; seed %d' % (len(faults), os.path.basename(args.ours), args.seed))
    return 1 if faults else 0


if __name__ == '__main__':
    sys.exit(main())
