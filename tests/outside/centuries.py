"""UTCTimes taken for GeneralizedTimes and back, by the archive for C: link version 2 beside OpenSSL, which follows RFC 5280 too, both versions beside
the model.

Beside OpenSSL: every year both ways, 29 February, the edges of each day, month and year, and random times. ASN1_TIME_to_generalizedtime gives the
century, ASN1_TIME_set_string_X509 the way back, where it leaves a GeneralizedTime outside the window as it is. Beside the model: nodes of all kinds,
whole values, damaged octets, other versions, short buffers. Prints how many there are of each answer; each disagreement is printed with its octets.
  centuries.py [--archive FILE] [--seed N] [--calls N]
The archive is target/yinscarf/libyinscarf.a."""
import argparse
import collections
import ctypes
import ctypes.util
import os
import random
import subprocess
import sys

import dates
import make
import model
from model import GENERALIZED_TIME, UTC_TIME

TO_GENERALIZED, TO_UTC = 0, 1
WAYS = {TO_GENERALIZED: ('to_generalized', UTC_TIME, model.to_generalized), TO_UTC: ('to_utc', GENERALIZED_TIME, model.to_utc)}
FILL = 0xAA


def built(archive):
    """The command that answers calls by the archive."""
    program = os.path.join(dates.ROOT, 'target', 'c', 'calls')
    os.makedirs(os.path.dirname(program), exist_ok=True)
    source = os.path.join(dates.ROOT, 'tests', 'c', 'centuries.c')
    subprocess.run(['cc', '-std=c11', '-O2', '-I' + os.path.join(dates.ROOT, 'include'), source, archive, '-o', program], check=True)
    return [program, '--calls']


def answers(command, calls):
    """Of each call (way, version, octets, room) ('ok', octets) or ('no', number, place); what had to stay as it was is looked at."""
    octets = b''.join(bytes([way]) + version.to_bytes(8, 'big') + room.to_bytes(2, 'big') + len(v).to_bytes(2, 'big') + v
                      for way, version, v, room in calls)
    lines = subprocess.run(command, check=True, input=octets, stdout=subprocess.PIPE).stdout.decode().split('\n')[:-1]
    assert len(lines) == len(calls), 'answered %d of %d calls' % (len(lines), len(calls))
    for line in lines:
        packed, _, after = line.partition(' ')
        number, rest = divmod(int(packed), 65536)
        after = bytes.fromhex(after)
        written = rest if number == 0 else 0
        if any(x != FILL for x in after[written:]):
            yield 'an octet that had to stay', after
        else:
            yield ('no', number, rest) if number else ('ok', after[:written])


# ---- OpenSSL ----
def openssl():
    """Both ways by OpenSSL, each from the characters of a time to its kind and characters; None if there is no OpenSSL."""
    name = ctypes.util.find_library('crypto')
    if name is None:
        return None
    c = ctypes.CDLL(name)
    for f in ('ASN1_TIME_new', 'ASN1_TIME_to_generalizedtime', 'ASN1_STRING_get0_data'):
        getattr(c, f).restype = ctypes.c_void_p
    pointer = ctypes.c_void_p

    def taken(t):
        kind, n = c.ASN1_STRING_type(pointer(t)), c.ASN1_STRING_length(pointer(t))
        text = ctypes.string_at(c.ASN1_STRING_get0_data(pointer(t)), n)
        c.ASN1_STRING_free(pointer(t))
        return kind, text

    def to_generalized(text):
        t = c.ASN1_TIME_new()
        assert c.ASN1_TIME_set_string(pointer(t), text) == 1
        g = c.ASN1_TIME_to_generalizedtime(pointer(t), None)
        c.ASN1_STRING_free(pointer(t))
        return taken(g)

    def to_utc(text):
        t = c.ASN1_TIME_new()
        assert c.ASN1_TIME_set_string_X509(pointer(t), text) == 1
        return taken(t)
    return {TO_GENERALIZED: to_generalized, TO_UTC: to_utc}


def by_openssl(theirs, way, time):
    """What OpenSSL makes of a time, as an answer."""
    before = WAYS[way][1]
    kind, text = theirs[way](model.digits(before, time))
    if kind == before:
        return 'no', 12, 0
    year = model.YEAR[kind]
    numbers = (int(text[:year]),) + tuple(int(text[i:i + 2]) for i in range(year, year + 10, 2))
    assert text == model.digits(kind, numbers), text
    return 'ok', model.octets((kind, numbers))


def times(R, way, count):
    """Times for OpenSSL: every year with its edges, and random ones. It has no GeneralizedTime before the year 1000 that it could not shorten."""
    kind = WAYS[way][1]
    years = range(100) if way == TO_GENERALIZED else range(1000, 10000)
    for year in years:
        for rest in ((1, 1, 0, 0, 0), (2, 28, 23, 59, 59), (2, 29, 12, 34, 56), (3, 1, 0, 0, 1), (12, 31, 23, 59, 59)):
            yield (year,) + rest
    for _ in range(count):
        year = R.randrange(100) if kind == UTC_TIME else R.randrange(1940, 2080)
        yield (year, R.randrange(1, 13), R.randrange(1, 32), R.randrange(24), R.randrange(60), R.randrange(60))


# ---- calls ----
def compare(command, R, count, add, fault):
    """Adds up answers by add(words), and calls fault(words, octets, version, room, ours, theirs), for so many random calls of each kind."""
    some, theirs = [], openssl()
    if theirs is None:
        print('OpenSSL is left out: there is none')
    for way in WAYS:
        for time in times(R, way, count) if theirs else ():
            if model.exists(WAYS[way][1], time):
                some.append(('by OpenSSL', (way, 2, model.octets((WAYS[way][1], time)), 10), by_openssl(theirs, way, time)))
    for _ in range(count):
        way = R.choice(list(WAYS))
        v = dates.lone(R)
        if R.random() < .5:
            kind = WAYS[way][1]
            time = make.time(R, kind)
            v = model.octets((kind, (R.randrange(1940, 2080),) + time[1:] if way == TO_UTC else time))
        version = R.choice([1, 2]) if R.random() < .9 else R.choice([0, 3, 255, 257, 1 << 32, (1 << 64) - 1])
        room = R.randrange(10, 20) if R.random() < .8 else R.randrange(10)
        some.append(('by the model', (way, version, v, room), WAYS[way][2](version, v, room)))
    for (words, call, they), we in zip(some, answers(command, [call for _, call, _ in some])):
        way, version, v, room = call
        what = '%s %s' % (WAYS[way][0], words)
        if we == they:
            add('%s: %s' % (what, 'same octets' if we[0] == 'ok' else 'no %d' % we[1]))
        else:
            fault(what, v, version, room, we, they)


def main():
    p = argparse.ArgumentParser(description=__doc__, formatter_class=argparse.RawDescriptionHelpFormatter)
    p.add_argument('--archive', default=dates.ARCHIVE)
    p.add_argument('--seed', type=int, default=1)
    p.add_argument('--calls', type=int, default=100000)
    args = p.parse_args()
    counts, faults = collections.Counter(), []

    def fault(words, v, version, room, we, they):
        faults.append(words)
        if len(faults) <= 20:
            print('DISAGREEMENT %s, version %d, %d octets of room\n  %s\n  we %s\n  they %s' % (words, version, room, v.hex(' ')[:600], we, they))
    compare(built(args.archive), random.Random(args.seed), args.calls, lambda words: counts.update([words]), fault)
    for words, n in sorted(counts.items()):
        print('%8d %s' % (n, words))
    print('%d disagreements; seed %d' % (len(faults), args.seed))
    return 1 if faults else 0


if __name__ == '__main__':
    sys.exit(main())
