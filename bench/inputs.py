#!/usr/bin/env python3
"""Makes what the benchmark runs on: the batch of call records with its table, batches of other lengths, strings in segments and lists of times
of half and of the whole length, the dearest tables, messages and values that were found, pairs for order and seconds, and times for conversions.

  inputs.py FOLDER     each input is a file in the form of document 01's cases; FOLDER/list names them, a line each:
                       group, file, words for people. Of a pair, the first stands in place of the table, the second in that of the data"""
import os
import sys

HERE = os.path.dirname(os.path.abspath(__file__))
sys.path.insert(0, os.path.join(HERE, '..', 'tests', 'outside'))
import make
import model
import ours
from model import (BIT_STRING, BOOLEAN, CHOICE, DEEPEST, ENUMERATED, GENERALIZED_TIME, INTEGER, MESSAGE, NULL, OCTET_STRING, RECORDS, SEQUENCE,
                   SEQUENCE_OF, SET, UTC_TIME, VALUE)

UNIVERSAL, APPLICATION, CONTEXT, PRIVATE = 0, 1, 2, 3
STATES = [0, 1, 2, 5]
# the operations on times alone, by bench.c's numbers
ORDER, SECONDS, TO_GENERALIZED, TO_UTC = 16, 17, 18, 19


def plain(kind, own=None):
    """A record with its kind's own tag."""
    return kind, [(UNIVERSAL, model.OWN_NUMBER[kind])], own


# ---- the batch ----
# The types of batch.asn1. State and the types of trunk's members have one record for all their uses, the others one for each.
BATCH = [
    plain(SEQUENCE, [(1, 0), (2, 0), (3, 0), (4, 0), (5, 0), (6, 0), (7, 0), (8, 1), (9, 0), (10, 0)]),
    plain(INTEGER),
    (INTEGER, [(APPLICATION, 1)], None),
    plain(BOOLEAN),
    plain(OCTET_STRING),
    plain(ENUMERATED, STATES),
    plain(BIT_STRING),
    (SEQUENCE, [(CONTEXT, 0)], [(1, 0), (4, 0)]),
    (OCTET_STRING, [(CONTEXT, 1)], None),
    plain(NULL),
    plain(SEQUENCE_OF, [11]),
    plain(SEQUENCE, [(12, 0), (13, 0), (14, 0), (15, 0), (5, 0), (16, 1)]),
    plain(INTEGER),
    plain(OCTET_STRING),
    (INTEGER, [(APPLICATION, 2)], None),
    plain(BOOLEAN),
    plain(BIT_STRING),
]


def text(n):
    return b'extension 204 to the front desk, by way of the second trunk'[:n]


def call(i):
    seconds = 40000 + 977 * i if i % 5 == 4 else 9000000 + 65537 * i
    return SEQUENCE, [(INTEGER, 4000 + 7 * i), (OCTET_STRING, text(31 + i % 9)), (INTEGER, seconds), (BOOLEAN, i % 2),
                      (ENUMERATED, STATES[i % 4]), (BIT_STRING, (3, bytes([i * 37 % 256, 0xA8]))) if i % 5 < 3 else None]


def batch(calls, long=True):
    """A batch of so many calls, with long or short strings around them."""
    return SEQUENCE, [(INTEGER, 2), (INTEGER, 1234567890), (BOOLEAN, 1), (OCTET_STRING, text(35 if long else 4)), (ENUMERATED, 2),
                      (BIT_STRING, (5, b'\x5A\xC3\x20')), (SEQUENCE, [(INTEGER, 300), (OCTET_STRING, text(16 if long else 2))]),
                      (OCTET_STRING, text(28)) if long else None, (NULL, None), (SEQUENCE_OF, [call(i) for i in range(calls)])]


def indefinite(items):
    """Items with each constructed one in the indefinite form."""
    return b''.join(i + b'\x80' + indefinite(c) + b'\0\0' if isinstance(c, list) else i + model.length(len(c)) + c for i, c in items)


# ---- the dearest inputs ----
LONG_TAGS = [(PRIVATE, n) for n in range(65532, 65536)]


def chain(first, n):
    """n CHOICEs without tags, numbered from `first` on, each of the next record alone, and a BOOLEAN for the last."""
    return [(CHOICE, [], [first + i + 1]) for i in range(n)] + [plain(BOOLEAN)]


def item(i, contents, definite=False):
    """A constructed item."""
    return i + model.length(len(contents)) + contents if definite else i + b'\x80' + contents + b'\0\0'


def listed(sets, records, element, size, definite=False):
    """A list of as many elements as fit a message, and a value if each takes `size` octets there, in so many SETs of one member.

    The SETs are records 0 and up, the list is record `sets`, the element and what it needs are the records behind that."""
    around = (12 if definite else 4) * (sets + 1)
    m = item(b'\x30', element * min((MESSAGE - around) // len(element), (VALUE - 5 * (sets + 1)) // size), definite)
    for _ in range(sets):
        m = item(b'\x31', m, definite)
    return [plain(SET, [(i + 1, 0)]) for i in range(sets)] + [plain(SEQUENCE_OF, [sets + 1])] + records, m


def runs(n, below):
    """n SEQUENCEs, each of eight runs of record n, optional, and the last record, mandatory; behind them the records `below` and a NULL."""
    return [(SEQUENCE, [(CONTEXT, i)], [(n, 1), (RECORDS - 1, 0)] * 8) for i in range(n)] + below + [plain(NULL)]


def tables():
    """Tables whose check is dear."""
    last = RECORDS - 1
    n = RECORDS // 2 - 2
    yield '%d SEQUENCEs of eight runs, above %d CHOICEs without tags, each of the next 16 records' % (n, last - 1 - n), \
        runs(n, [(CHOICE, [], [min(n + i + 1 + k, last - 1) for k in range(16)]) for i in range(last - 1 - n)] + [plain(BOOLEAN)])
    yield '%d SEQUENCEs of eight runs, above a chain of %d CHOICEs without tags' % (n, last - 1 - n), runs(n, chain(n, last - 1 - n))
    yield '127 CHOICEs without tags, each of the next 16 records, and a BOOLEAN', \
        [(CHOICE, [], [min(i + 1 + k, last) for k in range(16)]) for i in range(last)] + [plain(BOOLEAN)]
    yield 'a chain of 127 CHOICEs without tags, and a BOOLEAN', chain(0, last)
    yield '128 SEQUENCEs, each of the next 16 records, the last empty', \
        [(SEQUENCE, [(CONTEXT, i)], [(i + 1 + k, 0) for k in range(min(16, last - i))]) for i in range(RECORDS)]
    yield '128 SEQUENCEs, each of the next 16 records around a circle, optional', \
        [(SEQUENCE, [(CONTEXT, i)], [((i + 1 + k) % RECORDS, 1) for k in range(16)]) for i in range(RECORDS)]
    yield '111 ENUMERATED of 32 numbers, 7,992 octets', [plain(ENUMERATED, list(range(65504, 65536)))] * 111


def reversed_sets(sets):
    """A list of SETs, each of 15 NULLs and the next SET, the members in reverse order."""
    m, first = b'', 1 + sets
    for _ in range(sets):
        m = item(b'\x31', m + b''.join(bytes([0x80 + k, 0]) for k in reversed(range(15))))
    own = [(first + k, 0) for k in range(15)]
    records = [plain(SET, own + ([(s + 2, 0)] if s + 1 < sets else [])) for s in range(sets)]
    size = sets * (4 + 15 + 45 + 1) - 1
    return listed(0, records + [(NULL, [(CONTEXT, k)], None) for k in range(15)], m, size)


def crowded(sets):
    """A list of SETs, each of 15 NULLs behind an optional member of nested CHOICEs, in so many SETs."""
    first = sets + 2
    own = [(first + 15, 1)] + [(first + k, 0) for k in range(15)]
    nulls = [(NULL, [(CONTEXT, k)], None) for k in range(15)]
    m = item(b'\x31', b''.join(bytes([0x80 + k, 0]) for k in range(15)), True)
    return listed(sets, [plain(SET, own)] + nulls + chain(first + 15, RECORDS - first - 16), m, 4 + 16 + 45)


def string(kind, segment, sets, most):
    """A string of as many segments as fit so many octets, in so many SETs of indefinite length."""
    m = item(bytes([kind + 0x20]), segment * ((most - 4 * sets - 4) // len(segment)), True)
    for _ in range(sets):
        m = item(b'\x31', m)
    return [plain(SET, [(i + 1, 0)]) for i in range(sets)] + [plain(kind)], m


def strings():
    """Strings in segments whose reading is dear: kind, segment, SETs around, words."""
    for kind, name, empty in ((OCTET_STRING, 'an OCTET STRING', b'\4\0'), (BIT_STRING, 'a BIT STRING', b'\3\1\0')):
        nested = {}
        for definite in (True, False):
            nested[definite] = empty
            for _ in range(DEEPEST - 1):
                nested[definite] = item(bytes([kind + 0x20]), nested[definite], definite)
        yield kind, empty, 0, name + ' of empty segments'
        yield kind, empty, 23, name + ' of empty segments' + within(23)
        yield kind, bytes([kind + 0x20, 0]), 0, name + ' of segments that are constructed of none'
        yield kind, nested[True], 0, name + ' of empty segments, each four deep, definite'
        yield kind, nested[False], 0, name + ' of empty segments, each four deep, indefinite'
        yield kind, nested[False], 23, name + ' of empty segments, each four deep, indefinite' + within(23)
        yield kind, empty[:1] + (b'\1\x55' if kind == OCTET_STRING else b'\2\0\x55'), 0, name + ' of segments of one octet'


# ---- times ----
def times(kind, most):
    """A list of as many times as fit so many octets, each of another day."""
    n = (most - 4) // (2 + len(model.digits(kind, (0, 1, 1, 0, 0, 0))))
    some = [(kind, (i % 100, 1 + i % 12, 1 + i % 28, i % 24, i % 60, 59 - i % 60)) for i in range(n)]
    return [plain(SEQUENCE_OF, [1]), plain(kind)], (SEQUENCE_OF, some)


def pairs():
    """Inputs for order and seconds: words, first, second."""
    def time(*fields):
        return model.octets((GENERALIZED_TIME, fields))
    now, last = time(1999, 12, 31, 22, 0, 0), time(9999, 12, 31, 23, 59, 59)
    yield '31 December 1999 and 1 January 2000', now, time(2000, 1, 1, 6, 30, 0)
    yield 'the first second of year 0 and the last of 9999', time(0, 1, 1, 0, 0, 0), last
    yield 'the last second of 9999 twice', last, last
    yield '29 February 2000 and 1 March 1900', time(2000, 2, 29, 12, 0, 0), time(1900, 3, 1, 12, 0, 0)
    yield 'a time and a SEQUENCE, 255 members missing', last, model.octets((SEQUENCE, [None] * 255))
    yield 'a time and a SEQUENCE, the last of 255 members there', last, model.octets((SEQUENCE, [None] * 254 + [(NULL, None)]))
    yield 'a time and a SET, 255 members missing', last, model.octets((SET, [None] * 255))
    yield 'a time and an OCTET STRING of 16,379 octets', last, model.octets((OCTET_STRING, bytes(VALUE - 5)))
    yield 'a time and a BIT STRING of 65,535 bits', last, model.octets((BIT_STRING, (1, bytes(8192))))
    yield 'a time and one of second 60', last, last[:-1] + b'\x3c'
    yield 'a time and 29 February 1900', last, time(1900, 2, 29, 12, 0, 0)
    yield 'a time and a UTCTime', last, model.octets((UTC_TIME, (96, 2, 29, 23, 59, 59)))
    yield 'a time and an INTEGER', last, model.octets((INTEGER, -1))
    yield 'a time and 16,385 octets', last, last + bytes(VALUE + 1 - len(last))
    yield 'a SEQUENCE, 255 members missing, and a time', model.octets((SEQUENCE, [None] * 255)), last


def centuries():
    """Inputs for conversions: operation, link version, words, time."""
    def time(kind, year):
        return model.octets((kind, (year, 2, 29, 23, 59, 59)))
    yield TO_GENERALIZED, 1, '29 February 96 by version 1', time(UTC_TIME, 96)
    yield TO_GENERALIZED, 2, '29 February 00 by version 2', time(UTC_TIME, 0)
    yield TO_GENERALIZED, 1, 'a SEQUENCE, 255 members missing', model.octets((SEQUENCE, [None] * 255))
    yield TO_UTC, 1, '29 February 1996 by version 1', time(GENERALIZED_TIME, 1996)
    yield TO_UTC, 2, '29 February 2000 by version 2', time(GENERALIZED_TIME, 2000)
    yield TO_UTC, 2, '29 February 2052 by version 2', time(GENERALIZED_TIME, 2052)
    yield TO_UTC, 3, '29 February 2000 by version 3', time(GENERALIZED_TIME, 2000)


def within(sets):
    return ', in %d SETs, indefinite' % sets if sets else ''


def messages():
    """Tables with messages of type 0 whose reading is dear."""
    null = plain(NULL)
    yield 'NULLs in a list, in 22 SETs, indefinite', listed(22, [null], b'\5\0', 3)
    yield 'NULLs in a list, in 22 SETs, definite', listed(22, [null], b'\5\0', 3, True)
    for sets in (0, 21):
        n = RECORDS - sets - 4
        yield 'NULLs in a list, each in a CHOICE behind %d nested CHOICEs' % n + within(sets), \
            listed(sets, [(CHOICE, [], [sets + 3, sets + 2]), null] + chain(sets + 3, n), b'\5\0', 7)
        yield 'SETs of 15 NULLs in a list, with an optional member of %d nested CHOICEs' % (n - 14) + within(sets), crowded(sets)
    for sets in (0, 22):
        n = RECORDS - sets - 3
        yield 'empty SEQUENCEs in a list, with an optional member of %d nested CHOICEs' % n + within(sets), \
            listed(sets, [plain(SEQUENCE, [(sets + 2, 1)])] + chain(sets + 2, n), b'\x30\0', 5)
    n = RECORDS - 5
    yield 'SEQUENCEs of eight CHOICEs of a NULL in a list, each behind an optional member of %d nested CHOICEs' % n, \
        listed(0, [plain(SEQUENCE, [(4, 1), (2, 0)] * 8), (CHOICE, [], [3]), null] + chain(4, n), b'\x30\x10' + b'\5\0' * 8, 4 + 16 + 8 * 7)
    deep, beside = 22, RECORDS - 25
    yield 'NULLs in a list, each under 22 CHOICEs, the last with %d nested CHOICEs before it' % beside, \
        listed(0, [(CHOICE, [], [i + 2]) for i in range(deep - 1)] + [(CHOICE, [], [deep + 2, deep + 1]), null] + chain(deep + 2, beside),
               b'\5\0', 4 * deep + 3)
    yield 'ENUMERATED, the last of 32 numbers, in a list, in 22 SETs, indefinite', \
        listed(22, [plain(ENUMERATED, list(range(65504, 65536)))], b'\x0a\3\0\xff\xff', 5)
    yield 'SETs of 15 NULLs and the next of 22 SETs, in reverse order, in a list, indefinite', reversed_sets(22)
    element = model.identifier(PRIVATE, False, 65535) + b'\0'
    for c, n in reversed(LONG_TAGS[:3]):
        element = item(model.identifier(c, True, n), element)
    yield 'NULLs with four long tags in a list, in 22 SETs, indefinite', listed(22, [(NULL, LONG_TAGS, None)], element, 3)
    yield 'NULLs with lengths of four octets in a list, in 22 SETs, indefinite', listed(22, [null], b'\5\x84' + bytes(4), 3)
    yield 'one OCTET STRING of 8,188 octets', ([plain(OCTET_STRING)], b'\4' + model.length(8188) + bytes(8188))
    yield 'OCTET STRINGs of no segments in a list, in 22 SETs, indefinite', listed(22, [plain(OCTET_STRING)], b'\x24\x80\0\0', 5)
    yield 'UTCTimes in a list, in 22 SETs, indefinite', listed(22, [plain(UTC_TIME)], b'\x17\x0d960229235959Z', 10)


def deep():
    """Tables with messages of type 0 whose reading goes deep: SETs of four tags in each other, with a chain of CHOICEs at the bottom."""
    around = [model.identifier(c, True, n) for c, n in LONG_TAGS]

    def nested(sets, last, m):
        for _ in range(sets):
            for i in reversed(around):
                m = item(i, m)
        return [(SET, LONG_TAGS, [(s + 1, 0)] if s + 1 < sets else last) for s in range(sets)], m
    sets, n = 23, RECORDS - 23 - 2
    records, m = nested(sets, [(sets + 1, 1), (sets, 0)], b'\5\0')
    yield '23 SETs of four tags, the last with %d nested CHOICEs before its NULL' % n, (records + [plain(NULL)] + chain(sets + 1, n), m)
    sets, n = 24, RECORDS - 24 - 1
    records, m = nested(sets, [(sets, 0)], b'\1\1\0')
    yield '24 SETs of four tags, the last with a BOOLEAN under %d CHOICEs' % n, (records + chain(sets, n), m)


def main():
    folder = sys.argv[1]
    os.makedirs(folder, exist_ok=True)
    names = open(os.path.join(folder, 'list'), 'w')

    def keep(group, name, words, op, table, data, t=0):
        with open(os.path.join(folder, name), 'wb') as f:
            f.write(ours.case(op, t, table, data))
        names.write('%s\t%s\t%s\n' % (group, name, words))

    def put(group, name, words, op, records, data):
        keep(group, name, words, op, make.rendered(records), data)

    tree = batch(20)
    m = model.form(BATCH, 0, tree)
    put('batch', 'check', 'the batch', ours.CHECK, BATCH, b'')
    put('batch', 'definite', 'the batch', ours.READ, BATCH, m)
    put('batch', 'indefinite', 'the batch', ours.READ, BATCH, indefinite(make.items(m)))
    put('batch', 'value', 'the batch', ours.WRITE, BATCH, model.octets(tree))
    for n in (1, 3, 7, 14, 28, 56, 112, 141):
        tree = batch(n, False)
        m = model.form(BATCH, 0, tree)
        put('growth', 'read-%d' % n, '%d' % len(m), ours.READ, BATCH, m)
        put('growth', 'write-%d' % n, '%d' % len(m), ours.WRITE, BATCH, model.octets(tree))
    for i, (kind, segment, sets, words) in enumerate(strings()):
        for half in (2, 1):
            put('growth', 'segments-%d-%d' % (i, half), words, ours.READ, *string(kind, segment, sets, MESSAGE // half))
    for kind, words in ((UTC_TIME, 'UTCTimes'), (GENERALIZED_TIME, 'GeneralizedTimes')):
        for half in (2, 1):
            records, tree = times(kind, MESSAGE // half)
            put('growth', 'times-read-%d-%d' % (kind, half), '%d %s' % (len(tree[1]), words), ours.READ, records, model.form(records, 0, tree))
            put('growth', 'times-write-%d-%d' % (kind, half), '%d %s' % (len(tree[1]), words), ours.WRITE, records, model.octets(tree))
    for i, (words, first, second) in enumerate(pairs()):
        keep('pairs', 'order-%d' % i, words, ORDER, first, second)
        keep('pairs', 'seconds-%d' % i, words, SECONDS, first, second)
    for i, (op, version, words, time) in enumerate(centuries()):
        keep('centuries', 'century-%d' % i, words, op, b'', time, version)
    for i, (words, records) in enumerate(tables()):
        put('worst', 'table-%d' % i, words, ours.CHECK, records, b'')
    for group, some in (('worst', messages()), ('deep', deep())):
        for i, (words, (records, m)) in enumerate(some):
            put(group, '%s-read-%d' % (group, i), words, ours.READ, records, m)
            a = model.read(make.rendered(records), 0, m)
            if a[0] == 'ok':
                put(group, '%s-write-%d' % (group, i), words, ours.WRITE, records, a[1])
    names.close()


if __name__ == '__main__':
    main()
