"""Compares the program of cases with Erlang/OTP's asn1 and with pyasn1, both ways, on random tables, values and messages; its reading
of strings in segments and of times, sound and damaged, with the model; its reading of integers with Python's; and the archive's order of
times with Python's datetime, its centuries with OpenSSL's. Messages one after another are cut where both coders cut them.

Each disagreement is either one of EXPLAINED, where the outside coder departs from X.690 or from document 01's limits, or it is
printed with its octets and the run fails."""
import argparse
import collections
import os
import random
import shutil
import struct
import sys
import tempfile

import centuries
import dates
import erlang
import integers
import make
import model
import ours
import python_asn1
import segments

# Rules that the outside coders do not keep (the model reads without the rule and finds their value), by coder.
LAX = {
    'erlang': {
        'spare octets': 'INTEGER or ENUMERATED contents with more octets than needed are read (X.690, 8.3.2)',
        'wide integer': 'INTEGER contents of more than 8 octets are read: no limit',
        'no octet': 'an INTEGER, ENUMERATED (or, by pyasn1, BOOLEAN) without contents octets is read as 0 (X.690, 8.3.1)',
        'long tag': 'a number to 30 in the long form, or leading zero digits, is read (X.690, 8.1.2.2 and 8.1.2.4.2 c)',
        'level': 'more than 24 levels are read: no limit',
        'any parts': 'a string is joined of whatever items are in it, of any tags and depth, and of several under an explicit tag; none are '
                     'refused; of a BIT STRING the unused bits of all are added up, and those nested in another are joined wrongly '
                     '(X.690, 8.6.4 and 8.7.3)',
        'no members': 'nothing inside a SEQUENCE or SET without members is looked at, nor its form bit, nor what follows it under an explicit tag',
        'unused bits': 'a BIT STRING with more than 7 unused bits is read (X.690, 8.6.2.2)',
        'any characters': 'a time is read whatever its characters are (FORMATS: 25)',
        'time in segments': 'a time is read in segments too, joined as a string is (X.690, 8.25; FORMATS: 24)',
        'long field': 'a length with more than four octets behind the first is read (FORMATS: 29)',
    },
    'pyasn1': {
        'spare octets': 'INTEGER or ENUMERATED contents with more octets than needed are read (X.690, 8.3.2)',
        'wide integer': 'INTEGER contents of more than 8 octets are read: no limit',
        'no octet': 'an INTEGER, ENUMERATED (or, by pyasn1, BOOLEAN) without contents octets is read as 0 (X.690, 8.3.1)',
        'long tag': 'a number to 30 in the long form, or leading zero digits, is read (X.690, 8.1.2.2 and 8.1.2.4.2 c)',
        'raw parts': 'in a string in segments the contents of a constructed one are taken for octets of the string, but read if they are of '
                     'an OCTET STRING and indefinite; any tag that is not UNIVERSAL passes for that; each may have unused bits; a BIT STRING '
                     'of no segments is refused if it is definite (X.690, 8.6.4 and 8.7.3)',
        'indefinite primitive': 'a primitive string or time with an indefinite length is read (X.690, 8.1.3.2 a)',
        'form bit': 'the tag of a CHOICE without the constructed bit is read (X.690, 8.14.2)',
        'untyped items': 'items inside a SEQUENCE or SET without members are read, whatever they are, and left out of the value (X.690, 8.9 and '
                         '8.11)',
        'repeated member': 'a SET member that comes twice is read, the later one counts (X.690, 8.11)',
        'wide boolean': 'BOOLEAN contents of any number of octets are read (X.690, 8.2.1)',
        'unlisted number': 'an ENUMERATED number that is not listed is read (document 01: 25)',
        'any ASCII': 'a time is read whatever its characters are, up to 7F (FORMATS: 25)',
        'long field': 'a length with more than four octets behind the first is read (FORMATS: 29); from 0.5 on not with more than eight',
        'time in segments': 'a time is read in segments too, which have its own number, not 4 as those that the encoder writes (X.690, 8.25; '
                            'FORMATS: 24)',
        **({'octets behind': 'what stands behind the item in an explicit tag of definite length is not looked at (X.690, 8.14.2)'}
           if python_asn1.OLD else
           {'several items': 'an explicit tag of indefinite length may hold several items, or none',
            'no item': 'tags of indefinite length around nothing, awaited or not, are read as a NULL or as a SEQUENCE or SET without members'}),
    },
}


# An example of each departure: coder, rule, table, type, message, our answer, and whether the coder accepts, or the value that it reads. A
# run fails if one no longer holds, so that this list stays true when a coder changes. pyasn1 was written anew in its version 0.5.
INTEGERS = '54 59 02 01 00 00 02'
STRINGS = '54 59 04 01 00 00 04'
BITS = '54 59 03 01 00 00 03'
UTC = '54 59 17 01 00 00 17'
GENERALIZED = '54 59 18 01 00 00 18'
NEW_YEAR = '56 41 17 00 63 01 01 00 00 00'
TAGGED = '54 59 01 02 02 00 00 00 00 01'
ENUM = '54 59 0A 01 00 00 0A 03 00 00 00 01 00 02'
NESTED = '54 59 30 01 00 00 10 00'
EMPTY = '54 59 10 01 00 00 10 00'
PINS = [
    ('both', 'spare octets', INTEGERS, 0, '02 02 00 7F', ('no', 25, 0), True),
    ('both', 'spare octets', ENUM, 0, '0A 02 00 01', ('no', 25, 0), True),
    ('both', 'wide integer', INTEGERS, 0, '02 09 01 00 00 00 00 00 00 00 00', ('no', 25, 0), True),
    ('both', 'no octet', INTEGERS, 0, '02 00', ('no', 25, 0), True),
    ('both', 'long tag', INTEGERS, 0, '1F 02 01 05', ('no', 23, 0), True),
    ('erlang', 'any parts', '54 59 04 02 02 00 00 00 00 04', 0, 'A0 06 04 01 AA 04 01 BB', ('no', 26, 5), True),
    ('erlang', 'any parts', STRINGS, 0, '24 03 80 01 AA', ('no', 24, 2), True),
    ('erlang', 'any parts', STRINGS, 0, '24 00', ('ok', b'\x56\x41\x04\0\0'), False),
    ('erlang', 'any parts', BITS, 0, '23 80 00 00', ('ok', b'\x56\x41\x03\0\0'), False),
    ('erlang', 'any parts', BITS, 0, '23 0C 23 04 03 02 00 AA 23 04 03 02 00 BB', ('ok', b'\x56\x41\x03\0\x10\xAA\xBB'),
     '56 41 03 00 18 AA 00 BB'),
    ('erlang', 'any parts', BITS, 0, '23 08 03 02 04 F0 03 02 04 A0', ('no', 25, 2), '56 41 03 00 08 F0'),
    ('both', 'any parts, raw parts: depth', STRINGS, 0, '24 80 ' * 6 + '04 01 AA ' + '00 00 ' * 6, ('no', 28, 10), True),
    ('both', 'any parts, raw parts: unused bits', BITS, 0, '23 08 03 02 04 F0 03 02 00 AA', ('no', 25, 2), True),
    ('pyasn1', 'raw parts', STRINGS, 0, '24 03 24 01 AA', ('no', 24, 4), True),
    ('pyasn1', 'raw parts', STRINGS, 0, '24 05 24 03 04 01 AA', ('ok', b'\x56\x41\x04\0\1\xAA'), '56 41 04 00 03 04 01 AA'),
    ('pyasn1', 'raw parts', BITS, 0, '23 08 03 02 04 F0 03 02 04 A0', ('no', 25, 2), '56 41 03 00 08 FA'),
    ('pyasn1', 'raw parts', STRINGS, 0, '24 05 A5 03 04 01 AA', ('no', 24, 2), True),
    ('pyasn1', 'raw parts', STRINGS, 0, '24 80 04 80 00 00 00 00', ('no', 23, 2), True),
    ('pyasn1', 'raw parts', BITS, 0, '23 00', ('ok', b'\x56\x41\x03\0\0'), False),
    ('pyasn1', 'raw parts', BITS, 0, '23 80 23 80 03 02 00 AA 00 00 00 00', ('ok', b'\x56\x41\x03\0\x08\xAA'), False),
    ('both', 'any characters, any ASCII', UTC, 0, '17 0D 39 39 30 32 32 39 30 30 30 30 30 30 5A', ('no', 25, 0), True),
    ('both', 'any characters, any ASCII', UTC, 0, '17 00', ('no', 25, 0), True),
    ('both', 'any characters, any ASCII', GENERALIZED, 0, '18 0F ' + '32 ' * 14 + '7A', ('no', 25, 0), True),
    ('erlang', 'any characters', GENERALIZED, 0, '18 01 FF', ('no', 25, 0), True),
    ('pyasn1', 'any ASCII', GENERALIZED, 0, '18 01 FF', ('no', 25, 0), False),
    ('erlang', 'time in segments', UTC, 0, '37 11 04 06 39 39 30 31 30 31 04 07 30 30 30 30 30 30 5A', ('no', 24, 0), NEW_YEAR),
    ('pyasn1', 'time in segments', UTC, 0, '37 11 04 06 39 39 30 31 30 31 04 07 30 30 30 30 30 30 5A', ('no', 24, 0), False),
    ('both', 'time in segments', UTC, 0, '37 11 17 06 39 39 30 31 30 31 17 07 30 30 30 30 30 30 5A', ('no', 24, 0), NEW_YEAR),
    ('pyasn1', 'indefinite primitive', UTC, 0, '17 80 17 0D 39 39 30 31 30 31 30 30 30 30 30 30 5A 00 00', ('no', 23, 0), NEW_YEAR),
    ('erlang', 'level', NESTED, 0, '30 80 ' * 25 + '00 00 ' * 25, ('no', 28, 48), True),
    ('erlang', 'unused bits', BITS, 0, '03 02 08 FF', ('no', 25, 0), True),
    ('erlang', 'no members', EMPTY, 0, '30 02 00 00', ('no', 26, 2), True),
    ('erlang', 'no members', EMPTY, 0, '10 00', ('no', 24, 0), True),
    ('erlang', 'numbers over 16,383', '54 59 05 01 02 40 00', 0, '9F 81 80 00 00', ('ok',), False),
    ('pyasn1', 'untyped items', EMPTY, 0, '30 02 05 00', ('no', 26, 2), '56 41 10 00'),
    ('pyasn1', 'untyped items', '54 59 10 01 02 00 80 00', 0, 'BF 81 00 02 14 00', ('no', 26, 4), '56 41 10 00'),
    ('pyasn1', 'untyped items', EMPTY, 0, '30 80 02 01 05 00 00', ('no', 26, 2), '56 41 10 00'),
    ('pyasn1', 'unlisted number', ENUM, 0, '0A 01 03', ('no', 25, 0), True),
    ('pyasn1', 'wide boolean', '54 59 01 01 00 00 01', 0, '01 02 00 FF', ('no', 25, 0), True),
    ('pyasn1', 'indefinite primitive', STRINGS, 0, '04 80 00 00', ('no', 23, 0), True),
    ('pyasn1', 'form bit', '54 59 32 01 02 00 00 01 01 54 59 01 01 00 00 01', 0, '80 03 01 01 FF', ('no', 24, 0), True),
    ('pyasn1 from 0.5', 'several items', TAGGED, 0, 'A0 80 01 01 00 01 01 FF 00 00', ('no', 26, 5), True),
    ('pyasn1 from 0.5', 'several items', '54 59 05 02 02 00 00 00 00 05', 0, 'A0 80 00 00', ('no', 24, 2), True),
    ('pyasn1 from 0.5', 'no item', EMPTY, 0, 'A5 80 00 00', ('no', 24, 0), True),
    ('pyasn1 before 0.5', 'octets behind', TAGGED, 0, 'A0 06 01 01 00 01 01 FF', ('no', 26, 5), True),
    ('pyasn1', 'repeated member', '54 59 11 01 00 00 11 01 01 00 54 59 05 01 00 00 05', 0, '31 04 05 00 05 00', ('no', 26, 4), True),
    ('both', 'long field', STRINGS, 0, '04 85 00 00 00 00 01 55', ('no', 29, 0), True),
    ('both', 'long field', STRINGS, 0, '24 80 04 88 00 00 00 00 00 00 00 01 55 00 00', ('no', 29, 2), True),
    ('erlang', 'long field', STRINGS, 0, '04 FE ' + '00 ' * 125 + '01 55', ('no', 29, 0), True),
    ('pyasn1 from 0.5', 'long field: more than 8 length octets', STRINGS, 0, '04 89 00 00 00 00 00 00 00 00 01 55', ('no', 29, 0), False),
    ('pyasn1 from 0.5', 'an empty item of indefinite length in a CHOICE', '54 59 32 00 01 01 ' + EMPTY, 0, '30 80 00 00', ('ok',), False),
    ('pyasn1 from 0.5', 'a mandatory CHOICE that is left out', '54 59 10 01 00 00 10 01 01 00 54 59 32 00 01 02 54 59 01 01 00 00 01', 0,
     '30 04 01 80 00 00', ('no', 23, 2), True),
    ('pyasn1', 'a SET of indefinite length, last member first',
     '54 59 11 01 00 00 11 02 01 00 02 00 54 59 05 01 02 00 00 54 59 05 01 02 00 01', 0, '31 80 81 00 80 00 00 00', ('ok',), False),
]


class Tally:
    def __init__(self, out):
        self.counts, self.faults, self.out = collections.Counter(), 0, out

    def add(self, what, n=1):
        self.counts[what] += n

    def fault(self, what, table, t, octets, we, they):
        self.faults += 1
        self.add('DISAGREEMENT ' + what)
        if self.counts['DISAGREEMENT ' + what] <= 5:
            print('DISAGREEMENT %s\n  table %s type %d\n  octets %s\n  we %s\n  they %s' %
                  (what, table.hex(' '), t, octets.hex(' '), shown(we), shown(they)), file=self.out)


def shown(a):
    return ' '.join(x.hex(' ') if isinstance(x, bytes) else str(x) for x in a)


def same(we, tree):
    """Whether we read a tree; an outside coder may give numbers that no value has."""
    if we[0] != 'ok':
        return False
    try:
        return we[1] == model.octets(tree)
    except (OverflowError, ValueError, struct.error):
        return False


def lax_reading(coder, table, t, m, tree):
    """The rules without which the model reads a message to the tree that an outside coder gives, or refuses it if that is None."""
    used = set()
    try:
        mine = model.read_tree(model.check(table), t, m, LAX[coder], used)
    except model.No:
        mine = None
    return used if mine == tree else None


def time_in_segments(table, t, m, tree):
    """Whether a message has times in segments, as X.690 has them, and is otherwise that tree, but for spare octets of an INTEGER."""
    used = set()
    try:
        return model.read_tree(model.check(table), t, m, {'time in segments', 'spare octets'}, used) == tree and 'time in segments' in used
    except model.No:
        return False


def unsegmented(coder, t, tree):
    """What pyasn1 reads of what it writes for a tree without segments: it may send an absent optional member."""
    return coder.decode(t, coder.encode(t, tree, True)[1])[1]


def lacking(records, t, tree):
    """Whether a tree lacks a mandatory member."""
    kind, own = tree
    rules = records[t][2]
    if kind in model.MEMBERS:
        return any(not optional if c is None else lacking(records, a, c) for (a, optional), c in zip(rules, own))
    if kind in model.LISTS:
        return any(lacking(records, rules[0], c) for c in own)
    return kind == model.CHOICE and lacking(records, rules[own[0]], own[1])


def judged(coder, tally, table, t, m, we, they, damaged):
    """Compares two readings of a message: ours, and ('ok', tree), ('rest', ..) or ('error', ..)."""
    what = coder + (' and we read a damaged message: ' if damaged else ' and we read a permitted encoding in segments: '
                    if segments.in_segments(model.check(table), t, m) else ' and we read a permitted encoding: ')
    if they[0] == 'ok' and same(we, they[1]):
        return tally.add(what + 'same value')
    if we[0] == 'no' and they[0] != 'ok':
        return tally.add(what + 'both refuse')
    used = lax_reading(coder, table, t, m, they[1] if they[0] == 'ok' else None)
    if used and (we[0] == 'no' or used & {'any parts', 'raw parts'}):
        return tally.add(what + ('explained: ' if we[0] == 'no' else 'other value, explained: ' if they[0] == 'ok' else
                                 'refused by them, explained: ') + ', '.join(sorted(used)))
    if we[0] == 'no':
        if coder == 'pyasn1' and lacking(model.check(table), t, they[1]):
            return tally.add(what + 'explained: read by them without a mandatory CHOICE, where an empty item of indefinite length is chosen')
    if we[0] == 'ok' and coder == 'pyasn1' and 'Component not chosen' in str(they[1]):
        return tally.add(what + 'explained: refused by them, an empty item of indefinite length chosen in a CHOICE')
    tally.fault(what + ('other value' if we[0] == they[0] == 'ok' else 'refused by ' + ('us' if we[0] == 'no' else 'them')),
                table, t, m, we, they)


# So many octets each coder reads behind a first length octet.
WIDEST = {'erlang': 126, 'pyasn1': 8}


def over_field(coder, tally, table, t, m, we, they, tree):
    """Compares readings of a message with longer length fields than FORMATS allows: the coder reads it, and we refuse it where the model does."""
    what = coder + ' reads longer length fields: '
    if they != ('ok', tree):
        tally.fault(what + 'refused', table, t, m, we, they)
    elif we != model.read(table, t, m):
        tally.fault(what + 'we and the model', table, t, m, we, model.read(table, t, m))
    else:
        tally.add(what + ('same value, none is over four octets' if we[0] == 'ok' else 'we refuse, no %d, same place as the model' % we[1]))


def lines(work):
    """Messages of one type one after another: of each value, the next one of its type (or it again), and it; and these without the first."""
    for at, (i, t, tree, sent, wide, bad) in enumerate(work):
        after = work[at + 1][3] if at + 1 < len(work) and work[at + 1][:2] == (i, t) else sent
        parts = [sent[0][0], after[1][0], sent[2][0]]
        if sum(map(len, parts)) <= model.MESSAGE:
            yield i, t, parts
            yield i, t, parts[1:]


def cut(coder, tally, table, t, parts, we, they):
    """Compares where a line is cut: by us, who say 26 where the first message ends, and by the coder, which gives back what it leaves."""
    if we == ('no', 26, len(parts[0])) and they == ('rest', b''.join(parts[1:])):
        tally.add(coder + ' and we cut a line: same place')
    else:
        tally.fault(coder + ' and we cut a line: elsewhere', table, t, b''.join(parts), we, they)


def plan(R, tables, takes, recursive, values, coder):
    """Tables, and for each value (table index, type, tree) its permitted encodings, one with longer length fields, and damaged messages."""
    made, work = [], []
    while len(made) < tables:
        b, records = make.table(R, recursive)
        if not takes(records):
            continue
        h = model.heights(records)
        for t in range(len(records)):
            if h[t] > model.LEVELS:
                continue
            for _ in range(values):
                tree = make.value(R, records, t, min(model.LEVELS, h[t] + R.choice([0, 1, 2, 3, 5])), h)
                if len(model.octets(tree)) > 4000:
                    continue
                sent = [make.encoding(R, records, t, tree, coder) for _ in range(3)]
                bad = [make.damaged(R, R.choice(sent)[0]) for _ in range(2)]
                bad += [make.faulty(R, model.form(records, t, tree)) for _ in range(4)]
                work.append((len(made), t, tree, sent, make.over_field(R, records, t, tree, coder, WIDEST[coder]), bad))
        made.append((b, records))
    return made, work


def write_all(command, made, work, tally):
    """What we write for each value; the model is asked too, and a refusal is a fault."""
    answers = ours.run(command, [(ours.WRITE, t, made[i][0], model.octets(tree)) for i, t, tree, _, _, _ in work])
    for (i, t, tree, _, _, _), a in zip(work, answers):
        if a[0] != 'ok':
            tally.fault('we refuse to write a value', made[i][0], t, model.octets(tree), a, ('ok', tree))
    return answers


def verdicts(args, R, tally):
    """Compares our check of small tables with the model's; no outside coder says where a table is wrong."""
    tables = [make.rendered(make.small_table(R)) for _ in range(100 * args.tables)]
    for b, we in zip(tables, ours.run(args.ours, [(ours.CHECK, 0, b, b'') for b in tables])):
        they = model.checked(b)
        if we[0] == they[0] == 'ok' or we == they:
            tally.add('we and the model check a table: %s' % ('passes' if we[0] == 'ok' else 'no %d' % we[1]))
        else:
            tally.fault('we and the model check a table', b, 0, b'', we, they)


def in_segments(args, R, tally):
    """Compares our reading of strings in segments with the model's, with the place of each refusal."""
    segments.compare(args.ours, R, args.messages, tally.add, lambda what, table, m, we, they: tally.fault(what, table, 0, m, we, they))


def times(args, R, tally):
    """Compares our reading and writing of times with the model's, and order, seconds and centuries, if there is an archive, with datetime, OpenSSL and the model."""
    dates.compare(args.ours, R, args.messages // 3, tally.add, lambda what, table, m, we, they: tally.fault(what, table, 0, m, we, they))
    if os.path.exists(dates.ARCHIVE):
        dates.compare_pairs(dates.built(dates.ARCHIVE), R, 100000, tally.add, lambda what, a, b, we, they: tally.fault(what, a, 0, b, we, they))
        centuries.compare(centuries.built(dates.ARCHIVE), R, 100000, tally.add,
                          lambda what, v, version, room, we, they: tally.fault('%s, version %d, room %d' % (what, version, room), b'', 0, v, we, they))
    else:
        print('order, seconds and centuries are left out: no archive')


def signs(args, R, tally):
    """Compares our reading of integers with Python's, with every first octet."""
    integers.compare(args.ours, R, tally.add, lambda what, table, m, we, they: tally.fault(what, table, 0, m, we, they))


def with_erlang(args, R, tally):
    folder = args.keep or tempfile.mkdtemp()
    made, work = plan(R, args.tables, erlang.takes, True, args.values, 'erlang')
    written = write_all(args.ours, made, work, tally)
    requests, marks = [], []
    for (i, t, tree, sent, wide, bad), w in zip(work, written):
        name = 'M%d' % i
        requests.append(('enc', name, t, erlang.term(tree)))
        marks.append(('enc', i, t, tree, None))
        if w[0] == 'ok':
            requests.append(('dec', name, t, w[1].hex()))
            marks.append(('ours', i, t, tree, w[1]))
        for m, arrived in sent:
            requests.append(('dec', name, t, m.hex()))
            marks.append(('sent', i, t, arrived, m))
        requests.append(('dec', name, t, wide[0].hex()))
        marks.append(('wide', i, t, wide[1], wide[0]))
        for m in bad:
            requests.append(('dec', name, t, m.hex()))
            marks.append(('bad', i, t, None, m))
    for i, t, parts in lines(work):
        requests.append(('dec', 'M%d' % i, t, b''.join(parts).hex()))
        marks.append(('line', i, t, parts, b''.join(parts)))
    answers, said = erlang.run(folder, [('M%d' % i, records) for i, (_, records) in enumerate(made)], requests)
    version = said.strip().split('\n')[-1]
    assert 'not compiled' not in said, said
    reads, compared, stored, at = [], [], [], 0
    for (kind, i, t, tree, m), a in zip(marks, answers):
        table, records = made[i]
        word, _, rest = a.partition(' ')
        if kind == 'enc':
            if word != 'ok':
                tally.fault('erlang refuses to write', table, t, model.octets(tree), ('ok', tree), (word,))
                at += 1
                continue
            m = bytes.fromhex(rest)
            if written[at] == ('ok', m):
                tally.add('erlang writes, we write: same octets')
                stored.append(('write', t, table, model.octets(tree), ('ok', m)))
            else:
                tally.fault('erlang writes other octets', table, t, m, written[at], ('ok', m))
            at += 1
            reads.append((ours.READ, t, table, m))
            compared.append(('erlang writes, we read: ', tree, None))
            if len(m) < 4000:
                m = make.relengthened(R, m)
                if len(m) <= model.MESSAGE:
                    reads.append((ours.READ, t, table, m))
                    compared.append(('erlang writes, lengths are changed, we read: ', tree, None))
            continue
        they = ('ok', erlang.parsed(records, t, rest)) if word == 'ok' else (word, bytes.fromhex(rest))
        if kind == 'ours':
            if they == ('ok', tree):
                tally.add('we write, erlang reads: same value')
            else:
                tally.fault('we write, erlang reads', table, t, m, ('ok', tree), they)
            continue
        if len(m) > model.MESSAGE:
            continue
        reads.append((ours.READ, t, table, m))
        compared.append((kind, tree, they))
    for (op, t, table, m), (kind, tree, they), we in zip(reads, compared, ours.run(args.ours, reads)):
        if kind == 'line':
            cut('erlang', tally, table, t, tree, we, they)
        elif kind == 'wide':
            over_field('erlang', tally, table, t, m, we, they, tree)
            stored.append(('read', t, table, m, we))
        elif kind in ('sent', 'bad'):
            if kind == 'sent' and they != ('ok', tree):
                tally.fault('erlang reads a permitted encoding', table, t, m, ('ok', tree), they)
            judged('erlang', tally, table, t, m, we, they, kind == 'bad')
            if they[0] == 'ok' and same(we, they[1]):
                stored.append(('read', t, table, m, ('ok', model.octets(they[1]))))
            elif they[0] != 'ok' and we[0] == 'no':
                stored.append(('read', t, table, m, we))
        elif we == ('ok', model.octets(tree)):
            tally.add(kind + 'same value')
        else:
            tally.fault(kind, table, t, m, we, ('ok', tree))
    if not args.keep:
        shutil.rmtree(folder)
    return version, stored


def record(R, path, version, stored, seed):
    """Stores cases with the outside coder's answers: most writes and messages that it reads, and some that both refuse.

    The number and the place of a refusal are the documents', since no outside coder gives them; 29 is of messages that it reads."""
    seen, table, out = set(), None, []
    for op, t, b, data, a in sorted(stored, key=lambda s: s[2]):
        small = len(b) <= 200 and len(data) <= 200
        if (op, t, b, data) in seen or not (small or R.random() < .05) or R.random() < (.2 if a[0] == 'ok' or a[1] == 29 else .8):
            continue
        seen.add((op, t, b, data))
        if b != table:
            out.append('table ' + b.hex())
            table = b
        out.append('%s %d %s %s' % (op, t, data.hex() or '-', 'ok ' + a[1].hex() if a[0] == 'ok' else 'no %d %d' % a[1:]))
    with open(path, 'w') as f:
        f.write('# Recorded from Erlang/OTP\'s asn1, BER: %s; seed %d. After each table: operation, type, data, answer.\n' % (version, seed))
        f.write('# Octets that are answered are what that coder wrote or read; a refusal is one that it refuses too, with the documents\' number; but it '
                'reads what is refused by 29.\n')
        f.write('\n'.join(out) + '\n')


def with_pyasn1(args, R, tally):
    made, work = plan(R, args.tables, lambda records: True, False, args.values, 'pyasn1')
    coders = [python_asn1.Coder(records) for _, records in made]
    written = write_all(args.ours, made, work, tally)
    reads, compared = [], []
    for (i, t, tree, sent, wide, bad), w in zip(work, written):
        coder, (table, records) = coders[i], made[i]
        if w[0] == 'ok':
            they = coder.decode(t, w[1])
            if they == ('ok', tree):
                tally.add('we write, pyasn1 reads: same value')
            else:
                tally.fault('we write, pyasn1 reads', table, t, w[1], ('ok', tree), they)
        said = set()
        for definite, chunk in ((True, 0), (False, 0), (True, R.choice([1, 2, 3])), (False, R.choice([1, 2, 3]))):
            if not definite and any(len(tags) > 1 for kind, tags, _ in records if kind in make.SIMPLE):
                tally.add('pyasn1 writes indefinite lengths: left out, explicit tags on a primitive')
                continue
            they = coder.encode(t, tree, definite, chunk)
            if chunk and they in said:
                tally.add('pyasn1 writes strings in segments: none is long enough')
                continue
            said.add(they)
            if they[0] == 'ok' and len(they[1]) <= model.MESSAGE:
                reads.append((ours.READ, t, table, they[1]))
                compared.append(('segments' if chunk else 'enc', tree, coder))
            elif they[0] == 'ok':
                tally.add('pyasn1 writes strings in segments: left out, over 8,192 octets')
            else:
                tally.fault('pyasn1 refuses to write', table, t, model.octets(tree), ('ok', tree), they)
        for m, arrived in sent:
            reads.append((ours.READ, t, table, m))
            compared.append(('sent', arrived, coder.decode(t, m)))
        reads.append((ours.READ, t, table, wide[0]))
        compared.append(('wide', wide[1], coder.decode(t, wide[0])))
        for m in bad:
            reads.append((ours.READ, t, table, m))
            compared.append(('bad', None, coder.decode(t, m)))
    for i, t, parts in lines(work):
        reads.append((ours.READ, t, made[i][0], b''.join(parts)))
        compared.append(('line', parts, coders[i].decode(t, b''.join(parts))))
    for (op, t, table, m), (kind, tree, they), we in zip(reads, compared, ours.run(args.ours, reads)):
        how = 'pyasn1 writes strings in segments' if kind == 'segments' else 'pyasn1 writes'
        if kind == 'line':
            cut('pyasn1', tally, table, t, tree, we, they)
        elif kind == 'wide':
            over_field('pyasn1', tally, table, t, m, we, they, tree)
        elif kind in ('sent', 'bad'):
            if kind == 'sent' and they != ('ok', tree):
                tally.fault('pyasn1 reads a permitted encoding', table, t, m, ('ok', tree), they)
            judged('pyasn1', tally, table, t, m, we, they, kind == 'bad')
        elif we == ('ok', model.octets(tree)):
            tally.add(how + ', we read: same value')
        elif kind == 'segments' and we[0] == 'no' and time_in_segments(table, t, m, unsegmented(they, t, tree)):
            tally.add(how + ', we refuse: explained: a time in segments (X.690, 8.25; FORMATS: 24)')
        elif lax_reading('pyasn1', table, t, m, tree) == {'spare octets'}:
            tally.add(how + ', we refuse: explained: spare octets of a negative INTEGER')
        else:
            back = they.decode(t, m)
            if back[0] == 'ok' and (same(we, back[1]) or lax_reading('pyasn1', table, t, m, back[1]) == {'spare octets'}):
                tally.add(how + ', another value: explained: an absent optional member is sent')
            else:
                tally.fault(how + ', we read', table, t, m, we, ('ok', tree))
    return 'pyasn1 ' + python_asn1.VERSION


def as_pinned(they, accepts):
    if isinstance(accepts, str):
        return they[0] == 'ok' and model.octets(they[1]) == bytes.fromhex(accepts)
    return (they[0] == 'ok') == accepts


def pinned(args, tally):
    """Each departure of the list still holds."""
    rows = [(coder, rule, bytes.fromhex(table), t, bytes.fromhex(m), answer, accepts) for coder, rule, table, t, m, answer, accepts in PINS]
    we = ours.run(args.ours, [(ours.READ, t, table, m) for _, _, table, t, m, _, _ in rows])
    folder = tempfile.mkdtemp()
    said = erlang.run(folder, [('P%d' % i, model.check(row[2])) for i, row in enumerate(rows)],
                      [('dec', 'P%d' % i, row[3], row[4].hex()) for i, row in enumerate(rows)])[0]
    shutil.rmtree(folder)
    for (coder, rule, table, t, m, answer, accepts), mine, theirs in zip(rows, we, said):
        if mine[:len(answer)] != answer:
            tally.fault('pinned, ' + rule, table, t, m, mine, answer)
        if coder in ('erlang', 'both'):
            they = ('ok', erlang.parsed(model.check(table), t, theirs[3:])) if theirs.startswith('ok') else (theirs,)
            if not as_pinned(they, accepts):
                tally.fault('pinned, erlang, ' + rule, table, t, m, mine, they)
        if coder in ('pyasn1', 'both', 'pyasn1 before 0.5' if python_asn1.OLD else 'pyasn1 from 0.5'):
            they = python_asn1.Coder(model.check(table)).decode(t, m) if not make.circular(model.check(table)) else ('error', '')
            if not as_pinned(they, accepts):
                tally.fault('pinned, pyasn1, ' + rule, table, t, m, mine, they)
    tally.add('pinned departures of the outside coders hold', len(rows))


def main():
    here = os.path.dirname(os.path.abspath(__file__))
    p = argparse.ArgumentParser(description=__doc__)
    p.add_argument('--ours', default=os.path.join(here, '..', '..', 'cases'), help='a command that answers document 01\'s cases')
    p.add_argument('--seed', type=int, default=1)
    p.add_argument('--tables', type=int, default=200, help='tables for each coder')
    p.add_argument('--values', type=int, default=2, help='values of each type')
    p.add_argument('--messages', type=int, default=300, help='messages with strings in segments, and a third as many with times, each damaged '
                                                              'at every octet')
    p.add_argument('--keep', help='a folder for the ASN.1 modules and the requests')
    p.add_argument('--record', help='a file for cases with Erlang\'s answers; pyasn1 and the model are then left out')
    args = p.parse_args()
    tally = Tally(sys.stdout)
    R = random.Random(args.seed)
    pinned(args, tally)
    verdicts(args, random.Random(args.seed), tally)
    version, stored = with_erlang(args, R, tally)
    if args.record:
        record(R, args.record, version, stored, args.seed)
        versions = [version]
    else:
        versions = [version, with_pyasn1(args, R, tally)]
        in_segments(args, random.Random(args.seed), tally)
        times(args, random.Random(args.seed), tally)
        signs(args, random.Random(args.seed), tally)
    for what, n in sorted(tally.counts.items()):
        print('%7d %s' % (n, what))
    print('%s; ours: %s; seed %d' % ('; '.join(versions), os.path.basename(args.ours), args.seed))
    print('%d disagreements' % tally.faults)
    return 1 if tally.faults else 0


if __name__ == '__main__':
    sys.exit(main())
