"""Random tables that pass, values of their types, the encodings that X.690 permits for a value, and damaged messages."""
import struct

import model
from model import (BIT_STRING, BOOLEAN, CHOICE, CONSTRUCTED, DAYS, DEEPEST, ENUMERATED, GENERALIZED_TIME, INTEGER, LISTS, MEMBERS, NULL,
                   OCTET_STRING, OWN_NUMBER, SEQUENCE, SEQUENCE_OF, SET, SET_OF, STRINGS, TIMES, UTC_TIME)

SIMPLE = (BOOLEAN, INTEGER, BIT_STRING, OCTET_STRING, NULL, ENUMERATED, UTC_TIME, GENERALIZED_TIME)


def rendered(records):
    """The octets of a table."""
    out = b''
    for kind, tags, own in records:
        out += bytes([0x54, 0x59, kind, len(tags)]) + b''.join(struct.pack('>BH', c, n) for c, n in tags)
        if kind == ENUMERATED:
            out += bytes([len(own)]) + b''.join(struct.pack('>H', n) for n in own)
        elif kind in MEMBERS:
            out += bytes([len(own)]) + b''.join(bytes(m) for m in own)
        elif kind == CHOICE:
            out += bytes([len(own)] + own)
        elif kind in LISTS:
            out += bytes(own)
    return out


def tag(R):
    """A tag that is not UNIVERSAL, often small so that clashes are tried, sometimes at the edges of the long form."""
    return R.choice([1, 2, 2, 2, 3]), R.choice([R.randrange(12), R.randrange(12), 30, 31, 127, 128, 16383, 16384, 65535, R.randrange(65536)])


def any_table(R, recursive):
    n = R.choice([1, 2, 3, 4, 5, 6, 8, 12])
    records = []
    for i in range(n):
        kind = R.choice(SIMPLE + (SEQUENCE, SEQUENCE, SET, SET, SEQUENCE_OF, SET_OF, CHOICE, CHOICE) if i + 1 < n or recursive else SIMPLE)
        tags = [tag(R) for _ in range(R.choice([0, 0, 0, 1, 1, 2, 3]))]
        if kind == CHOICE:
            tags = tags if R.random() < .5 else []
        elif not tags or R.random() < .4:
            tags.append((0, OWN_NUMBER[kind]) if R.random() < .5 else tag(R))

        def other():
            if recursive and R.random() < .35:
                return R.randrange(n)
            return R.randrange(i + 1, n) if i + 1 < n else R.randrange(n)
        own = None
        if kind == ENUMERATED:
            own = sorted(R.sample(R.choice([range(4), range(300), range(65536)]), R.choice([1, 2, 3, 4])))
            if R.random() < .1:
                own = sorted(R.sample(range(65536), 32))
        elif kind in MEMBERS:
            own = [(other(), R.choice([0, 1])) for _ in range(R.choice([0, 1, 2, 3, 4, 5]))]
        elif kind in LISTS:
            own = [other()]
        elif kind == CHOICE:
            own = [other() for _ in range(R.choice([1, 2, 2, 3, 4]))]
        records.append((kind, tags, own))
    return records


def wide_table(R):
    """A SEQUENCE, SET or CHOICE with up to 16 members of simple kinds."""
    n = R.choice([8, 15, 16])
    kind = R.choice([SEQUENCE, SET, CHOICE])
    members = []
    for i in range(n):
        k = R.choice(SIMPLE)
        own = sorted(R.sample(range(65536), 3)) if k == ENUMERATED else None
        members.append((k, [(2, i)] if R.random() < .7 else [(2, i), (0, OWN_NUMBER[k])], own))
    own = [i + 1 for i in range(n)] if kind == CHOICE else [(i + 1, R.choice([0, 1, 1])) for i in range(n)]
    return [(kind, [] if kind == CHOICE else [(0, kind)], own)] + members


def repeating_table(R):
    """A SEQUENCE whose members are of few types, so that most first tags stand in several runs; one type may be a CHOICE without tags."""
    kinds = R.sample([k for k in SIMPLE if k != ENUMERATED], 3)
    types = [(k, [(0, OWN_NUMBER[k])], None) for k in kinds] + [(NULL, [(2, 0)], None), (CHOICE, [], R.sample(range(1, 5), R.choice([1, 2, 3])))]
    firsts = [{i + 1} for i in range(4)] + [set(types[4][2])]
    own, run, n = [], set(), R.choice([2, 3, 5, 8, 16])
    while len(own) < n:
        i = R.randrange(5)
        if not run & firsts[i]:
            own.append((i + 1, R.choice([0, 1])))
            run = run | firsts[i] if own[-1][1] else set()
        elif len(run) == 4:
            break
    return [(SEQUENCE, [(0, SEQUENCE)], own)] + types


def small_table(R):
    """A few records that name each other and share a few tags: most such tables are refused, by 4, 5 or 6."""
    n = R.randrange(2, 8)
    records = []
    for _ in range(n):
        kind = R.choice((BOOLEAN, INTEGER, NULL, UTC_TIME, GENERALIZED_TIME, SEQUENCE, SEQUENCE, SEQUENCE, SET, CHOICE, CHOICE, SEQUENCE_OF))
        tags = [(2, R.randrange(3))]
        if R.random() < .7:
            tags = [] if kind == CHOICE else [(0, OWN_NUMBER[kind])]
        own = None
        if kind in MEMBERS:
            own = [(R.randrange(n), R.choice([0, 1])) for _ in range(R.choice([0, 1, 2, 2, 3, 3, 4, 5, 8]))]
        elif kind == CHOICE:
            own = [R.randrange(n) for _ in range(R.choice([1, 1, 2, 2, 3]))]
        elif kind in LISTS:
            own = [R.randrange(n)]
        records.append((kind, tags, own))
    return records


def table(R, recursive=True):
    """The octets and the records of a random table that passes."""
    while True:
        p = R.random()
        records = wide_table(R) if p < .08 else repeating_table(R) if p < .2 else any_table(R, recursive)
        b = rendered(records)
        if model.checked(b)[0] == 'ok' and (recursive or not circular(records)):
            return b, records


def reached(records, i):
    """The records that a record reaches."""
    seen, todo = set(), list(model.named(records[i]))
    while todo:
        x = todo.pop()
        if x not in seen:
            seen.add(x)
            todo += model.named(records[x])
    return seen


def circular(records):
    """The records that can reach themselves."""
    return {i for i in range(len(records)) if i in reached(records, i)}


NUMBERS = [0, 1, -1, 127, 128, -128, -129, 255, 256, 32767, -32768, -32769, 2**31, -2**31, 2**55, -2**55, 2**63 - 1, -2**63]


YEARS = {UTC_TIME: [0, 1, 3, 4, 49, 50, 69, 70, 96, 99], GENERALIZED_TIME: [0, 1, 4, 99, 100, 400, 1582, 1900, 1970, 1999, 2000, 2100, 9999]}


def time(R, kind):
    """A time that there is, often at the edge of a day, a month or the years."""
    year = R.choice(YEARS[kind]) if R.random() < .5 else R.randrange(max(YEARS[kind]) + 1)
    month = R.choice([1, 2, 2, 12, R.randrange(1, 13)])
    last = DAYS[month - 1] + (1 if month == 2 and model.leap(kind, year) else 0)
    day = R.choice([1, last, last, R.randrange(1, last + 1)])
    clock = R.choice([(0, 0, 0), (23, 59, 59), (R.randrange(24), R.randrange(60), R.randrange(60))])
    return (year, month, day) + clock


def value(R, records, t, levels, h):
    """A random tree of a type within so many levels."""
    kind, _, own = records[t]
    if kind == BOOLEAN:
        return kind, R.randrange(2)
    if kind == INTEGER:
        return kind, R.choice(NUMBERS + [R.randrange(-2**63, 2**63), R.randrange(-70000, 70000)] * 4)
    if kind == BIT_STRING:
        n = R.choice([0, 1, 3, 7, 8, 9, 16, 17, 100])
        c = bytearray(R.randbytes((n + 7) // 8))
        spare = 8 * len(c) - n
        if c:
            c[-1] &= 0xFF << spare & 0xFF
        return kind, (spare, bytes(c))
    if kind == OCTET_STRING:
        return kind, R.randbytes(R.choice([0, 1, 5, 126, 127, 128, 255, 256, 300]) if R.random() < .15 else R.randrange(6))
    if kind == NULL:
        return kind, None
    if kind == ENUMERATED:
        return kind, R.choice(own)
    if kind in TIMES:
        return kind, time(R, kind)
    if kind in MEMBERS:
        return kind, [value(R, records, a, levels - 1, h) if not optional or (h[a] < levels and R.random() < .6) else None
                      for a, optional in own]
    if kind in LISTS:
        n = R.choice([0, 1, 1, 2, 3, 4]) if h[own[0]] < levels else 0
        return kind, [value(R, records, own[0], levels - 1, h) for _ in range(n)]
    j = R.choice([j for j, a in enumerate(own) if h[a] < levels])
    return kind, (j, value(R, records, own[j], levels - 1, h))


def length(R, n, most):
    """Any definite length: short, or long with 1 to `most` octets behind the first and leading zeros."""
    if n < 128 and R.random() < .5:
        return bytes([n])
    b = n.to_bytes((n.bit_length() + 7) // 8, 'big') or b'\0'
    spare = most - len(b)
    zeros = min(spare, R.choice([0, 0, 0, 1, 2, 5, R.randrange(spare + 1)])) if R.random() < .97 else spare
    return bytes([128 + zeros + len(b)]) + bytes(zeros) + b


def constructed(R, i, c, most, indefinite=.4):
    return i + b'\x80' + c + b'\0\0' if R.random() < indefinite else i + length(R, len(c), most) + c


def cut(R, c, parts, last):
    """So many parts of octets, some of them empty; the last is not if it must not be."""
    cuts = sorted(R.randrange(len(c)) if last else R.randrange(len(c) + 1) for _ in range(parts - 1))
    return [c[a:b] for a, b in zip([0] + cuts, cuts + [len(c)])]


def segments(R, kind, unused, c, depth, coder, most):
    """Segments of a string, the first of them at a depth: any that join to the octets c, of which the last has so many unused bits."""
    number = bytes([OWN_NUMBER[kind]])
    least = 1 if c or depth == 1 and coder and not (coder == 'pyasn1' and kind == OCTET_STRING) else 0
    deeper = depth < DEEPEST and not (coder and kind == BIT_STRING)
    parts = cut(R, c, R.choice([least, 1, 1, 2, 2, 3, 4]), unused > 0)
    out = b''
    for j, part in enumerate(parts):
        bits = unused if j + 1 == len(parts) else 0
        if deeper and R.random() < (.3 if coder else .6):
            inner = segments(R, kind, bits, part, depth + 1, coder, most)
            out += constructed(R, bytes([number[0] | 0x20]), inner, most, 1 if coder == 'pyasn1' else .4)
            continue
        if kind == BIT_STRING:
            part = bytes([bits]) + part
            if bits:
                part = part[:-1] + bytes([part[-1] >> bits << bits | R.randrange(1 << bits)])
        out += number + length(R, len(part), most) + part
    return out


def encoding(R, records, t, tree, coder=None, most=model.FIELD):
    """An encoding of a tree, and the tree with the elements of each SET OF in the order in which they are sent. At most so many octets stand
    behind a first length octet; by default as many as are permitted.

    One for a coder keeps to what that coder reads. For pyasn1: no SET and nothing empty of indefinite length; in a segment others only if its
    length is indefinite. For both: not without segments, and in a segment of a BIT STRING no other."""
    tame = coder == 'pyasn1'
    kind, own = tree
    explicit, mine = model.identifiers(records[t])
    rules = records[t][2]
    if kind == CHOICE:
        m, kid = encoding(R, records, rules[own[0]], own[1], coder, most)
        sent = own[0], kid
    elif kind in MEMBERS:
        parts = [(j,) + encoding(R, records, a, x, coder, most) for j, ((a, _), x) in enumerate(zip(rules, own)) if x is not None]
        sent = [None] * len(own)
        for j, _, kid in parts:
            sent[j] = kid
        if kind == SET:
            R.shuffle(parts)
        m = constructed(R, mine, b''.join(p for _, p, _ in parts), most, 0 if tame and (kind == SET or not parts) else .4)
    elif kind in LISTS:
        parts = [encoding(R, records, rules[0], x, coder, most) for x in own]
        if kind == SET_OF:
            R.shuffle(parts)
        sent = [kid for _, kid in parts]
        m = constructed(R, mine, b''.join(p for p, _ in parts), most, 0 if tame and not parts else .4)
    elif kind in STRINGS and R.random() < .4:
        unused, c = own if kind == BIT_STRING else (0, own)
        c, sent = segments(R, kind, unused, c, 1, coder, most), own
        m = constructed(R, bytes([mine[0] | 0x20]) + mine[1:], c, most, 0 if tame and not c else .4)
    else:
        c, sent = model.contents(kind, own), own
        if kind == BOOLEAN and own:
            c = bytes([R.randrange(1, 256)])
        if kind == BIT_STRING and own[1]:
            c = c[:-1] + bytes([c[-1] | R.randrange(1 << own[0])])
        m = mine + length(R, len(c), most) + c
    for i in reversed(explicit):
        m = constructed(R, i, m, most)
    return m, (kind, sent)


def over_field(R, records, t, tree, coder, most):
    """An encoding with a length in more octets than is permitted, if any of a dozen has one."""
    for _ in range(12):
        m, sent = encoding(R, records, t, tree, coder, most)
        if model.answer(lambda: model.read_tree(records, t, m))[:2] == ('no', 29):
            break
    return m, sent


def items(m):
    """The items of a definite message, found without a table: [identifier, contents octets or a list of items]."""
    out, p = [], 0
    while p < len(m):
        q = p + 1
        if m[p] & 31 == 31:
            while m[q] > 127:
                q += 1
            q += 1
        i, n, q = m[p:q], m[q], q + 1
        if n > 127:
            k = n - 128
            n, q = int.from_bytes(m[q:q + k], 'big'), q + k
        out.append([i, items(m[q:q + n]) if i[0] & 32 else m[q:q + n]])
        p = q + n
    return out


def relengthened(R, m, most=model.FIELD):
    """A definite message with other permitted lengths."""
    def spelled(some):
        return b''.join(constructed(R, i, spelled(c), most) if isinstance(c, list) else i + length(R, len(c), most) + c for i, c in some)
    return spelled(items(m))


def damaged(R, m):
    """A message with a small fault; it may be a good one by chance."""
    x = R.random()
    if x < .35:
        p = R.randrange(len(m))
        return m[:p] + bytes([R.choice([0, 1, 0x80, 0xFF, m[p] ^ 0x20, m[p] ^ 1 << R.randrange(8), R.randrange(256)])]) + m[p + 1:]
    if x < .5:
        return m[:R.randrange(len(m))]
    if x < .65:
        p = R.randrange(len(m) + 1)
        return m[:p] + R.randbytes(R.choice([1, 2])) + m[p:]
    if x < .8:
        p = R.randrange(len(m))
        return m[:p] + m[p + R.choice([1, 2, 3]):]
    return m + R.choice([b'\0', b'\0\0', R.randbytes(2)])


def joined(some):
    out = b''
    for i, c in some:
        if i is None:
            out += c
        else:
            c = joined(c) if isinstance(c, list) else c
            out += i + model.length(len(c)) + c
    return out


def other_time(R, c):
    """Contents of a time in another form, or with other digits; they may be good ones by chance."""
    at = R.randrange(0, len(c) - 1, 2)
    return R.choice([
        c[:at] + b'%02d' % R.choice([0, 12, 13, 23, 24, 28, 29, 30, 31, 32, 59, 60, 99]) + c[at + 2:],
        c[:at] + bytes([R.choice(b'/:0129 -+.,Zz\0\xb0')]) + c[at + 1:],
        c[:-1], c[:-1] + b'z', c[:-3] + b'Z', c[:-1] + b'.5Z', c[:-1] + b'+0000', c[:-1] + b'-0130', c[:-5] + b'Z', c[2:], b'19' + c,
        b'20' + c, c + c])


def faulty(R, m):
    """What a sender with one wrong rule makes of a definite message: each rule of X.690 or of the table broken somewhere."""
    top = items(m)
    places, todo = [], [top]
    while todo:
        row = todo.pop()
        for k, (_, c) in enumerate(row):
            places.append((row, k))
            if isinstance(c, list):
                todo.append(c)
    row, k = R.choice(places)
    i, c = row[k]
    plain = joined(c) if isinstance(c, list) else c
    time = not isinstance(c, list) and len(c) in (13, 15) and c[-1:] == b'Z'
    if time and R.random() < .6:
        row[k][1] = other_time(R, c)
        return joined(top)
    way = 12 if time and R.random() < .3 else R.randrange(16)
    if way == 0 and i[0] & 31 != 31:
        row[k][0] = bytes([i[0] | 31, i[0] & 31])
    elif way == 1 and i[0] & 31 == 31:
        row[k][0] = i[:1] + b'\x80' + i[1:]
    elif way == 2:
        row[k][0] = bytes([i[0] ^ 0x20]) + i[1:]
    elif way in (3, 4):
        row[k][1] = (b'\0', b'\xff')[way - 3] * R.choice([1, 1, 2, 8]) + plain
    elif way == 5:
        row[k][1] = bytes([R.choice([8, 8, 9, 255])]) + plain[1:]
    elif way == 6:
        row[k][1] = b''
    elif way == 7:
        del row[k]
    elif way == 8:
        row.insert(k, row[k])
    elif way == 9 and k + 1 < len(row):
        row[k], row[k + 1] = row[k + 1], row[k]
    elif way == 10:
        row[k] = [None, i + b'\x80' + plain + R.choice([b'\0\0', b'\0\0', b'\0', b'\0\5', b''])]
    elif way == 11:
        row[k] = [None, i + b'\xff' + plain]
    elif way == 12 and not i[0] & 0x20:
        at, number = R.randrange(len(plain) + 1), R.choice([b'\3', b'\4', b'\4', i])
        first = R.choice([b'', b'', bytes([R.randrange(9)])])
        row[k] = [bytes([i[0] | 0x20]) + i[1:], [[number, first + plain[:at]], [number, first[:1] + plain[at:]]]]
        for _ in range(R.choice([0, 0, 1, 3, 4])):
            row[k] = [R.choice([b'\x23', b'\x24', b'\x24', row[k][0]]), [row[k]]]
    elif way == 13:
        row[k][1] = plain + b'\0\0'
    elif way == 14:
        row.insert(k, [R.choice([b'\0', b'\4', b'\x80', b'\x9f\x7f']), b''])
    else:
        row[k][1] = R.randbytes(R.choice([1, 2, 9]))
    return joined(top)
