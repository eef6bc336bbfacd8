"""Document 01 in Python, and of document 02 what has landed: check, write and read, order and seconds, with every refusal and its place.

It was written from the documents alone, without the proved definitions, and serves two ends: it stands in for the program
of cases where that is not built yet, and it gives the outside coders' answers a shape to be compared with.

A table is octets; a record is (kind, tags, own); a value is a tree (kind, own), where own is
  BOOLEAN 0 or 1, INTEGER a number, BIT STRING (spare bits, octets), OCTET STRING octets, NULL None, ENUMERATED a number,
  UTCTime and GeneralizedTime (year, month, day, hour, minute, second),
  SEQUENCE and SET a list with None for a missing member, SEQUENCE OF and SET OF a list, CHOICE (alternative, tree).
"""
import struct

BOOLEAN, INTEGER, BIT_STRING, OCTET_STRING, NULL, ENUMERATED = 1, 2, 3, 4, 5, 10
UTC_TIME, GENERALIZED_TIME = 23, 24
SEQUENCE, SET, SEQUENCE_OF, SET_OF, CHOICE = 16, 17, 48, 49, 50
OWN_NUMBER = {1: 1, 2: 2, 3: 3, 4: 4, 5: 5, 10: 10, 16: 16, 17: 17, 23: 23, 24: 24, 48: 16, 49: 17, 50: None}
MEMBERS, LISTS = (SEQUENCE, SET), (SEQUENCE_OF, SET_OF)
CONSTRUCTED = MEMBERS + LISTS
STRINGS = (BIT_STRING, OCTET_STRING)
TIMES = (UTC_TIME, GENERALIZED_TIME)
LEVELS, MESSAGE, VALUE, TABLE, RECORDS = 24, 8192, 16384, 8192, 128
DEEPEST, FIELD = 4, 4


class No(Exception):
    """A refusal: document 01's number and place."""

    def __init__(self, number, place):
        self.number, self.place = number, place


# ---- the calendar ----
# Digits of the year, by kind.
YEAR = {UTC_TIME: 2, GENERALIZED_TIME: 4}
DAYS = (31, 28, 31, 30, 31, 30, 31, 31, 30, 31, 30, 31)


def leap(kind, year):
    return year % 4 == 0 and (kind == UTC_TIME or year % 100 != 0 or year % 400 == 0)


def exists(kind, time):
    """Whether a kind of time has such a date and time of day."""
    year, month, day, hour, minute, second = time
    if year >= 10 ** YEAR[kind] or not 1 <= month <= 12 or hour > 23 or minute > 59 or second > 59:
        return False
    return 1 <= day <= DAYS[month - 1] + (1 if month == 2 and leap(kind, year) else 0)


def digits(kind, time):
    """The contents octets of a time."""
    year, *rest = time
    return ('%0*d' % (YEAR[kind], year) + '%02d' * 5 % tuple(rest) + 'Z').encode()


def time_of(kind, c):
    """The time of contents octets; None if they are of another form or there is no such time."""
    n = YEAR[kind]
    if len(c) != n + 11 or c[-1] != 0x5A or not all(0x30 <= b <= 0x39 for b in c[:-1]):
        return None
    time = tuple(int(c[a:b]) for a, b in zip([0] + list(range(n, n + 10, 2)), range(n, n + 12, 2)))
    return time if exists(kind, time) else None


def second_number(time):
    """The seconds from the beginning of the year 0 to a GeneralizedTime."""
    year, month, day, hour, minute, second = time
    days = 365 * year + (year + 3) // 4 - (year + 99) // 100 + (year + 399) // 400
    days += sum(DAYS[:month - 1]) + (1 if month > 2 and leap(GENERALIZED_TIME, year) else 0) + day - 1
    return ((24 * days + hour) * 60 + minute) * 60 + second


# ---- tables ----
def record_at(b, at):
    """The record at an offset and where the next one begins, or None if it is not shaped."""
    if at + 4 > len(b) or b[at:at + 2] != b'\x54\x59':
        return None
    kind, tags = b[at + 2], b[at + 3]
    p = at + 4
    if kind not in OWN_NUMBER or tags > 4 or p + 3 * tags > len(b):
        return None
    tags = [(b[q], b[q + 1] * 256 + b[q + 2]) for q in range(p, p + 3 * tags, 3)]
    p += 3 * len(tags)
    if any(c > 3 for c, _ in tags):
        return None
    own = None
    if kind in LISTS:
        if p >= len(b):
            return None
        own, p = [b[p]], p + 1
    elif kind in MEMBERS + (ENUMERATED, CHOICE):
        if p >= len(b):
            return None
        n, p = b[p], p + 1
        least, most, width = {SEQUENCE: (0, 16, 2), SET: (0, 16, 2), ENUMERATED: (1, 32, 2), CHOICE: (1, 16, 1)}[kind]
        if not least <= n <= most or p + width * n > len(b):
            return None
        if kind == CHOICE:
            own = list(b[p:p + n])
        elif kind == ENUMERATED:
            own = [b[p + 2 * i] * 256 + b[p + 2 * i + 1] for i in range(n)]
            if any(own[i] >= own[i + 1] for i in range(n - 1)):
                return None
        else:
            own = [(b[p + 2 * i], b[p + 2 * i + 1]) for i in range(n)]
            if any(f > 1 for _, f in own):
                return None
        p += width * n
    return (kind, tags, own), p


def records_of(b):
    if len(b) > TABLE:
        raise No(1, 0)
    records, at = [], 0
    while True:
        if len(records) == RECORDS:
            raise No(1, RECORDS)
        r = record_at(b, at)
        if r is None:
            raise No(1, len(records))
        records.append(r[0])
        at = r[1]
        if at == len(b):
            return records


def named(record):
    kind, _, own = record
    if kind in MEMBERS:
        return [r for r, _ in own]
    return own if kind in LISTS + (CHOICE,) else []


def check(b):
    """The records of a table that passes; a refusal 1 to 6 is raised."""
    records = records_of(b)
    n = len(records)
    for i, r in enumerate(records):
        if any(x >= n for x in named(r)):
            raise No(2, i)
    for i, (kind, tags, _) in enumerate(records):
        if not tags and kind != CHOICE:
            raise No(3, i)
        for j, (c, number) in enumerate(tags):
            if c == 0 and (j != len(tags) - 1 or kind == CHOICE or number != OWN_NUMBER[kind]):
                raise No(3, i)

    def alternatives(i):
        return records[i][2] if records[i][0] == CHOICE and not records[i][1] else []

    for i in range(n):
        seen, todo = set(), list(alternatives(i))
        while todo:
            x = todo.pop()
            if x not in seen:
                seen.add(x)
                todo += alternatives(x)
        if i in seen:
            raise No(4, i)
    memo = {}

    def first(i):
        if i not in memo:
            memo[i] = {records[i][1][0]} if records[i][1] else set().union(*[first(a) for a in alternatives(i)])
        return memo[i]

    for i, r in enumerate(records):
        if r[0] in MEMBERS + (CHOICE,):
            seen = set()
            for j, x in enumerate(named(r)):
                if seen & first(x):
                    raise No(5, i)
                seen |= first(x)
                if r[0] == SEQUENCE and not r[2][j][1]:
                    seen = set()
    finite = set(heights(records))
    for i in range(n):
        if i not in finite:
            raise No(6, i)
    return records


def heights(records):
    """The fewest levels of a finite value, for each record that has one."""
    h, changed = {}, True
    while changed:
        changed = False
        for i, (kind, _, own) in enumerate(records):
            if kind in MEMBERS:
                x = [h.get(a) for a, optional in own if not optional]
                v = None if None in x else 1 + max(x + [0])
            elif kind == CHOICE:
                x = [h[a] for a in own if a in h]
                v = 1 + min(x) if x else None
            else:
                v = 1
            if v is not None and v < h.get(i, 1 << 30):
                h[i], changed = v, True
    return h


# ---- values ----
def node(v, at):
    """Kind, own part and end of the node at an offset."""
    def need(p, n):
        if p + n > len(v):
            raise No(11, at)
        return v[p:p + n]
    if need(at, 3)[:2] != b'\x56\x41':
        raise No(11, at)
    kind, p = v[at + 2], at + 3
    if kind == NULL:
        return kind, None, p
    if kind == BOOLEAN:
        if need(p, 1)[0] > 1:
            raise No(11, at)
        return kind, v[p], p + 1
    if kind == INTEGER:
        return kind, int.from_bytes(need(p, 8), 'big', signed=True), p + 8
    if kind == CHOICE:
        return kind, need(p, 1)[0], p + 1
    if kind in MEMBERS:
        n = need(p, 1)[0]
        flags = list(need(p + 1, n))
        if any(f > 1 for f in flags):
            raise No(11, at)
        return kind, flags, p + 1 + n
    if kind in LISTS + (ENUMERATED,):
        return kind, int.from_bytes(need(p, 2), 'big'), p + 2
    if kind == OCTET_STRING:
        n = int.from_bytes(need(p, 2), 'big')
        return kind, bytes(need(p + 2, n)), p + 2 + n
    if kind in TIMES:
        time = struct.unpack('>H5B', need(p, 7))
        if not exists(kind, time):
            raise No(11, at)
        return kind, time, p + 7
    if kind == BIT_STRING:
        n = int.from_bytes(need(p, 2), 'big')
        c = bytes(need(p + 2, (n + 7) // 8))
        spare = 8 * len(c) - n
        if c and c[-1] & ((1 << spare) - 1):
            raise No(11, at)
        return kind, (spare, c), p + 2 + len(c)
    raise No(11, at)


def judge(records, t, v, at, level):
    """The tree of the node at an offset, and its end."""
    kind, own, p = node(v, at)
    if level > LEVELS:
        raise No(13, at)
    wanted, _, rules = records[t]
    if kind != wanted or (kind == ENUMERATED and own not in rules):
        raise No(12, at)
    if kind in MEMBERS:
        if len(own) != len(rules) or any(not f and not optional for f, (_, optional) in zip(own, rules)):
            raise No(12, at)
        kids = []
        for f, (member, _) in zip(own, rules):
            kid = None
            if f:
                kid, p = judge(records, member, v, p, level + 1)
            kids.append(kid)
        return (kind, kids), p
    if kind in LISTS:
        kids = []
        for _ in range(own):
            kid, p = judge(records, rules[0], v, p, level + 1)
            kids.append(kid)
        return (kind, kids), p
    if kind == CHOICE:
        if own >= len(rules):
            raise No(12, at)
        kid, p = judge(records, rules[own], v, p, level + 1)
        return (kind, (own, kid)), p
    return (kind, own), p


def octets(tree):
    """The value octets of a tree."""
    kind, own = tree
    head = bytes([0x56, 0x41, kind])
    if kind == BOOLEAN:
        return head + bytes([own])
    if kind == INTEGER:
        return head + own.to_bytes(8, 'big', signed=True)
    if kind == BIT_STRING:
        return head + struct.pack('>H', 8 * len(own[1]) - own[0]) + own[1]
    if kind == OCTET_STRING:
        return head + struct.pack('>H', len(own)) + own
    if kind == NULL:
        return head
    if kind == ENUMERATED:
        return head + struct.pack('>H', own)
    if kind in TIMES:
        return head + struct.pack('>H5B', *own)
    if kind in MEMBERS:
        return head + bytes([len(own)] + [x is not None for x in own]) + b''.join(octets(x) for x in own if x is not None)
    if kind in LISTS:
        return head + struct.pack('>H', len(own)) + b''.join(octets(x) for x in own)
    return head + bytes([own[0]]) + octets(own[1])


# ---- the writer's form ----
def identifier(cls, constructed, number):
    lead = cls << 6 | (0x20 if constructed else 0)
    if number <= 30:
        return bytes([lead | number])
    digits = [number & 127]
    while number > 127:
        number >>= 7
        digits.append(number & 127 | 128)
    return bytes([lead | 31] + digits[::-1])


def identifiers(record):
    """Those of the explicit tags, and the kind's own (None for a CHOICE)."""
    kind, tags, _ = record
    explicit = tags if kind == CHOICE else tags[:-1]
    own = None if kind == CHOICE else identifier(tags[-1][0], kind in CONSTRUCTED, tags[-1][1])
    return [identifier(c, True, n) for c, n in explicit], own


def length(n):
    if n < 128:
        return bytes([n])
    b = n.to_bytes((n.bit_length() + 7) // 8, 'big')
    return bytes([128 + len(b)]) + b


def integer(z):
    n = 1
    while not -(1 << 8 * n - 1) <= z < 1 << 8 * n - 1:
        n += 1
    return z.to_bytes(n, 'big', signed=True)


def contents(kind, own):
    """The writer's contents of a simple kind."""
    if kind == BOOLEAN:
        return bytes([255 * own])
    if kind in (INTEGER, ENUMERATED):
        return integer(own)
    if kind == BIT_STRING:
        return bytes([own[0]]) + own[1]
    if kind in TIMES:
        return digits(kind, own)
    return own or b''


def form(records, t, tree):
    kind, own = tree
    explicit, mine = identifiers(records[t])
    rules = records[t][2]
    if kind == CHOICE:
        m = form(records, rules[own[0]], own[1])
    else:
        if kind in MEMBERS:
            c = b''.join(form(records, a, x) for (a, _), x in zip(rules, own) if x is not None)
        elif kind in LISTS:
            c = b''.join(form(records, rules[0], x) for x in own)
        else:
            c = contents(kind, own)
        m = mine + length(len(c)) + c
    for i in reversed(explicit):
        m = i + length(len(m)) + m
    return m


# ---- messages ----
class Any:
    """Equal to everything: contents that an outside coder reads in a way of its own."""

    def __eq__(self, other):
        return True


ANY = Any()


class Reader:
    """The reader. `lax` names rules that an outside coder is known not to keep; `used` gathers those that mattered."""

    def __init__(self, records, m, lax=(), used=None):
        self.records, self.m, self.lax, self.used, self.memo = records, m, set(lax), set() if used is None else used, {}

    def may(self, rule):
        if rule in self.lax:
            self.used.add(rule)
            return True
        return False

    def identifier(self, at, end):
        """Lead octet and number, and the end of the identifier octets."""
        m = self.m
        if at >= end:
            raise No(22, at)
        lead, p = m[at], at + 1
        if lead & 31 != 31:
            return (lead & 0xE0, lead & 31), p
        number, begin = 0, p
        while True:
            if p >= end:
                raise No(22, at)
            number = number * 128 + (m[p] & 127)
            p += 1
            if m[p - 1] < 128:
                break
        if (m[begin] == 128 or number <= 30) and not self.may('long tag'):
            raise No(23, at)
        return (lead & 0xE0, number), p

    def own(self, t):
        """Explicit identifiers and the own one, as lead bits and number."""
        kind, tags, _ = self.records[t]
        explicit = [(c << 6 | 0x20, n) for c, n in (tags if kind == CHOICE else tags[:-1])]
        return explicit, None if kind == CHOICE else (tags[-1][0] << 6 | (0x20 if kind in CONSTRUCTED else 0), tags[-1][1])

    def first(self, t):
        if t not in self.memo:
            explicit, mine = self.own(t)
            if explicit:
                s = {explicit[0]}
            elif mine:
                s = {mine}
            else:
                s = set().union(*[self.first(a) for a in self.records[t][2]])
            if mine and not explicit and (self.either_form(self.records[t][0]) or self.no_members(t)):
                s = s | {(mine[0] ^ 0x20, mine[1])}
            if explicit and self.records[t][0] == CHOICE and 'form bit' in self.lax:
                s = s | {(explicit[0][0] ^ 0x20, explicit[0][1])}
            self.memo[t] = s
        return self.memo[t]

    def either_form(self, kind):
        return kind in STRINGS or kind in TIMES and 'time in segments' in self.lax

    def no_members(self, t):
        return 'no members' in self.lax and self.records[t][0] in MEMBERS and not self.records[t][2]

    def hollow(self, p, end):
        """Where an item ends that is tags around nothing, the innermost of indefinite length; None if it is something else."""
        try:
            i, q = self.identifier(p, end)
            n, q = self.length(p, q, end, False)
            if not i[0] & 0x20 or not i[0] >> 6:
                return None
            e = end if n is None else q + n
            over, last = self.ended(q, e, n is None)
            if over:
                return last if n is None else None
            q = self.hollow(q, e)
            over, last = self.ended(q, e, n is None) if q else (False, q)
            return last if over else None
        except No:
            return None

    def nothing(self, t, p, end):
        """A value without octets of its own and the end of an item that holds nothing, if that may be taken for it."""
        kind, _, rules = self.records[t]
        e = self.hollow(p, end) if 'no item' in self.lax and (kind == NULL or kind in MEMBERS and not rules) else None
        if e is None:
            return None
        self.used.add('no item')
        return (kind, None if kind == NULL else []), e

    def passed(self, p, end, indefinite):
        """Where the contents that begin at p end, whatever items they are: one may begin with 00 too, unless another 00 follows."""
        return self.items(p, end, indefinite)[1]

    def begins(self, t, at, end):
        try:
            return self.identifier(at, end)[0] in self.first(t)
        except No:
            return False

    def length(self, item, p, end, primitive):
        """The length, None if indefinite, and the end of the length octets."""
        m = self.m
        if p >= end:
            raise No(22, item)
        b, p = m[p], p + 1
        if b == 255 or (b == 128 and primitive):
            raise No(23, item)
        if b > 128 + FIELD and not self.may('long field'):
            raise No(29, item)
        if b == 128:
            return None, p
        n = b
        if b > 128:
            if p + b - 128 > end:
                raise No(22, item)
            n = int.from_bytes(m[p:p + b - 128], 'big')
            p += b - 128
        if p + n > end:
            raise No(22, item)
        return n, p

    def ended(self, p, end, indefinite):
        """Whether the contents end at p, and where the item then ends."""
        if not indefinite:
            return p == end, p
        m = self.m
        if p >= end:
            raise No(22, p)
        if m[p] != 0:
            return False, p
        if p + 1 >= end:
            raise No(22, p)
        if m[p + 1] != 0:
            raise No(23, p)
        return True, p + 2

    def value(self, t, at, end, level):
        if not self.begins(t, at, end):
            found = self.nothing(t, at, end)
            if found:
                return found
            self.identifier(at, end)
            raise No(24, at)
        if level > LEVELS and not self.may('level'):
            raise No(28, at)
        explicit, mine = self.own(t)
        return self.tagged(t, explicit, mine, at, end, level)

    def under(self, t, explicit, mine, at, end, level):
        """The item under an explicit tag."""
        try:
            return self.tagged(t, explicit, mine, at, end, level)
        except No:
            found = self.nothing(t, at, end)
            if not found:
                raise
            return found

    def tagged(self, t, explicit, mine, at, end, level):
        kind, _, rules = self.records[t]
        i, p = self.identifier(at, end)
        if explicit:
            if i != explicit[0] and not (i == (explicit[0][0] ^ 0x20, explicit[0][1]) and kind == CHOICE and self.may('form bit')):
                raise No(24, at)
            n, p = self.length(at, p, end, False)
            e = end if n is None else p + n
            over, q = self.ended(p, e, n is None)
            if over and n is None and self.may('several items'):
                return (kind, ANY), q
            if over:
                raise No(24, p)
            if not explicit[1:] and kind in STRINGS + TIMES and 'any parts' in self.lax:
                items, q = self.items(p, e, n is None)
                if len(items) > 1:
                    self.used.add('any parts')
                    if items[0][0] != (mine[0] & 0xC0, mine[1]):
                        raise No(24, p)
                    return self.together(kind, items), q
            tree, p = self.under(t, explicit[1:], mine, p, e, level)
            over, q = self.ended(p, e, n is None)
            if not over and n is not None and self.may('octets behind'):
                return tree, e
            if not over and not explicit[1:] and self.no_members(t):
                self.used.add('no members')
                return (kind, ANY), self.passed(p, e, n is None)
            if not over and n is None and self.may('several items'):
                return (kind, ANY), self.passed(p, e, True)
            if not over:
                raise No(26, p)
            return tree, q
        if kind == CHOICE:
            for j, a in enumerate(rules):
                if i in self.first(a):
                    tree, p = self.value(a, at, end, level + 1)
                    return (CHOICE, (j, tree)), p
            raise No(24, at)
        if self.no_members(t) and i in (mine, (mine[0] ^ 0x20, mine[1])):
            self.used.add('no members')
            n, p = self.length(at, p, end, not i[0] & 0x20)
            return (kind, ANY), self.passed(p, end, True) if n is None else p + n
        if kind in STRINGS and i == (mine[0] | 0x20, mine[1]):
            return self.string(kind, at, p, end)
        if kind in TIMES and i == (mine[0] | 0x20, mine[1]) and self.may('time in segments'):
            return self.time(kind, at, p, end)
        if kind in STRINGS + TIMES and self.m[p:p + 1] == b'\x80' and self.may('indefinite primitive'):
            return self.pieces(kind, p + 1, end, True, at)
        if i != mine:
            raise No(24, at)
        n, p = self.length(at, p, end, kind not in CONSTRUCTED)
        indefinite = n is None
        e = end if indefinite else p + n
        if kind in LISTS:
            kids = []
            while True:
                over, q = self.ended(p, e, indefinite)
                if over:
                    return (kind, kids), q
                kid, p = self.value(rules[0], p, e, level + 1)
                kids.append(kid)
        if kind in MEMBERS:
            return self.members(kind, rules, p, e, indefinite, level)
        return (kind, self.simple(kind, rules, self.m[p:e], at)), e

    def string(self, kind, at, p, end):
        """A string in segments, whose identifier ends at p, and where it ends."""
        n, p = self.length(at, p, end, False)
        e = end if n is None else p + n
        if not self.lax & {'any parts', 'raw parts'}:
            found = []
            q = self.segments(kind, p, e, n is None, 1, found)
            return self.whole(kind, found), q
        if 'any parts' in self.lax:
            rule, theirs = 'any parts', lambda: self.parts(kind, p, e, n is None)
        else:
            rule, theirs = 'raw parts', lambda: self.pieces(kind, p, e, n is None, at)
        they = answer(theirs)
        if they != answer(lambda: Reader(self.records, self.m).string(kind, at, self.identifier(at, end)[1], end)):
            self.used.add(rule)
        if they[0] == 'no':
            raise No(*they[1:])
        return they[1]

    def time(self, kind, at, p, end):
        """A time in segments, as an outside coder reads it: as X.690 has it for an OCTET STRING, or in that coder's way."""
        n, p = self.length(at, p, end, False)
        e = end if n is None else p + n
        if 'any parts' in self.lax:
            return self.parts(kind, p, e, n is None)
        if 'raw parts' in self.lax:
            return self.pieces(kind, p, e, n is None, at)
        found = []
        q = self.segments(OCTET_STRING, p, e, n is None, 1, found)
        return (kind, self.simple(kind, None, self.whole(OCTET_STRING, found)[1], at)), q

    def segments(self, kind, p, e, indefinite, depth, found):
        """Reads segments that begin at p into `found`, the place and the contents of each primitive one; where they end."""
        while True:
            over, q = self.ended(p, e, indefinite)
            if over:
                return q
            i, q = self.identifier(p, e)
            if i not in ((0, OWN_NUMBER[kind]), (0x20, OWN_NUMBER[kind])):
                raise No(24, p)
            if kind == BIT_STRING and found and found[-1][1][0]:
                raise No(25, found[-1][0])
            if depth > DEEPEST:
                raise No(28, p)
            n, q = self.length(p, q, e, not i[0])
            if i[0]:
                p = self.segments(kind, q, e if n is None else q + n, n is None, depth + 1, found)
            else:
                self.simple(kind, None, self.m[q:q + n], p)
                found.append((p, self.m[q:q + n]))
                p = q + n

    def whole(self, kind, found):
        """The string that segments join to."""
        if kind == OCTET_STRING:
            return kind, b''.join(c for _, c in found)
        unused = found[-1][1][0] if found else 0
        return kind, self.simple(kind, None, bytes([unused]) + b''.join(c[1:] for _, c in found), 0)

    # How the outside coders read strings in segments, where that is another way.
    def items(self, p, e, indefinite):
        """All items from p on, whatever they are: class and number, and contents octets or items; and where they end."""
        out = []
        while indefinite or p < e:
            if indefinite and p + 2 <= e and self.m[p:p + 2] == b'\0\0':
                return out, p + 2
            i, q = self.identifier(p, e)
            n, q = self.length(p, q, e, not i[0] & 0x20)
            c, q = self.items(q, e if n is None else q + n, n is None) if i[0] & 0x20 else (self.m[q:q + n], q + n)
            out.append(((i[0] & 0xC0, i[1]), c))
            p = q
        return out, p

    def parts(self, kind, p, e, indefinite):
        items, q = self.items(p, e, indefinite)
        return self.together(kind, items), q

    def together(self, kind, items):
        """Erlang's joining of items: of an OCTET STRING or a time whatever their tags and depth, and not of none; of a BIT STRING one level
        deep."""
        def bits(items):
            if any(t != (0, BIT_STRING) or isinstance(c, list) or not c for t, c in items):
                raise No(24, 0)
            unused = sum(c[0] for _, c in items)
            if unused > 255:
                raise No(25, 0)
            return bytes([unused]) + b''.join(c[1:] for _, c in items)

        def all_of(items):
            out = b''
            for j, (t, c) in enumerate(items):
                if isinstance(c, list):
                    out += all_of(c)
                elif t == (0, BIT_STRING) and c:
                    return bits(items[j:])
                else:
                    out += c
            return out
        if not items:
            raise No(24, 0)
        c = all_of(items)
        if kind == BIT_STRING and c and c[0] > 8 * (len(c) - 1):
            raise No(25, 0)
        return kind, self.simple(kind, None, c, 0)

    def pieces(self, kind, p, e, indefinite, at, inner=False):
        """pyasn1's joining of segments: the contents of a constructed one are taken for octets of the string, but those of one of an
        OCTET STRING of indefinite length are read; unused bits may be in each; a definite BIT STRING of none is refused. A time is read like
        an OCTET STRING, but its segments have its own number."""
        if kind == BIT_STRING and not indefinite and p == e:
            raise No(25, at)
        value = '' if kind == BIT_STRING else b''
        while True:
            if indefinite and p + 2 > e:
                raise No(22, p)
            if self.m[p:p + 2] == b'\0\0' if indefinite else p == e:
                break
            i, q = self.identifier(p, e)
            own = i[0] & 0xC0 == 0 and i[1] == OWN_NUMBER[kind]
            if not own and not (i[0] & 0x20 and i[0] & 0xC0):
                raise No(24, p)
            n, q = self.length(p, q, e, False)
            if n is None and own and kind != BIT_STRING:
                c, p = self.pieces(kind, q, e, True, p, True)
            else:
                if n is None and (q == e or e != len(self.m)):
                    raise No(22, p)
                c, p = (self.m[q:], e) if n is None else (self.m[q:q + n], q + n)
            if kind != BIT_STRING:
                value += c
                continue
            if not c or c[0] > 7 or c[0] > 8 * (len(c) - 1):
                raise No(25, q)
            value += ''.join(format(b, '08b') for b in c[1:])[:8 * (len(c) - 1) - c[0]]
        if kind == BIT_STRING:
            unused = -len(value) % 8
            value += '0' * unused
            value = unused, bytes(int(value[j:j + 8], 2) for j in range(0, len(value), 8))
        p += 2 if indefinite else 0
        if inner:
            return value, p
        return (kind, self.simple(kind, None, value, at) if kind in TIMES else value), p

    def members(self, kind, rules, p, e, indefinite, level):
        kids, next_ = [None] * len(rules), 0
        while True:
            if kind == SET:
                awaited = [j for j in range(len(rules)) if kids[j] is None]
            else:
                awaited = []
                for j in range(next_, len(rules)):
                    awaited.append(j)
                    if not rules[j][1]:
                        break
            again = list(range(len(rules))) if kind == SET and 'repeated member' in self.lax else []
            if not awaited and not again:
                if not rules and p < e and not self.ended(p, e, indefinite)[0] and self.may('untyped items'):
                    return (kind, kids), self.passed(p, e, indefinite)
                if not indefinite:
                    if p == e:
                        return (kind, kids), p
                    raise No(26, p)
                if p >= e:
                    raise No(22, p)
                if self.m[p] != 0:
                    raise No(26, p)
            over, q = self.ended(p, e, indefinite)
            if over:
                if any(not rules[j][1] for j in awaited):
                    raise No(24, p)
                return (kind, kids), q
            for j in awaited + again:
                if self.begins(rules[j][0], p, e):
                    if kids[j] is not None:
                        self.used.add('repeated member')
                    break
            else:
                self.identifier(p, e)
                raise No(24, p)
            kids[j], p = self.value(rules[j][0], p, e, level + 1)
            next_ = j + 1

    def simple(self, kind, rules, c, at):
        bad = No(25, at)
        if kind == BOOLEAN:
            if len(c) != 1 and not (self.may('wide boolean') if c else self.may('no octet')):
                raise bad
            return 1 if any(c) else 0
        if kind in (INTEGER, ENUMERATED):
            if not c:
                if (kind == INTEGER or 0 in rules or 'unlisted number' in self.lax) and self.may('no octet'):
                    return 0
                raise bad
            spare = len(c) > 1 and ((c[0] == 0 and c[1] < 128) or (c[0] == 255 and c[1] >= 128))
            if spare and not self.may('spare octets'):
                raise bad
            z = int.from_bytes(c, 'big', signed=True)
            if len(c) > 8 and not self.may('spare octets' if spare else 'wide integer'):
                raise bad
            if kind == ENUMERATED and z not in rules and not self.may('unlisted number'):
                raise bad
            return z
        if kind == BIT_STRING:
            if not c:
                raise bad
            unused, d = c[0], bytearray(c[1:])
            if unused > 7 or (unused and not d):
                if not self.may('unused bits'):
                    raise bad
                bits = max(0, 8 * len(d) - unused)
                d, unused = d[:(bits + 7) // 8], -bits % 8
            if d:
                d[-1] &= 0xFF << unused & 0xFF
            return unused, bytes(d)
        if kind == NULL:
            if c:
                raise bad
            return None
        if kind in TIMES:
            time = time_of(kind, c)
            if time is None and not self.may('any characters') and not (all(b < 128 for b in c) and self.may('any ASCII')):
                raise bad
            return bytes(c) if time is None else time
        return bytes(c)


def start(table, t):
    records = check(table)
    if t >= len(records):
        raise No(7, 0)
    return records


def answer(work):
    try:
        return ('ok', work())
    except No as e:
        return ('no', e.number, e.place)


def checked(table):
    """('ok', b'') or ('no', number, place)."""
    return answer(lambda: check(table) and b'')


def write(table, t, v, room=VALUE):
    return answer(lambda: written(start(table, t), t, v, room))


def written(records, t, v, room=VALUE):
    if len(v) > VALUE:
        raise No(11, 0)
    tree, p = judge(records, t, v, 0, 1)
    if p != len(v):
        raise No(11, p)
    m = form(records, t, tree)
    if len(m) > min(room, MESSAGE):
        raise No(14, 0)
    return m


def read(table, t, m, room=VALUE):
    def work():
        v = octets(read_tree(start(table, t), t, m))
        if len(v) > min(room, VALUE):
            raise No(27, 0)
        return v
    return answer(work)


def read_tree(records, t, m, lax=(), used=None):
    """The tree of a message; `used` gathers which of the rules in `lax` had to be dropped."""
    if len(m) > MESSAGE:
        raise No(21, 0)
    if not m:
        raise No(22, 0)
    r = Reader(records, m, lax, used)
    tree, p = r.value(t, 0, len(m), 1)
    if p != len(m) and not r.may('tail'):
        raise No(26, p)
    return tree


# ---- times ----
def lone_time(v, of=GENERALIZED_TIME):
    """The time of octets that are one node of that kind alone."""
    if len(v) > VALUE:
        raise No(11, 0)
    kind, own, p = node(v, 0)
    if p != len(v) or kind == CHOICE or kind in MEMBERS and any(own) or kind in LISTS and own:
        raise No(11, 0)
    if kind != of:
        raise No(12, 0)
    return own


def seconds(first, second):
    """('ok', whole seconds from the first time to the second) or ('no', number, 0)."""
    def work():
        a = lone_time(first)
        return second_number(lone_time(second)) - second_number(a)
    return answer(work)


def order(first, second):
    """('ok', -1, 0 or 1 as the first time is before, at or after the second) or ('no', number, 0)."""
    def work():
        a = lone_time(first)
        b = lone_time(second)
        return (a > b) - (a < b)
    return answer(work)


CENTURIES = {1: range(1970, 2070), 2: range(1950, 2050)}


def to_generalized(version, v, room):
    """('ok', octets of the GeneralizedTime) or ('no', number, 0), by a link version, the octets of a UTCTime and the length of a buffer."""
    def work():
        if version not in CENTURIES:
            raise No(7, 0)
        year, *rest = lone_time(v, UTC_TIME)
        time = [y for y in CENTURIES[version] if y % 100 == year] + rest
        if room < 10:
            raise No(27, 0)
        return octets((GENERALIZED_TIME, tuple(time)))
    return answer(work)


def to_utc(version, v, room):
    """The way back."""
    def work():
        if version not in CENTURIES:
            raise No(7, 0)
        year, *rest = lone_time(v)
        if year not in CENTURIES[version]:
            raise No(12, 0)
        if room < 10:
            raise No(27, 0)
        return octets((UTC_TIME, (year % 100, *rest)))
    return answer(work)


def line(number, a):
    """A line of the program of cases."""
    if a[0] == 'no':
        return '%d no %d %d\n' % (number, a[1], a[2])
    return '%d ok %s\n' % (number, a[1].hex()) if a[1] else '%d ok\n' % number
