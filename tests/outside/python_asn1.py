"""pyasn1 (BER) as an outside coder: types built from a table at run time; a table must not be circular."""
import pyasn1
from pyasn1.codec.ber import decoder, encoder
from pyasn1.type import namedtype, namedval, tag, univ, useful

from model import (BIT_STRING, BOOLEAN, CHOICE, CONSTRUCTED, ENUMERATED, GENERALIZED_TIME, INTEGER, LISTS, MEMBERS, NULL, OCTET_STRING,
                   OWN_NUMBER, SEQUENCE, SEQUENCE_OF, TIMES, UTC_TIME, digits, time_of)

VERSION = pyasn1.__version__
# Debian's 0.4.8 departs in other ways than the decoder that came with 0.5.
OLD = tuple(int(x) for x in VERSION.split('.')[:2]) < (0, 5)
CLASS = [tag.tagClassUniversal, tag.tagClassApplication, tag.tagClassContext, tag.tagClassPrivate]
PLAIN = {BOOLEAN: univ.Boolean, INTEGER: univ.Integer, BIT_STRING: univ.BitString, OCTET_STRING: univ.OctetString, NULL: univ.Null,
         UTC_TIME: useful.UTCTime, GENERALIZED_TIME: useful.GeneralizedTime}


class Coder:
    def __init__(self, records):
        self.records, self.types = records, {}

    def type(self, t):
        if t not in self.types:
            self.types[t] = self.made(t)
        return self.types[t]

    def made(self, t):
        kind, tags, own = self.records[t]
        ids = [] if kind == CHOICE else [tag.Tag(CLASS[tags[-1][0]], tag.tagFormatConstructed if kind in CONSTRUCTED else
                                                 tag.tagFormatSimple, tags[-1][1])]
        for c, n in reversed(tags if kind == CHOICE else tags[:-1]):
            ids.append(tag.Tag(CLASS[c], tag.tagFormatConstructed, n))
        # a time is for pyasn1 an OCTET STRING with another tag
        base = OWN_NUMBER[OCTET_STRING if kind in TIMES else kind]
        s = tag.TagSet(() if kind == CHOICE else tag.Tag(CLASS[0], ids[0].tagFormat, base), *ids)
        if kind in PLAIN:
            return PLAIN[kind](tagSet=s)
        if kind == ENUMERATED:
            return univ.Enumerated(tagSet=s, namedValues=namedval.NamedValues(*[('n%d' % n, n) for n in own]))
        if kind in MEMBERS:
            parts = [(namedtype.OptionalNamedType if o else namedtype.NamedType)('m%d' % j, self.type(a)) for j, (a, o) in enumerate(own)]
            return (univ.Sequence if kind == SEQUENCE else univ.Set)(componentType=namedtype.NamedTypes(*parts), tagSet=s)
        if kind in LISTS:
            return (univ.SequenceOf if kind == SEQUENCE_OF else univ.SetOf)(componentType=self.type(own[0]), tagSet=s)
        parts = [namedtype.NamedType('a%d' % j, self.type(a)) for j, a in enumerate(own)]
        return univ.Choice(componentType=namedtype.NamedTypes(*parts), tagSet=s)

    def tree(self, t, v):
        kind, _, own = self.records[t]
        if kind == BOOLEAN:
            return kind, 1 if bool(v) else 0
        if kind in (INTEGER, ENUMERATED):
            return kind, int(v)
        if kind == BIT_STRING:
            n = len(v)
            spare = -n % 8
            return kind, (spare, (int(v.asInteger()) << spare).to_bytes((n + spare) // 8, 'big'))
        if kind == OCTET_STRING:
            return kind, bytes(v)
        if kind in TIMES:
            return kind, time_of(kind, bytes(v)) or bytes(v)
        if kind == NULL:
            return kind, None
        if kind in MEMBERS:
            kids = []
            for j, (a, _) in enumerate(own):
                x = v.getComponentByPosition(j, default=None, instantiate=False)
                kids.append(self.tree(a, x) if x is not None and x.isValue else None)
            return kind, kids
        if kind in LISTS:
            return kind, [self.tree(own[0], x) for x in v]
        j = int(v.getName()[1:])
        return kind, (j, self.tree(own[j], v.getComponent()))

    def value(self, t, tree):
        kind, own = tree
        x, rules = self.type(t), self.records[t][2]
        if kind == BOOLEAN:
            return x.clone(bool(own))
        if kind in (INTEGER, ENUMERATED, OCTET_STRING):
            return x.clone(own)
        if kind == BIT_STRING:
            return x.clone(binValue=''.join(format(b, '08b') for b in own[1])[:8 * len(own[1]) - own[0]])
        if kind == NULL:
            return x.clone('')
        if kind in TIMES:
            return x.clone(digits(kind, own).decode())
        y = x.clone()
        if kind in MEMBERS:
            y.clear()
            for j, c in enumerate(own):
                if c is not None:
                    y.setComponentByPosition(j, self.value(rules[j][0], c))
        elif kind in LISTS:
            y.clear()
            for c in own:
                y.append(self.value(rules[0], c))
        else:
            y.setComponentByName('a%d' % own[0], self.value(rules[own[0]], own[1]))
        return y

    def decode(self, t, m):
        """('ok', tree), ('rest', octets left) or ('error', what it says)."""
        try:
            v, rest = decoder.decode(m, asn1Spec=self.type(t))
            return ('rest', rest) if rest else ('ok', self.tree(t, v))
        except Exception as e:
            return 'error', '%s: %s' % (type(e).__name__, str(e)[:80])

    def encode(self, t, tree, definite, chunk=0):
        """A message; strings in segments of so many octets, if that is not 0."""
        try:
            return 'ok', encoder.encode(self.value(t, tree), defMode=definite, maxChunkSize=chunk)
        except Exception as e:
            return 'error', '%s: %s' % (type(e).__name__, str(e)[:80])
