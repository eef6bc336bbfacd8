"""Erlang/OTP's asn1 as an outside coder: ASN.1 text from a table, its terms from trees and back."""
import os
import re
import subprocess

from make import circular
from model import (BIT_STRING, BOOLEAN, CHOICE, CONSTRUCTED, ENUMERATED, GENERALIZED_TIME, INTEGER, LISTS, MEMBERS, NULL, OCTET_STRING,
                   SEQUENCE, SEQUENCE_OF, SET, SET_OF, TIMES, UTC_TIME, digits, named, time_of)

NAME = {BOOLEAN: 'BOOLEAN', INTEGER: 'INTEGER', BIT_STRING: 'BIT STRING', OCTET_STRING: 'OCTET STRING', NULL: 'NULL',
        ENUMERATED: 'ENUMERATED', UTC_TIME: 'UTCTime', GENERALIZED_TIME: 'GeneralizedTime', SEQUENCE: 'SEQUENCE', SET: 'SET',
        SEQUENCE_OF: 'SEQUENCE OF', SET_OF: 'SET OF', CHOICE: 'CHOICE'}
CLASS = ['UNIVERSAL ', 'APPLICATION ', '', 'PRIVATE ']


def text(module, records):
    """The ASN.1 module of a table: type Tn for record n, and Tn-j below its tag j, since the compiler takes one tag a type.

    Types that reach themselves come first, lists before the others: the compiler codes one wrongly whose first mention is an OF above it."""
    lines = [module + ' DEFINITIONS EXPLICIT TAGS ::= BEGIN']
    on_circle = circular(records)
    for i in sorted(range(len(records)), key=lambda i: (i not in on_circle, records[i][0] not in LISTS, i)):
        kind, tags, own = records[i]
        words = ['T%d ::=' % i]
        for j, (c, n) in enumerate(tags):
            last = j == len(tags) - 1 and kind != CHOICE
            if not (last and c == 0):
                if j:
                    words += ['T%d-%d' % (i, j), '\nT%d-%d ::=' % (i, j)]
                words.append('[%s%d] %s' % (CLASS[c], n, 'IMPLICIT' if last else 'EXPLICIT'))
        words.append(NAME[kind])
        if kind == ENUMERATED:
            words.append('{ %s }' % ', '.join('n%d(%d)' % (n, n) for n in own))
        elif kind in MEMBERS:
            words.append('{ %s }' % ', '.join('m%d T%d%s' % (j, a, ' OPTIONAL' if o else '') for j, (a, o) in enumerate(own)))
        elif kind == CHOICE:
            words.append('{ %s }' % ', '.join('a%d T%d' % (j, a) for j, a in enumerate(own)))
        elif kind in LISTS:
            words.append('T%d' % own[0])
        lines.append(' '.join(words))
    return '\n'.join(lines + ['END', ''])


def takes(records):
    """Whether OTP codes such a table as X.680 says; what it cannot is named in the notes on the outside coders."""
    on_circle = circular(records)
    bare = [i for i in on_circle if any(c == 0 for c, _ in records[i][1])]
    return (all(n <= 16383 for _, tags, _ in records for _, n in tags)
            and all(len(records[i][1]) <= 1 for i in on_circle)
            and not any(records[i][0] == SET for i in on_circle)
            and not any(sum(i in named(records[k]) for k in on_circle) > 1 for i in bare))


def term(tree):
    """The Erlang term of a tree."""
    kind, own = tree
    if kind == BOOLEAN:
        return 'true' if own else 'false'
    if kind == INTEGER:
        return str(own)
    if kind == BIT_STRING:
        spare, c = own
        if not c:
            return '<<>>'
        return '<<%s%d:%d>>' % (''.join('%d,' % b for b in c[:-1]), c[-1] >> spare, 8 - spare)
    if kind == OCTET_STRING:
        return '<<%s>>' % ','.join(map(str, own))
    if kind == NULL:
        return "'NULL'"
    if kind == ENUMERATED:
        return 'n%d' % own
    if kind in TIMES:
        return '"%s"' % digits(kind, own).decode()
    if kind in MEMBERS:
        return '#{%s}' % ','.join('m%d=>%s' % (j, term(x)) for j, x in enumerate(own) if x is not None)
    if kind in LISTS:
        return '[%s]' % ','.join(map(term, own))
    return '{a%d,%s}' % (own[0], term(own[1]))


TOKEN = re.compile(r"<<|>>|#\{|=>|[\[\]{},:]|-?\d+|'[^']*'|[a-z]\w*")


def tree(records, t, words):
    """The tree of a printed Erlang term of a type; `words` is an iterator of tokens."""
    kind, _, own = records[t]
    w = next(words)
    if kind == BOOLEAN:
        return kind, {'true': 1, 'false': 0}[w]
    if kind == INTEGER:
        return kind, int(w)
    if kind == NULL:
        assert w == "'NULL'", w
        return kind, None
    if kind == ENUMERATED:
        assert w[0] == 'n', w
        return kind, int(w[1:])
    if kind in (BIT_STRING, OCTET_STRING):
        assert w == '<<', w
        c, spare = [], 0
        w = next(words)
        while w != '>>':
            if w == ':':
                spare = 8 - int(next(words))
                c[-1] <<= spare
            elif w != ',':
                c.append(int(w))
            w = next(words)
        return kind, (spare, bytes(c)) if kind == BIT_STRING else bytes(c)
    if kind in TIMES:
        assert w == '[', w
        c, w = [], next(words)
        while w != ']':
            if w != ',':
                c.append(int(w))
            w = next(words)
        return kind, time_of(kind, bytes(c)) or bytes(c)
    if kind in MEMBERS:
        assert w == '#{', w
        kids = [None] * len(own)
        w = next(words)
        while w != '}':
            if w != ',':
                j = int(w[1:])
                assert next(words) == '=>'
                kids[j] = tree(records, own[j][0], words)
            w = next(words)
        return kind, kids
    if kind in LISTS:
        assert w == '[', w
        kids, peek = [], Peek(words)
        while peek.look() != ']':
            if peek.look() == ',':
                next(peek)
            kids.append(tree(records, own[0], peek))
        next(peek)
        return kind, kids
    assert w == '{', w
    j = int(next(words)[1:])
    assert next(words) == ','
    kid = tree(records, own[j], words)
    assert next(words) == '}'
    return kind, (j, kid)


class Peek:
    """An iterator with a look at the next word; one that looks no further than it must when laid over another."""

    def __init__(self, words):
        self.words, self.held = words, []

    def __iter__(self):
        return self

    def __next__(self):
        return self.held.pop() if self.held else next(self.words)

    def look(self):
        if not self.held:
            self.held.append(next(self.words))
        return self.held[-1]


def parsed(records, t, printed):
    return tree(records, t, iter(TOKEN.findall(printed)))


def run(folder, modules, requests):
    """Compiles the modules (name, records), and answers the requests (operation, module, type, hexadecimal or term)."""
    os.makedirs(folder, exist_ok=True)
    for name, records in modules:
        with open(os.path.join(folder, name + '.asn1'), 'w') as f:
            f.write(text(name, records))
    with open(os.path.join(folder, 'requests'), 'w') as f:
        for op, module, t, arg in requests:
            f.write('%s %s T%d %s%s\n' % (op, module, t, arg, '.' if op == 'enc' else ''))
    here = os.path.dirname(os.path.abspath(__file__))
    subprocess.run(['erlc', '-o', folder, os.path.join(here, 'coder.erl')], check=True)
    said = subprocess.run(['erl', '-noshell', '-pa', folder, '-eval', 'coder:main(["%s"]), halt().' % folder],
                          check=True, stdout=subprocess.PIPE, text=True).stdout
    with open(os.path.join(folder, 'answers')) as f:
        answers = f.read().split('\n')[:-1]
    assert len(answers) == len(requests), said
    return answers, said
