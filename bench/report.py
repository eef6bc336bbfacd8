#!/usr/bin/env python3
"""Prints the figures of one run as Markdown: report.py FOLDER, where bench/run left them."""
import glob
import os
import sys

# The goals: instructions of a call, shares of asn1c's time, nanoseconds of the worst read, octets of stack and of text.
INSTRUCTIONS = {'check': 5500, 'read': 42000, 'indefinite': 42000, 'write': 41000}
SHARE = {'read': .65, 'indefinite': .65, 'write': .25}
WORST, STACK, TEXT, PAIR = 6e6, 20 * 1024, 40 * 1024, 1000
OPERATIONS = {0: 'check', 1: 'write', 2: 'read', 16: 'order', 17: 'seconds', 18: 'to GeneralizedTime', 19: 'to UTCTime'}


def rows(folder, name):
    with open(os.path.join(folder, name)) as f:
        return [line.rstrip('\n').split('\t') for line in f]


def dumps(folder):
    """Instructions of each counted call, by its name."""
    out = {}
    for path in glob.glob(os.path.join(folder, 'callgrind.*')):
        name = None
        with open(path) as f:
            for line in f:
                if line.startswith('desc: Trigger: Client Request: '):
                    name = line.split(': ', 3)[3].strip()
                elif line.startswith('summary: ') and name:
                    out[name] = int(line.split()[1])
    return out


class Figures:
    def __init__(self, folder):
        self.words = {name: words for _, name, words in rows(folder, 'inputs/list')}
        self.counts = dumps(folder)
        self.stack = {name: int(n) for _, name, n in rows(folder, 'stack')}
        self.text = int(rows(folder, 'text')[0][0])
        self.built = rows(folder, 'archive')[0][0] == 'built'
        self.batch, self.alone = {}, {}
        for r in rows(folder, 'time'):
            if r[0] == 'batch':
                self.batch[r[1], r[2]] = int(r[3]), int(r[4])
            else:
                least, median, number, rest, table, data = map(int, r[3:])
                self.alone[r[1]] = dict(group=r[0], op=OPERATIONS[int(r[2])], least=least, median=median, number=number, rest=rest, table=table,
                                        data=data)
        self.coders = list(dict.fromkeys(c for c, _ in self.batch))
        self.us, self.asn1c = self.coders[0], next(c for c in self.coders if 'asn1c' in c)
        # a case has 8 octets besides its table and its data
        size = {name: os.path.getsize(os.path.join(folder, 'inputs', name)) for name in ('check', 'definite', 'indefinite', 'value')}
        self.sizes = [size[name] - size['check'] for name in ('definite', 'indefinite', 'value')] + [size['check'] - 8]


def show(head, some):
    print('| %s |' % ' | '.join(head))
    print('|%s' % ('---|' * len(head)))
    for row in some:
        print('| %s |' % ' | '.join(row))


def count(n):
    return '{:,}'.format(n)


def micro(ns):
    return '{:,.0f}'.format(ns / 1000) if ns >= 1e5 else '{:,.1f}'.format(ns / 1000)


def batch(f):
    if not f.built:
        print('**Provisional**: measured on an archive that was given by hand, not on the one that `./build` makes of the proved engine.\n')
    print('### The batch\n')
    print('%s octets definite, %s indefinite, its value %s, its table %s. ' % tuple(map(count, f.sizes)), end='')
    print('Nanoseconds: least (median) of the rounds, in which all take turns.\n')
    ops = 'check', 'read', 'indefinite', 'write'
    show(['Coder', 'check, ns', 'read, ns', 'read indefinite, ns', 'write, ns', 'instructions: check', 'read', 'read indefinite', 'write'],
         [[c] + ['%s (%s)' % tuple(map(count, f.batch[c, o])) if (c, o) in f.batch else '-' for o in ops] +
          [count(f.counts['batch/%s/%s' % (c, o)]) if (c, o) in f.batch else '-' for o in ops] for c in f.coders])


def growth(f):
    """Prints how reading and writing grow, and answers the instructions for a further octet, by operation."""
    print('\n### Growth\n')
    print('The batch with other numbers of calls. "Further": instructions for each octet more than in the line above.\n')
    steps, some, before = {'read': [], 'write': []}, [], None
    for k in [name.split('-')[1] for name in f.alone if name.startswith('read-')]:
        octets = f.alone['read-' + k]['data']
        n = {o: f.counts['growth/%s-%s' % (o, k)] for o in steps}
        row = [count(octets)]
        for o in steps:
            x = f.alone['%s-%s' % (o, k)]
            row += ['%s (%s)' % (micro(x['least']), micro(x['median'])), count(n[o]), '-']
            if before:
                steps[o].append((n[o] - before[1][o]) / (octets - before[0]))
                row[-1] = '%.0f' % steps[o][-1]
        before = octets, n
        some.append(row)
    show(['octets', 'read, µs', 'instructions', 'further', 'write, µs', 'instructions', 'further'], some)
    return steps


def segments(f):
    """Prints how reading strings in segments grows, and answers for each how many times the instructions of half its length it takes."""
    print('\n### Strings in segments\n')
    print('Each of half and of the whole length. "Further": instructions for each octet more than half.\n')
    some, shares = [], []
    for name in f.alone:
        if name.startswith('segments-') and name.endswith('-1'):
            short, long = f.alone[name[:-1] + '2'], f.alone[name]
            a, b = (f.counts['growth/' + x] for x in (name[:-1] + '2', name))
            shares.append(b / a * short['data'] / long['data'])
            some.append([f.words[name]] + [x for y, n in ((short, a), (long, b)) for x in
                                           (count(y['data']), '%s (%s)' % (micro(y['least']), micro(y['median'])), count(n))] +
                        ['%.0f' % ((b - a) / (long['data'] - short['data'])), count(f.stack[name])])
    show(['String', 'octets', 'read, µs', 'instructions', 'octets', 'read, µs', 'instructions', 'further', 'stack'], some)
    return shares


def times(f):
    """Prints what lists of times, pairs of them and conversions cost, and answers the instructions of the dearest call on times alone."""
    print('\n### Times\n')
    print('Lists of times. "Each": instructions for each time more than in the line above, if it is of the same kind.\n')
    some, before = [], {}
    for name in f.alone:
        if not name.startswith('times-read-'):
            continue
        kind = name.split('-')[2]
        n, row = int(f.words[name].split()[0]), [f.words[name], count(f.alone[name]['data'])]
        for o in ('read', 'write'):
            x, c = f.alone[name.replace('read', o)], f.counts['growth/' + name.replace('read', o)]
            m, d = before.get((kind, o), (0, 0))
            row += ['%s (%s)' % (micro(x['least']), micro(x['median'])), count(c), '%.0f' % ((c - d) / (n - m)) if m else '-']
            before[kind, o] = n, c
        some.append(row)
    show(['List', 'octets', 'read, µs', 'instructions', 'each', 'write, µs', 'instructions', 'each'], some)
    print('\nOrder and seconds. Nanoseconds: least (median) of single calls, with some 20 to 40 for the clock. The octets are those of both.\n')
    some, most = [], 0
    for name in f.alone:
        if not name.startswith('order-'):
            continue
        x, y = f.alone[name], f.alone[name.replace('order', 'seconds')]
        pair = [f.counts['pairs/' + name.replace('order', o)] for o in ('order', 'seconds')]
        most = max(most, *pair)
        some.append([f.words[name], count(x['table'] + x['data']), 'no %d' % x['number'] if x['number'] else 'done'] +
                    [z for w, c in zip((x, y), pair) for z in ('%d (%d)' % (w['least'], w['median']), count(c))] +
                    [count(max(f.stack[name], f.stack[name.replace('order', 'seconds')]))])
    show(['Pair', 'octets', 'answer', 'order, ns', 'instructions', 'seconds, ns', 'instructions', 'stack'], some)
    print('\nConversions, in the same way.\n')
    some = []
    for name, x in f.alone.items():
        if x['group'] == 'centuries':
            n = f.counts['centuries/' + name]
            most = max(most, n)
            some.append([x['op'], f.words[name], count(x['data']), 'no %d' % x['number'] if x['number'] else 'done',
                         '%d (%d)' % (x['least'], x['median']), count(n), count(f.stack[name])])
    show(['Operation', 'Time', 'octets', 'answer', 'ns', 'instructions', 'stack'], some)
    return most


def dearest(f):
    print('\n### The dearest inputs found\n')
    print('Microseconds: least (median). Stack: octets that the call touches. The value is what the message is read to.\n')
    by_words = {}
    for name, x in f.alone.items():
        if x['group'] in ('worst', 'deep'):
            by_words.setdefault(f.words[name], {})[x['op']] = x, f.stack[name]

    def cells(entry):
        if not entry:
            return ['-', '-', '-']
        x, deep = entry
        octets = count(x['table' if x['op'] == 'check' else 'data'])
        return [octets + ', no %d %d' % (x['number'], x['rest']) if x['number'] else octets,
                '%s (%s)' % (micro(x['least']), micro(x['median'])), count(deep)]
    some = sorted(by_words.items(), key=lambda d: -max(x['least'] for x, _ in d[1].values()))
    show(['Type table', 'octets', 'check, µs', 'stack'], [[words] + cells(d['check']) for words, d in some if 'check' in d])
    print()
    show(['Message and value', 'table', 'message', 'read, µs', 'stack', 'value', 'write, µs', 'stack'],
         [[words, count(d['read'][0]['table'])] + cells(d['read']) + cells(d.get('write')) for words, d in some if 'read' in d])


def goals(f, steps, shares, pair):
    print('\n### Goals\n')
    some = []

    def goal(what, limit, got, reached):
        some.append([what, limit, got, 'reached' if reached else 'not reached'])
    for o, most in INSTRUCTIONS.items():
        label = 'read, indefinite' if o == 'indefinite' else o
        n = f.counts['batch/%s/%s' % (f.us, o)]
        goal(label + ', instructions', 'at most ' + count(most), count(n), n <= most)
        if o in SHARE:
            least, median = (a / b for a, b in zip(f.batch[f.us, o], f.batch[f.asn1c, o]))
            goal(label + ', beside asn1c', 'at most %.2f of its time' % SHARE[o], '%.2f by the least, %.2f by the median' % (least, median),
                 least <= SHARE[o])
    for o, each in steps.items():
        goal(o + ' grows linearly', 'a further octet costs the same within a fifth', '%.0f to %.0f instructions' % (min(each), max(each)),
             max(each) <= 1.2 * min(each))
    goal('strings in segments are read linearly', 'an octet costs the same as in half the length within a tenth',
         '%.2f to %.2f times' % (min(shares), max(shares)), max(shares) <= 1.1)
    goal('a call on times alone, instructions', 'under ' + count(PAIR), count(pair), pair < PAIR)
    slow = max(x['least'] for x in f.alone.values() if x['op'] == 'read')
    goal('the worst read', 'under %.0f ms' % (WORST / 1e6), '%.1f ms' % (slow / 1e6), slow < WORST)
    most = max(f.stack, key=f.stack.get)
    goal('stack', 'under %s octets' % count(STACK), '%s: %s' % (count(f.stack[most]), f.words[most]), f.stack[most] < STACK)
    goal('text of the archive', 'under %s octets' % count(TEXT), count(f.text), f.text < TEXT)
    show(['Goal', 'Limit', 'Measured', ''], some)


def main():
    f = Figures(sys.argv[1])
    batch(f)
    steps = growth(f)
    shares = segments(f)
    pair = times(f)
    dearest(f)
    goals(f, steps, shares, pair)


main()
