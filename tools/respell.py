#!/usr/bin/env python3
"""Bring the repository's own names to snake case, once, after the kit's port.py: tools/respell.py [FOLDER]

port.py respells only what the kit's library names. This script turns the other definitions, lemmas and local names of specs/ and
proofs/, where they stand and wherever a clause cites them. A lemma that would then have its definition's name ends in _lem.
Goals and steps in proofs/F/Proof.antt are named by the checker, and stay."""
import collections, glob, os, re, sys

top = sys.argv[1] if len(sys.argv) > 1 else '.'
TOKEN = r'[^\s(){}\[\],;.@"|]+'
declared = re.compile(r'^\s*(?:abbrev |unfoldable )?(?:pub )?(?:abbrev |unfoldable )?(' + TOKEN + r') :(?: (.*))?$')

# lemmas (by file) that share their name with a definition
LEMMAS = {
    'seq/proofs/Bytes.antt': ['big-bytes'],
    'promise/proofs/Forced.antt': ['forced-late'],
    'law/proofs/Forced.antt': [],
    'promise/proofs/Choice.antt': ['is-empty', 'is-given', 'is-hard', 'is_lost'],
    'kept/proofs/Kept.antt': ['lates-kept'],
    'lines/proofs/Vectors.antt': ['lost-slot'],
    'record/proofs/Record.antt': ['record-length'],
    'record/proofs/RoundTrip.antt': ['rows-bytes'],
}


def snake(name):
    return re.sub(r'(?<=[a-z0-9])([A-Z])', lambda m: '_' + m.group(1).lower(), name).replace('-', '_')


def odd(name):
    return re.match(r'^[^A-Z]', name) and name != '-' and ('-' in name or re.search(r'[a-z0-9][A-Z]', name))


def files(*ends):
    for f in sorted(glob.glob(os.path.join(top, 'crates', '**', '*'), recursive=True)):
        if os.path.isfile(f) and f.endswith(ends) and '/out/' not in f:
            yield f


names = set()
for f in files('.antt'):
    for line in open(f):
        m = declared.match(line)
        if m and not (f.endswith('Proof.antt') and (m.group(2) or '').startswith('tie.')) and not m.group(1).endswith(('-spec', '_spec')):
            names.add(m.group(1))
        for m in re.finditer(r'\blet (' + TOKEN + r') (?:=|:)', line):
            names.add(m.group(1))
        for m in re.finditer(r'λ ([^.()λ]*)\.|\(([^():λ]*) :', line):
            names.update((m.group(1) or m.group(2) or '').split())
        m = re.search(r' as (' + TOKEN + r')$', line)
        if m:
            names.add(m.group(1))
        m = re.match(r'^\s*' + TOKEN + r'((?: [^=:]*)) =(?: |$)', line)
        if m:
            names.update(re.findall(r'(?<!\S)[a-z]-[a-z0-9]+(?!\S)', m.group(1)))
table = {n: snake(n) for n in names if odd(n) and '_' not in n.strip('◌')}
table.update({n: snake(n) for n in names if odd(n) and re.search(r'[a-z0-9][A-Z]', n)})
table['andThen'] = 'and_then'
# what the library calls itself, and what the checker makes
for n in list(table):
    if n.startswith(('tie', 'Need')):
        del table[n]

own = collections.defaultdict(dict)
for f, lemmas in LEMMAS.items():
    for lemma in lemmas:
        own[lemma][f] = snake(lemma) + '_lem'


def module(f):
    m = re.match(r'.*crates/(\w+)/proofs/(\w+)\.antt$', f)
    return 'Rattle.%s.proofs.%s' % m.groups() if m else None


def turned(f, text):
    mine = {}
    goals = set()
    for line in text.split('\n'):
        m = declared.match(line)
        if m and f.endswith('Proof.antt') and (m.group(2) or '').startswith('tie.'):
            goals.add(m.group(1))
    for lemma, where in own.items():
        for g, new in where.items():
            mod = 'Rattle.' + g.replace('.antt', '').replace('/', '.')
            if f.endswith(g) or re.search(r'use ' + re.escape(mod) + r'\.\{[^}]*(?<![^\s{,])' + re.escape(lemma) + r'(?![^\s},])[^}]*\}', text):
                mine[lemma] = new

    def one(m):
        t = m.group(0)
        if t in mine:
            return mine[t]
        if t in goals:
            return t
        if re.match(r'^e-[a-z0-9]+$', t):
            return snake(t)
        return table.get(t, t)

    out = []
    for line in text.split('\n'):
        # `tie.goal` and `c.step` are the checker's; a name after a dot is turned only where it is a label of the repository's own
        out.append(re.sub(TOKEN, one, line))
    return '\n'.join(out)


for f in files('.antt', '.rt'):
    text = open(f).read()
    new = turned(f, text)
    if new != text:
        open(f, 'w').write(new)
        print('turned:', os.path.relpath(f, top))
