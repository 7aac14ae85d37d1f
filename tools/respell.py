#!/usr/bin/env python3
"""respell.py [--list]: brings the repository's own definitions, lemmas and fields of specs/ and proofs/ to the spelling of today's Rattle, once.

Words are in snake case: `allBytes` becomes `all_bytes`. A dash stays where it joins two words that are definitions, as in `length-all_bytes`; a
plain word is added with `_`. Types and modules, names of the library and names that Rattle makes stay. --list prints the names and writes nothing."""
import collections, glob, os, re, sys

os.chdir(os.path.dirname(os.path.dirname(os.path.abspath(__file__))))
NAME = r'[^\s(){}.;,@"«»`]+'
DECLARED = re.compile(r'(?m)^ *(?:(?:unfoldable|abbrev|pub|record|data) +)*(' + NAME + r')(?: \{[^{}\n]*\})* :')
MODULE = re.compile(r'(?m)^ *(?:pub )?(?:record|data) (' + NAME + ')')
CAMEL = re.compile(r'[a-z0-9][A-Z]')
MADE = re.compile(r'^(returns|loop|overflow|add|sub|mul|cast|bounds|slice)(-|$)|-(requires|init|preserved|smaller)(-\d+)?$|^(invariant|decreases|Inv|μ)-')
# words of the library that names of lemmas are made of
LIBRARY = set('length take drop get_or set replicate append map reverse eqb leb ltb not cond divmod mod div pow cons'.split())


def snake(word):
    if word[:1].isupper(): return word
    return re.sub(r'(?<=[a-z0-9])[A-Z]+', lambda m: '_' + m[0].lower(), word)


def read(path):
    with open(path, encoding='utf-8') as f: return f.read()


lemmas = [f for pattern in ('crates/*/specs/*.antt', 'crates/*/proofs/*.antt') for f in sorted(glob.glob(pattern))]
proofs = sorted(glob.glob('crates/*/proofs/*/**/*.antt', recursive=True))
specs, declared, types = set(), set(), set()
for f in lemmas + proofs:
    text = re.sub(r'--.*', '', read(f))
    types.update(MODULE.findall(text))
    for w in DECLARED.findall(text):
        if MADE.search(w) or w[:1].isupper(): continue
        bare = w.replace('◌', '')
        if '/specs/' in f: specs.add(bare)
        if f in lemmas or CAMEL.search(bare): declared.add(bare)
words = {snake(w) for w in specs if '-' not in w} | LIBRARY


def respelled(name):
    parts = [snake(p) for p in name.split('-')]
    out = parts[0]
    for left, right in zip(parts, parts[1:]):
        joins = left and right and (left in words or left[:1].isupper()) and (right in words or right[:1].isupper())
        out += ('-' if joins or not left or not right else '_') + right
    return out


table = {w: respelled(w) for w in declared}
# a lemma that would have the name of a definition, or of another lemma, gets `_lem`
plain = collections.defaultdict(list)
for w in sorted(declared): plain[table[w]].append(w)
for n, ws in plain.items():
    if len(ws) == 1: continue
    keeps = [w for w in ws if w in specs and '-' not in w] or [w for w in ws if w in specs] or [w for w in ws if w == n] or ws
    for w in ws:
        if w is not keeps[0]: table[w] = n + '_lem'
# a parameter of the code would hide these two
table.update(dataType='data_type_of', elementType='element_type_of')
table = {w: n for w, n in table.items() if w != n}
everything = lemmas + proofs + sorted(glob.glob('crates/*/src/**/*.rt', recursive=True)) + sorted(glob.glob('crates/*/must-fail/*.edit'))
texts = {f: read(f) for f in everything}
# names that a file takes from the library
own = set(os.listdir('crates'))
for text in texts.values():
    for path, items in re.findall(r'use ([^\s;{]+)\.\{([^}]*)\}', text):
        steps = path.split('.')
        if steps[0] == 'Rattle' and steps[1] in own: continue
        for item in items.split(','): table.pop(item.split(' as ')[0].strip().replace('◌', ''), None)
TOKEN = re.compile(NAME)


def turned(m, path):
    """A word of a file anew. Names of the code stay, and those behind a dot that are no field; a field `dataType` is no parameter's."""
    word, text = m[0], m.string
    bare = word.replace('◌', '')
    if bare not in table: return word
    dotted = text[m.start() - 1:m.start()] == '.'
    if not CAMEL.search(bare) and '-' not in bare and (dotted or path.endswith(('.rt', '.edit'))): return word
    new = table[bare]
    if bare == 'dataType' and (dotted or re.match(r' (= |: List)', text[m.end():])): new = 'data_type'
    return word.replace(bare, new)


if '--list' in sys.argv[1:]:
    found = collections.defaultdict(set)
    for f, text in texts.items():
        for w in re.findall(NAME, text): found[w.replace('◌', '')].add(f)
    for w, n in sorted(table.items()): print(w, n, *sorted(f for f in found.get(n, ()) if f in found[w]))
    sys.exit()
for f, text in texts.items():
    new = TOKEN.sub(lambda m: turned(m, f), text)
    if new != text:
        with open(f, 'w', encoding='utf-8') as out: out.write(new)
