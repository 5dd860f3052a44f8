#!/usr/bin/env python3
"""Counts for docs/DESIGN-PASS.md, of the tree at the top of the repository. A word says of what:

    enums        own enums and their cases
    numbers      numbers that stand for a refusal or a kind
    flags        functions that answer a number of which 0 means none, and fields that say a state
    twins        functions of one text but for types, names and numbers, and of three lines or more
    loops        loops, and of them those that count an index by hand
    conversions  conversions by `as`, std's functions of numbers called by path, zeros divided
    facts        facts that stand in the `requires` of three functions or more
    pairs        parameters that travel together in four functions or more
    buffers      parameters and fields that are arrays with a number beside them
    switches     matches on an enum of the repository
    proofs       files of functions' proofs: walks of the code, answers, invariants, and their lines
"""
import collections
import glob
import re
import sys


def sources():
    """Each file of src/, without comments."""
    files = sorted(glob.glob('crates/*/src/*.rt'))
    return {f: re.sub(r'//[^\n]*', '', open(f).read()) for f in files}


def crate(file):
    return file.split('/')[1]


def functions():
    """Each function: its crate and name, parameters, clauses and body."""
    form = re.compile(r'\bfn (\w+)(?:<[^(]*>)?\(')
    for f, text in sources().items():
        for m in form.finditer(text):
            at = end_of(text, m.end() - 1)
            parameters = text[m.end():at - 1]
            body = re.compile(r'(\s*->\s*[^{};\n]+?)? \{\n').match(text, at)
            body = body or re.compile(r'\n *\{\n|\{ ?\}|;').search(text, at)
            if not body or body.group() == ';':
                continue
            begin = body.start() + body.group().index('{')
            yield (f'{crate(f)}::{m.group(1)}', parameters, text[at:begin],
                   text[begin:end_of(text, begin)])


def end_of(text, at):
    """Where the bracket that opens at `at` is closed."""
    depth = 0
    for i in range(at, len(text)):
        depth += {'(': 1, '{': 1, ')': -1, '}': -1}.get(text[i], 0)
        if depth == 0:
            return i + 1
    return len(text)


def lines(pattern):
    for f, text in sources().items():
        for i, line in enumerate(text.split('\n'), 1):
            if re.search(pattern, line):
                yield f'{f}:{i}: {line.strip()}'


def show(found):
    found = list(found)
    print('\n'.join(found))
    print(len(found))


def enums():
    for f, text in sources().items():
        for m in re.finditer(r'\benum (\w+)(?:<[^>]*>)? \{(.*?)\n\}', text, re.S):
            cases = re.findall(r'^    (\w+)(\([^)]*\)|\s*\{[^}]*\})?,', m.group(2), re.M)
            joined = ' | '.join(c + re.sub(r'\s+', ' ', a) for c, a in cases)
            yield f'{crate(f)}::{m.group(1)}: {joined}'


def flags():
    for name, _, clauses, body in functions():
        answer = re.search(r'->\s*([^\n{]*)', clauses)
        if answer and re.search(r'\b(u32|u64|usize)\b', answer.group(1)):
            if re.search(r'return 0;|^\s*0\s*$|else \{ 0 \}|=> 0,', body, re.M):
                yield f'{name} -> {answer.group(1).strip()}'
    yield from lines(r'^\s*pub (lost|invertible|refusal): ')


def twins():
    words = re.compile(r'[A-Za-z_][\w:]*(?:\.\w+)*|\d[\w.]*')
    keep = {'if', 'else', 'let', 'mut', 'return', 'for', 'in', 'while', 'match', 'loop'}
    alike = collections.defaultdict(list)
    for name, _, _, body in functions():
        order = {}
        plain = words.sub(
            lambda m: m.group() if m.group() in keep else f'#{order.setdefault(m.group(), len(order))}',
            body)
        if body.count('\n') > 3:
            alike[re.sub(r'\s+', ' ', plain)].append(name)
    for names in alike.values():
        if len(names) > 1:
            yield ', '.join(names)


def loops():
    everything = list(lines(r'^\s*(while|loop|for) '))
    by_hand = []
    for name, _, _, body in functions():
        for m in re.finditer(r'while [^\n]*\{\n(.*?)\n    \}', body, re.S):
            if re.search(r'\b(\w+) [+-]= 1;', m.group(1)):
                by_hand.append(name)
    print('\n'.join(everything))
    print(len(everything), 'of them by hand:', len(by_hand), ', '.join(by_hand))


def facts():
    found = collections.defaultdict(list)
    for name, _, clauses, _ in functions():
        for r in re.finditer(r'requires\s*(\w+\s*)?\{(.*?)\}\s*(?=\n)', clauses + '\n', re.S):
            for part in r.group(2).split('×'):
                found[' '.join(part.split()).strip('() ')].append(name)
    for fact, names in sorted(found.items(), key=lambda x: -len(x[1])):
        if len(names) > 2:
            yield f'{len(names)} {fact} | {", ".join(names)}'


def pairs():
    found = collections.defaultdict(list)
    for name, text, _, _ in functions():
        ps = [re.sub(r'\s+', ' ', p.strip()) for p in re.split(r',\s*(?![^<\[]*[>\]])', text)]
        ps = [p for p in ps if ':' in p]
        for i, p in enumerate(ps):
            for q in ps[i + 1:]:
                found[p, q].append(name)
    for (p, q), names in sorted(found.items(), key=lambda x: -len(x[1])):
        if len(names) > 3:
            yield f'{len(names)} ({p}, {q}) | {", ".join(names)}'


def switches():
    own = {line.split('::')[1].split(':')[0] for line in enums()}
    for name, _, _, body in functions():
        for m in re.finditer(r'match [^\n]*\{\n\s*(?:&?)(\w+)::', body):
            if m.group(1) in own:
                yield f'{name}: {m.group(1)}'


def proofs():
    kinds, length = collections.Counter(), collections.Counter()
    for f in glob.glob('crates/*/proofs/**/*.antt', recursive=True):
        kind = f.split('/')[-1]
        if kind not in ('Proof.antt', 'Answers.antt', 'Invariants.antt'):
            kind = 'lemmas'
        kinds[kind] += 1
        length[kind] += open(f).read().count('\n')
    for kind in sorted(kinds):
        print(f'{kind}: {kinds[kind]} files, {length[kind]} lines')


words = {
    'enums': lambda: show(enums()),
    'numbers': lambda: show(lines(r'refusal: u32|refusal: \d+|[Rr]efused\(\w+\)|\b(target|n|i): u32,')),
    'flags': lambda: show(flags()),
    'twins': lambda: show(twins()),
    'loops': loops,
    'conversions': lambda: show(lines(
        r' as (u8|u32|u64|usize|i32)\b|std::num::|\bf64::to_bits\(|\bu64::leading_zeros\(|[01]\.0 / 0\.0')),
    'facts': lambda: show(facts()),
    'pairs': lambda: show(pairs()),
    'buffers': lambda: show(lines(r'\b\w+: &?(mut )?\[.*; \w+\],?$|: &mut \[u8\],')),
    'switches': lambda: show(switches()),
    'proofs': proofs,
}
if len(sys.argv) != 2 or sys.argv[1] not in words:
    sys.exit(__doc__)
words[sys.argv[1]]()
