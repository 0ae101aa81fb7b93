#!/usr/bin/env python3
"""Lists the places of older forms in crates/*/src, point by point, for docs/DESIGN-PASS.md.

usage: tools/places.py [FOLDER]     FOLDER: a checkout, by default the current one

It finds candidates by their text; which of them are places is said on that page. Python 3, standard library only.
"""
import collections
import difflib
import glob
import os
import re
import sys

KEPT = {'let', 'mut', 'for', 'in', 'if', 'else', 'match', 'return', 'fn', 'while', 'Ok', 'Err', 'Some', 'None', 'self'}


def sources():
    for path in sorted(glob.glob('crates/*/src/**/*.rt', recursive=True)):
        yield path[len('crates/'):], open(path).read()


def grep(title, patterns):
    """Lines outside comments in which one of the patterns stands."""
    found = []
    for path, text in sources():
        for number, line in enumerate(text.split('\n'), 1):
            if line.lstrip().startswith('//'):
                continue
            if any(re.search(p, line) for p in patterns):
                found.append(f'  {path}:{number}: {line.strip()[:100]}')
    print(f'{title}: {len(found)}')
    print('\n'.join(found))


def enums():
    """Enums of two cases, one of which carries nothing or both of which carry one value."""
    found = []
    for path, text in sources():
        for m in re.finditer(r'enum (\w+)[^{]*\{(.*?)\n\}', text, re.S):
            cases = re.findall(r'^    (\w+)(\(.*\)| \{)?,?$', re.sub(r'//.*', '', m.group(2)), re.M)
            if len(cases) == 2 and any(c[1] for c in cases):
                found.append(f'  {path}: {m.group(1)} {" | ".join(c[0] + c[1] for c in cases)}')
    print(f'1a enums of the shape of Option or Result: {len(found)}')
    print('\n'.join(found))


def functions():
    """Each function with its file, name, head and body, comments taken out."""
    for path, text in sources():
        text = re.sub(r'//.*', '', text)
        for m in re.finditer(r'\bfn (\w+)', text):
            after = text[m.end():]
            end = re.search(r';\s*\n|\n\s*\{\s*(?:\n|\})|(?<![=>≡] )\{ *\n', after)
            head = after[:end.start()] if end else after
            if end is None or end.group().startswith(';'):
                yield path, m.group(1), head, ''
                continue
            start, depth = m.end() + end.start() + end.group().index('{'), 0
            for at in range(start, len(text)):
                depth += (text[at] == '{') - (text[at] == '}')
                if depth == 0:
                    break
            yield path, m.group(1), head, text[start:at + 1]


def twins():
    """Pairs of functions whose bodies have nearly one shape, names and numbers taken as equal."""
    seen = []
    for path, name, _head, body in functions():
        words = re.findall(r'[A-Za-z_]\w*|\d+|"[^"]*"|\S', body)
        shape = [w if w in KEPT or not re.match(r'[\w"]', w) else 'x' for w in words]
        if len(shape) >= 16:
            seen.append((f'{path}:{name}', words, shape))
    found = []
    for i, a in enumerate(seen):
        for b in seen[i + 1:]:
            shape = difflib.SequenceMatcher(None, a[2], b[2], autojunk=False)
            if shape.real_quick_ratio() < 0.85 or shape.quick_ratio() < 0.85 or shape.ratio() < 0.88:
                continue
            words = difflib.SequenceMatcher(None, a[1], b[1], autojunk=False).ratio()
            if words >= 0.6:
                found.append(f'  {a[0]} and {b[0]}: shape {shape.ratio():.2f}, words {words:.2f}')
    print(f'2 pairs of functions of one shape: {len(found)}')
    print('\n'.join(found))


def together():
    """Facts in the clauses, and pairs of parameters, of three or more functions."""
    facts, pairs = collections.defaultdict(set), collections.defaultdict(set)
    for path, name, head, _body in functions():
        where = f'{path}:{name}'
        depth = 0
        for at, c in enumerate(head):
            depth += (c == '(') - (c == ')')
            if c == ')' and depth == 0:
                break
        names = [n for n in re.findall(r'(?:^|[,(]\s*)(?:mut )?(\w+)\s*:', head[:at + 1]) if n not in ('heap', 'self')]
        for i, a in enumerate(names):
            for b in names[i + 1:]:
                pairs[a, b].add(where)
        for clause in re.findall(r'requires\s*\w*\s*\{(.*)\}\s*$', head, re.M):
            plain = re.sub(r'\b(codes|f)\b', 'f', re.sub(r'\.(now|old|new)\b', '', clause))
            for fact in plain.split(' × '):
                facts[fact.strip('() ')].add(where)
    for title, table in (('5a facts required by three or more', facts), ('5b parameters together in three or more', pairs)):
        rows = [(k, v) for k, v in table.items() if len(v) >= 3]
        print(f'{title}: {len(rows)}')
        for k, v in sorted(rows, key=lambda r: -len(r[1])):
            print(f'  {k if isinstance(k, str) else " ".join(k)}: {", ".join(sorted(v))}')


def proofs():
    """Answers and lemmas of each crate."""
    for crate in sorted(os.listdir('crates')):
        answers = lemmas = lines = 0
        for path in glob.glob(f'crates/{crate}/proofs/**/*.antt', recursive=True):
            text = open(path).read()
            lines += text.count('\n')
            answers += len(re.findall(r'^pub [\w.-]+ : goal', text, re.M))
            if not path.endswith(('/Answers.antt', '/Invariants.antt')):
                lemmas += len(re.findall(r'^(?:pub |abbrev pub |abbrev |unfoldable pub )?[a-zA-Z][\w-]* : ', text, re.M))
        if lines:
            print(f'  {crate}: {answers} answers, {lemmas} statements, {lines} lines')


def main():
    os.chdir(sys.argv[1] if len(sys.argv) > 1 else '.')
    enums()
    grep('1b flags in structs', [r'^\s+(?:pub )?\w+: bool,'])
    grep('1c results that hold an option or a result', [r'Result<(?:Result|Option)<'])
    grep('1d refusals handed on by hand', [r'Err\(why\) => return (?:Ok\(Err|Err)\('])
    grep('1e numbers for kinds, and a length in the place of none', [r'-> \(u32, ', r'^\s+\w+\.len\(\)$', r'-> u8$'])
    twins()
    grep('3 loops over a range, or by a test', [r'^\s*for .* in .*\.\.', r'^\s*while ', r'^\s*loop '])
    grep('3b loops over a list that search, fill or add up', [r'^\s*for (?!.*\.\.)(?!line )'])
    grep('4 comparisons, conversions and printing', [r'\(\) != \w+\.', r'fn (?:same|digit|refusal|refused|faulty|told|code_of|element_of)\b', r'\.0 < \w+\.\w+\.0', r'impl From<', r'(?:^|[=(] ?)match .*\{ *$'])
    together()
    grep('6 buffers with a length or a place beside', [r'\[\w+(?:\(0\))?; ?\d+\]', r'\b(?:count|at|n|place|low|high): usize'])
    grep('7 switches on which step to run', [r'match (?:words|field)', r'words\[0\] =='])
    print('8 proofs')
    proofs()


if __name__ == '__main__':
    main()
