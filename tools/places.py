#!/usr/bin/env python3
"""Lists the places in crates/*/src that an older form of the language may have left, point by point.

    python3 tools/places.py [FOLDER] [--list]

FOLDER is a checkout (default: this one). With --list each place is printed, else only how many there are. The
script goes by text, so that what it lists are candidates: docs/DESIGN-PASS.md says of each what it is.
"""
import re
import sys
from collections import defaultdict
from itertools import combinations
from pathlib import Path

FUNCTION = re.compile(r'^ *(?:pub(?:\(crate\))? )?(?:final )?fn (\w+)', re.M)


POINTS = [
    '1a own enums',
    '1b matches that rebuild a Result or an Option',
    '1c a bool beside what is written',
    '1d numbers for refusals and kinds',
    '2 bodies of the same shape',
    '3 loops over a range of indices',
    '4a comparisons, copies, conversions and printing in impls',
    '4b conversions, copies and printing in functions',
    '5a facts that three or more functions require',
    '5b three parameters that three or more functions take together',
    '6 buffers, arrays and lists beside one another',
    '7 switches on which step to run, and tables of functions',
    '8 answers in proofs/',
]


def functions(text):
    """The functions of a file: name, signature with its clauses, body, line."""
    for found in FUNCTION.finditer(text):
        start = found.start()
        depth, at = 0, found.end()
        # The body is the first brace that opens a line of its own or ends the line of the signature.
        while at < len(text):
            head = re.compile(r'(?m)(^ *\{$)|(\{$)|(;$)').search(text, at)
            if not head:
                break
            if head.group(3):
                at = None
                break
            at = head.end() - 1
            break
        if at is None or at >= len(text):
            yield found.group(1), text[start:head.start() if head else len(text)], '', text.count('\n', 0, start) + 1
            continue
        depth, end = 0, at
        while end < len(text):
            depth += {'{': 1, '}': -1}.get(text[end], 0)
            end += 1
            if depth == 0:
                break
        yield found.group(1), text[start:at], text[at:end], text.count('\n', 0, start) + 1


def shape(body):
    """A body with each name and number replaced, so that bodies that differ only in them are equal."""
    words = re.findall(r'"[^"]*"|\w+|[^\w\s]', re.sub(r'//.*', '', body))
    keep = {'for', 'in', 'if', 'else', 'match', 'let', 'mut', 'return', 'while', 'true', 'false', 'self', 'Self', 'Ok', 'Err', 'Some', 'None'}
    return ' '.join(w if w in keep or not re.match(r'\w|"', w) else '_' for w in words)


def main():
    words = [w for w in sys.argv[1:] if not w.startswith('--')]
    shown = '--list' in sys.argv
    top = Path(words[0]) if words else Path(__file__).resolve().parent.parent
    files = sorted(top.glob('crates/*/src/*.rt'))
    places = {point: [] for point in POINTS}
    shapes, facts, travel = defaultdict(list), defaultdict(set), defaultdict(list)
    for path in files:
        text = path.read_text()
        name = str(path.relative_to(top / 'crates'))
        if 'RECIPROCALS_4591: [' in text:
            text = re.sub(r'(RECIPROCALS_4591: \[u16; 4591\] = \[)[^\]]*', r'\1', text)
        for number, line in enumerate(text.split('\n'), 1):
            at = f'{name}:{number}: {line.strip()}'
            if re.match(r' *(pub(\(crate\))? )?enum ', line):
                places['1a own enums'].append(at)
            if re.search(r'(Ok|Some)\(\w+\) => (Ok|Some)\(|(Err\(\w+\)|None) => (return )?(Err|None)|Err\(\w+\) => (return )?(Ok|None)|Some\(.*\) => .*,$', line):
                places['1b matches that rebuild a Result or an Option'].append(at)
            if re.search(r'entry: 0\b|told\(\d', line):
                places['1d numbers for refusals and kinds'].append(at)
            if re.search(r'\bwhile |\bfor \(?\w+.* in (\w+|[^{]*)\.\.', line):
                places['3 loops over a range of indices'].append(at)
            if re.search(r'impl (\w+::)?(PartialEq|Eq|Ord|PartialOrd|Clone|Copy|Debug|Display|From|TryFrom)\b', line) or re.search(
                r'impl<.*(Display|From|TryFrom)', line
            ):
                places['4a comparisons, copies, conversions and printing in impls'].append(at)
            if re.search(r'fn (report|letter|number|read_\w+|code_of|tell_\w+|\w*_of|told|fill|lists|blank|all_digits)\b', line):
                places['4b conversions, copies and printing in functions'].append(at)
            if re.search(r'\[0(u16|u8)?; |: Vec<|: \[u16; ', line):
                places['6 buffers, arrays and lists beside one another'].append(at)
            if re.search(r'\b\w+: bool\b|: fn\(|-> fn\(|\[fn', line):
                places['7 switches on which step to run, and tables of functions'].append(at)
        for function, signature, body, number in functions(text):
            at = f'{name}:{number}: {function}'
            if re.search(r'-> bool', signature) and re.search(r'&mut', signature):
                places['1c a bool beside what is written'].append(at)
            form = shape(body)
            if len(form.split()) > 12:
                shapes[form].append(at)
            for clause in re.findall(r'requires (?:\w+ )?\{ (.*) \}', signature):
                facts[re.sub(r'\.(now|old|new)\b', '', clause)].add(at)
            lent = re.findall(r'(\w+): ([^,()]+?)[,)\n]', signature.split('requires')[0].split('ensures')[0])
            travel[name.split('/')[0]].append((at, frozenset(f'{n}: {t.strip()}' for n, t in lent)))
    places['2 bodies of the same shape'] = [' = '.join(s) for s in shapes.values() if len(s) > 1]
    places['5a facts that three or more functions require'] = [f'{len(s)}: {f}' for f, s in sorted(facts.items()) if len(s) > 2]
    groups = []
    for crate, taken in sorted(travel.items()):
        # The largest sets of parameters that three functions share.
        shared = {a & b & c for (_, a), (_, b), (_, c) in combinations(taken, 3) if len(a & b & c) > 2}
        for group in sorted(shared, key=sorted):
            users = {at for at, parameters in taken if group <= parameters}
            if not any(group < other and users == {at for at, ps in taken if other <= ps} for other in shared):
                groups.append(f"{len(users)}: {crate}: {', '.join(sorted(group))}")
    places['5b three parameters that three or more functions take together'] = groups
    answers = [p for p in top.glob('crates/*/proofs/**/Answers.antt') if '/out/' not in str(p)]
    goals = [f'{p.relative_to(top)}: {line}' for p in sorted(answers) for line in p.read_text().split('\n') if line.startswith('pub ')]
    places['8 answers in proofs/'] = goals
    for point in sorted(places):
        print(f'{point}: {len(places[point])}')
        if shown and not point.startswith('8'):
            for place in places[point]:
                print(f'    {place}')


main()
