#!/usr/bin/env python3
"""Counts the places in src/ that the design pass is about, point by point: of a commit, or of the files as they stand.

    tools/places.py [COMMIT] [--list POINT]
"""
import re
import subprocess
import sys

HAND = (
    'both least lower less_of min_of greater same one_if copy clear reset clipped value_if is_below not_above not_below negative wide minus '
    'magnitude number_of asked_of unfound is_nan is_at is_left_out none halves_up hand_over letter_at at_or_one row_at load_two'
).split()


def files(commit, pattern):
    if commit is None:
        names = subprocess.run(['git', 'ls-files', '-co', '--exclude-standard', 'crates'], capture_output=True, text=True, check=True).stdout.split('\n')
    else:
        names = subprocess.run(['git', 'ls-tree', '-r', '--name-only', commit, 'crates'], capture_output=True, text=True, check=True).stdout.split('\n')
    for name in sorted(set(names)):
        if re.search(pattern, name):
            try:
                yield name, open(name).read() if commit is None else subprocess.run(['git', 'show', f'{commit}:{name}'], capture_output=True, text=True, check=True).stdout
            except FileNotFoundError:
                pass


def crate(name):
    return name.split('/')[1]


def functions(text):
    """Each function's name, its parameters and everything before its body."""
    for found in re.finditer(r'^( *)(?:pub(?:\([a-z]+\))? )?(?:extern "C" )?fn (\w+)[^(]*\(', text, re.M):
        depth, i = 1, found.end()
        while depth:
            depth += {'(': 1, ')': -1}.get(text[i], 0)
            i += 1
        body = re.compile(r'^%s\{$|\{$' % found.group(1), re.M).search(text, i)
        head = text[found.start():body.start() if body else len(text)]
        yield found.group(2), text[found.end():i - 1], head


def parameters(between):
    depth, n, some = 0, 0, False
    for c in between:
        depth += {'(': 1, '[': 1, '<': 1, ')': -1, ']': -1, '>': -1}.get(c, 0)
        n += c == ',' and depth == 0
        some |= not c.isspace()
    return n + (some and not between.rstrip().endswith(',')) if some else 0


def lines(sources, pattern):
    return [f'{name}:{n}: {line.strip()}' for name, text in sources for n, line in enumerate(text.split('\n'), 1)
            if not line.lstrip().startswith('//') and re.search(pattern, line)]


def main():
    words = sys.argv[1:]
    listed = words[words.index('--list') + 1] if '--list' in words else None
    if listed:
        del words[words.index('--list'):words.index('--list') + 2]
    commit = words[0] if words else None
    src = list(files(commit, r'^crates/\w+/src/.*\.rt$'))
    proofs = list(files(commit, r'^crates/\w+/proofs/.*\.antt$'))
    signed = [(name, f, args, head) for name, text in src for f, args, head in functions(text)]
    library = [s for s in signed if not crate(s[0]).startswith('test_')]
    where = {}
    for name, f, _, _ in library:
        where.setdefault(f, set()).add(crate(name))
    points = {
        '1 answers: enums and structs with a number or a flag beside a value': lines(src, r'Refused\(u32\)|pub (number: u32|one: bool|all: bool|good: bool|found: u32),|^\s*(number: u32|good: bool),'),
        '1 refusals: tests chained by numbers': lines(src, r'refusal::(unless|first)\('),
        '1 refusals: functions that answer a number for a refusal':
            [f'{n}: {f}' for n, f, _, h in signed if re.search(r'-> u32', h) and re.search(r'refusal|Says|judged|Refuses', h) and crate(n) not in ('refusal', 'tugzeck')],
        '1 kinds: constants that number kinds, calls, verdicts or counts': lines(src, r'^\s*(pub )?const [A-Z_]+: (u8|u32|usize) = [0-9]+;'),
        '2 twins: functions by m and r beside those by number': [f'{n}: {f}' for n, f, _, _ in signed if re.search(r'_by$', f) and crate(n) != 'tugzeck'],
        '2 twins: functions for one width, size or type beside another':
            [f'{n}: {f}' for n, f, _, _ in signed if re.search(r'(_costs|_of_7|_of_15|_sixteen|^of_\w+|^past_mut)$', f) and f not in ('of_mut', 'of_row')
             or re.search(r'parts\.rt', n)],
        '2 twins: functions of one name in two crates of the library': [f'{f}: {", ".join(sorted(c))}' for f, c in sorted(where.items()) if len(c) > 1],
        '3 loops that count by hand': lines(src, r'^\s*(\'\w+: )?(while|loop)\b'),
        '4 by hand: functions that the library has': [f'{n}: {f}' for n, f, _, _ in signed if f in HAND],
        '5 facts: clauses that say that a code is chosen': lines(src, r'\bCoded\b(?!.*ghost use)'),
        '5 parameters: functions with eight parameters and more': [f'{n}: {f}' for n, f, a, _ in signed if parameters(a) >= 8],
        '5 labels that say nothing': lines(src, r'^\s*(requires|ensures) (\w+_\d+|by_index|le_w|value|each) \{'),
        '6 buffers with a place beside them': [f'{n}: {f}' for n, f, a, _ in signed if re.search(r'out(put)?: &mut \[u8\],\s*at: usize', a)],
        '6 parallel slices': [f'{n}: {f}' for n, f, a, _ in signed if re.search(r'codes: &(\'a )?\[u32\],\s*numbers', a)],
        '7 switches on what to do': [f'{n}: {f}' for n, f, a, _ in signed if re.search(r'\b(soft|layered): bool|\bcall: u32', a)],
        '8 proofs by hand of a whole function': [n for n, _ in proofs if n.endswith('/Proof.antt')],
        '8 answers that only call the search': lines(proofs, r'λ c( κs)?\. search rules\)'),
    }
    for point, found in points.items():
        print(f'{len(found):5}  {point}')
        if listed and point.startswith(listed):
            for line in found:
                print('         ' + line)


main()
