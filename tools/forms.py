#!/usr/bin/env python3
"""Lists the places in crates/*/src that older forms may stand in, by kind, for docs/DESIGN-PASS.md.

    tools/forms.py            how many places of each kind there are
    tools/forms.py KIND ..    the places of these kinds
    tools/forms.py --at REV [KIND ..]   the same, as the files stood at a commit

A place is a line to look at, not a verdict.
"""
import re
import subprocess
import sys

LINES = {
    # 1: enums of one's own, numbers that stand for a kind or a refusal, a match that takes an Option apart and puts it together again
    'enum': r'^[ \t]*(pub(\(crate\))? )?enum \w+',
    'number': r'^[ \t]*(pub(\(crate\))? )?fn (number|refused|load_number|reason)\b',
    'rebuilt': r'None => (None|return|Ok)|^\s*Some\(\w+\) => (Some|Ok)\(|\{ None \}|else \{\s*$(?=\n\s*None\n)',
    'sentinel': r'unwrap_or\(0\)|None => 0,|map_or\(0,|number: 0,',
    # 3: loops that count, and loops that walk a list by taking its first off
    'counted': r'^[ \t]*for \w+ in [^{]*\.\.',
    'taken_off': r'^[ \t]*while ',
    # 4: impls by hand of what is derived or stands in the library; tables of words and of numbers
    'impl_by_hand': r'^[ \t]*impl(<[^>]*>)? (From|TryFrom|fmt::Display|PartialEq|Eq|Ord|PartialOrd|Clone|Copy|Hash|Default|Debug)\b',
    'word_table': r"fn \w+\([^)]*\) -> (&'static str|Words|\(&'static str, u8\))",
    'number_table': r'=> [0-9]+,$',
    'same': r'^[ \t]*fn same\(',
    # 5: what a function asks of its caller
    'requires': r'^[ \t]*requires\b',
    'row_and_used': r'\brow: &(mut )?\[K\], used',
    # 6: arrays, and a count beside one
    'array': r'^[ \t]*(pub(\(crate\))? )?\w+: \[.*; \w+\],$',
    'count_beside': r'^[ \t]*(pub(\(crate\))? )?(used|len|head): usize,$',
    # 7: an enum of steps, and the match that runs one of them
    'step_switch': r'^[ \t]*Act::\w+(\(\w+\))? =>',
}


def files(rev):
    if rev is None:
        names = subprocess.run(['git', 'ls-files', 'crates/*/src/*.rt'], capture_output=True, text=True, check=True).stdout.split()
        return {n: open(n).read() for n in names}
    names = subprocess.run(['git', 'ls-tree', '-r', '--name-only', rev, 'crates'], capture_output=True, text=True, check=True).stdout.split()
    names = [n for n in names if '/src/' in n and n.endswith('.rt')]
    return {n: subprocess.run(['git', 'show', f'{rev}:{n}'], capture_output=True, text=True, check=True).stdout for n in names}


def by_line(texts, pattern):
    for name, text in sorted(texts.items()):
        for m in re.finditer(pattern, text, re.M):
            at = text.count('\n', 0, m.start()) + 1
            line = text.split('\n')[at - 1].strip()
            if not line.startswith('//') and not line.startswith('ghost use'):
                yield f'{name}:{at}: {line[:110]}'


def functions(text):
    """Each function's name, line, parameters and body."""
    for m in re.finditer(r'^([ \t]*)(?:pub(?:\([a-z]+\))? )?fn (\w+)', text, re.M):
        close = re.search(r'^' + re.escape(m[1]) + r'\}', text[m.end():], re.M)
        open_ = re.search(r'^' + re.escape(m[1]) + r'\{$|\{$', text[m.end():], re.M)
        if not close or not open_ or open_.start() > close.start():
            continue
        head = text[m.end():m.end() + open_.start()]
        yield m[2], text.count('\n', 0, m.start()) + 1, head, text[m.end() + open_.end():m.end() + close.start()]


def forwarders(texts):
    """Functions whose whole body hands their own parameters on to a function of the same name."""
    for name, text in sorted(texts.items()):
        for fn, at, _, body in functions(text):
            one = ' '.join(body.split())
            if re.fullmatch(r'(self\.\w+|self\.\w+\(\)|\w+)(\.|::)' + fn + r'\([\w, ]*\);?', one):
                yield f'{name}:{at}: {fn}'


def repeats(texts, least=4):
    """Runs of at least so many lines that stand in two functions to the letter."""
    seen = {}
    for name, text in sorted(texts.items()):
        for fn, at, _, body in functions(text):
            lines = [l.strip() for l in body.split('\n') if l.strip() and not l.strip().startswith('//')]
            for i in range(len(lines) - least + 1):
                run = tuple(lines[i:i + least])
                if sum(len(l) > 3 for l in run) >= least - 1:
                    seen.setdefault(run, []).append(f'{name}: {fn}')
    pairs = {}
    for run, where in seen.items():
        where = sorted(set(where))
        if len(where) > 1:
            pairs.setdefault(tuple(where), run)
    for where, run in sorted(pairs.items()):
        yield ' ~ '.join(where) + f': {run[0][:60]}'


def main():
    args = sys.argv[1:]
    rev = None
    if args[:1] == ['--at']:
        rev, args = args[1], args[2:]
    texts = files(rev)
    kinds = {k: (lambda p=p: by_line(texts, p)) for k, p in LINES.items()}
    kinds['forwarder'] = lambda: forwarders(texts)
    kinds['repeat'] = lambda: repeats(texts)
    for kind in args or kinds:
        found = list(kinds[kind]())
        print(f'{kind}: {len(found)}')
        if args:
            print('\n'.join('  ' + f for f in found))


if __name__ == '__main__':
    main()
