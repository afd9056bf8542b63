#!/usr/bin/env python3
"""Lists the places in crates/*/src, and for point 8 in crates/*/proofs, that docs/DESIGN-PASS.md counts, point by point.

    tools/forms.py [COMMIT] [--point N] [--count]

Without COMMIT it reads the files as they stand. --count prints a line for each crate and point in place of the places.
"""
import argparse
import collections
import re
import subprocess

NAME = re.compile(r'[A-Za-z_][A-Za-z0-9_]*')


def files(commit):
    """The source files with their lines: pairs of path and text."""
    tracked = ['git', 'ls-tree', '-r', '--name-only', commit] if commit else ['git', 'ls-files', '-co', '--exclude-standard']
    paths = subprocess.run(tracked, capture_output=True, text=True, check=True).stdout.split('\n')
    for path in paths:
        if not re.fullmatch(r'crates/[^/]+/src/.*\.rt', path):
            continue
        if commit:
            yield path, subprocess.run(['git', 'show', f'{commit}:{path}'], capture_output=True, text=True, check=True).stdout
        else:
            try:
                yield path, open(path, encoding='utf-8').read()
            except FileNotFoundError:
                continue


def closing(text, start, pair='{}'):
    """The place after the bracket that closes the one at `start`."""
    depth = 0
    for i in range(start, len(text)):
        if text[i] == pair[0]:
            depth += 1
        elif text[i] == pair[1]:
            depth -= 1
            if depth == 0:
                return i + 1
    return len(text)


def line_of(text, at):
    return text.count('\n', 0, at) + 1


def bare(text):
    """The text with comments and strings blanked, so that places stay."""
    blank = lambda m: re.sub(r'[^\n]', ' ', m[0])
    return re.sub(r'//[^\n]*|b?"(?:[^"\\]|\\[\s\S])*"', blank, text)


class Function:
    """A function: its name, parameters, `requires` and body."""

    def __init__(self, path, text, match):
        self.path, self.name = path, match[1]
        self.line = line_of(text, match.start())
        open_ = text.index('(', match.end() - 1)
        after = closing(text, open_, '()')
        self.parameters = [re.sub(r'\s+', ' ', p).strip() for p in split(text[open_ + 1:after - 1]) if p.strip()]
        brace = re.compile(r'\n\s*\{\n|\)[^\n;{]*\{\n|\n\{').search(text, after - 1)
        body = brace.end() - 2 if brace else len(text)
        body = text.index('{', body - 1) if brace else len(text)
        self.head = text[after:body]
        self.body = text[body:closing(text, body)]
        self.facts = []
        for clause in re.finditer(r'\brequires(?:\s+\w+)?\s*\{', self.head):
            end = closing(self.head, clause.end() - 1)
            self.facts += [re.sub(r'\s+', ' ', f).strip(' ()') for f in self.head[clause.end():end - 1].split(' × ')]


def split(text):
    """Splits a parameter list at its own commas."""
    parts, depth, part = [], 0, ''
    for c in text:
        depth += c in '([<{'
        depth -= c in ')]>}'
        if c == ',' and depth == 0:
            parts.append(part)
            part = ''
        else:
            part += c
    return parts + [part]


def functions(path, text):
    text = bare(text)
    return [Function(path, text, m) for m in re.finditer(r'\bfn (\w+)(?:<[^(]*>)?\(', text)]


def skeleton(function):
    """The body with each name and number replaced by the order in which it came first."""
    seen = {}
    rank = lambda m: m[0] if m[0] in WORDS else f'_{seen.setdefault(m[0], len(seen))}'
    return re.sub(r'\s+', ' ', re.sub(r'[A-Za-z_][A-Za-z0-9_]*|\d+', rank, function.body))


WORDS = set('as break else false for if in let loop match mut return self true while Ok Err Some None'.split())


def enums(path, text):
    """1: enums of two cases, of which one at least has a value: the shape of Option or Result."""
    text = bare(text)
    for m in re.finditer(r'\benum (\w+)(?:<[^{]*>)?\s*\{', text):
        cases = [c.strip() for c in split(text[m.end():closing(text, m.end() - 1) - 1]) if c.strip()]
        if len(cases) == 2 and any('(' in c or '{' in c for c in cases):
            yield line_of(text, m.start()), f'enum {m[1]}'


def numbers(path, text):
    """1: a refusal's number, or a setting's place, written as a number."""
    for m in re.finditer(r'\bnumber: \d+|\bunsound\w*\(\d+|\bRefused\(\d+\)|\b(?:number|kind|formula) [!=<]=? \d+|\d+ < formula', bare(text)):
        yield line_of(text, m.start()), m[0]


def sentinels(path, text):
    """1: an answer that stands for none: the comment before the function says so."""
    for m in re.finditer(r'((?:^ *//[^\n]*\n)+)(?: *#\[[^\n]*\n)* *(?:pub(?:\([^)]*\))? )?(?:const )?fn (\w+)[^{]*?->([^{\n]*)', text, re.M):
        if re.search(r'(where|if) there is none|where (both|none) |none where|or 0 |0 where|past all|no cell', m[1]) and 'Option' not in m[3]:
            yield line_of(text, m.end()), f'fn {m[2]}'


def loops(path, text):
    """3: a `while`, or a `loop`, that counts an index by hand: its body adds to, or takes from, a name of its test by one."""
    text = bare(text)
    for m in re.finditer(r'\b(while [^{]*|loop )\{', text):
        body = text[m.end() - 1:closing(text, m.end() - 1)]
        names = set(NAME.findall(m[1] if m[1].startswith('while') else body))
        if any(re.search(rf'\b{n} (?:\+=|-=) \w+;', body) for n in names):
            yield line_of(text, m.start()), m[1].strip()


def whiles(path, text):
    """3, in another way: every `while` and every `loop`."""
    for m in re.finditer(r'^\s*(?:let \w+ = )?(while\b[^{]*|loop )\{', bare(text), re.M):
        yield line_of(text, m.end()), m[1].strip()


def by_hand(path, text):
    """4: printing, copying, conversion, equality and order by hand."""
    pattern = (r'\.write_all\(|\.print\(|\bwrite(?:_\w+)?\(rt|\bfn (?:is_same|is_equal|smaller|larger|wide|natural|size|pick|lower_case|is_letter|is_digit)\b'
               r'|\b\w+(?:\.\w+)* as (?:u64|i64)\b|\(\w+ as u64\)')
    for m in re.finditer(pattern, bare(text)):
        yield line_of(text, m.start()), m[0].strip()


def arrays(path, text):
    """6: buffers of a fixed length that are handed on, and lists beside one another: three slices or more."""
    text = bare(text)
    for m in re.finditer(r'\w+: &(?:mut )?\[\w+; \w+\]', text):
        yield line_of(text, m.start()), m[0]
    for f in functions(path, text):
        slices = [p for p in f.parameters if re.search(r': &(?:mut )?\[\w+\]$', p)]
        if len(slices) >= 3:
            yield f.line, f'fn {f.name}: {len(slices)} slices'


def switches(path, text):
    """7: a kind that chooses the step to run."""
    for m in re.finditer(r'\bmatch (?:kind|self|formula|source)\b|if kind == \d+|\bKind::\w+|if let Source::\w+', bare(text)):
        yield line_of(text, m.start()), m[0]


def twins(all_functions):
    """2: functions whose bodies are the same but for names and numbers, and functions of one name and body in several crates."""
    groups = collections.defaultdict(list)
    for f in all_functions:
        if len(f.body) > 40:
            groups[skeleton(f)].append(f)
    for group in groups.values():
        if len(group) > 1:
            for f in group:
                others = ', '.join(f'{g.path.split("/")[1]}::{g.name}' for g in group if g is not f)
                yield f.path, f.line, f'fn {f.name} ~ {others}'


def together(all_functions):
    """5: three parameters or more that stand side by side in three functions or more, and a fact required in three or more."""
    runs, facts = collections.defaultdict(set), collections.defaultdict(set)
    for f in all_functions:
        crate, key = f.path.split('/')[1], (f.path, f.line, f.name)
        for i in range(len(f.parameters) - 2):
            runs[crate, tuple(f.parameters[i:i + 3])].add(key)
        for fact in f.facts:
            facts[crate, fact].add(key)
    found = {}
    for (crate, run), keys in runs.items():
        if len(keys) >= 3:
            for k in keys:
                found.setdefault(k, set()).add('parameters')
    for (crate, fact), keys in facts.items():
        if len(keys) >= 3:
            for k in keys:
                found.setdefault(k, set()).add('facts')
    for (path, line, name), kinds in found.items():
        yield path, line, f'fn {name}: {", ".join(sorted(kinds))}'


def answers(commit):
    """8: answers of goals that stand twice or more in one file but for the goal's name, and lines that bind one fact in two answers or more."""
    tracked = ['git', 'ls-tree', '-r', '--name-only', commit] if commit else ['git', 'ls-files', '-co', '--exclude-standard']
    for path in subprocess.run(tracked, capture_output=True, text=True, check=True).stdout.split('\n'):
        if not re.fullmatch(r'crates/[^/]+/proofs/.*/?Answers\.antt', path):
            continue
        try:
            text = subprocess.run(['git', 'show', f'{commit}:{path}'], capture_output=True, text=True, check=True).stdout if commit else open(path, encoding='utf-8').read()
        except FileNotFoundError:
            continue
        lines = collections.defaultdict(list)
        for n, line in enumerate(text.split('\n'), 1):
            if line.strip().startswith('let ') and not re.match(r'let \w+ = c\.[\w.]+ in$', line.strip()):
                lines[line.strip()].append(n)
        for line, at in lines.items():
            if len(at) > 1:
                yield path, at[0], f'{len(at)} times: {line[:100]}'


def main():
    parser = argparse.ArgumentParser(description=__doc__, formatter_class=argparse.RawDescriptionHelpFormatter)
    parser.add_argument('commit', nargs='?')
    parser.add_argument('--point', help='1e, 1n, 1s, 2, 3, 3w, 4, 5, 6, 7 or 8')
    parser.add_argument('--count', action='store_true')
    options = parser.parse_args()
    by_file = {'1e': enums, '1n': numbers, '1s': sentinels, '3': loops, '3w': whiles, '4': by_hand, '6': arrays, '7': switches}
    by_all = {'2': twins, '5': together}
    sources = list(files(options.commit))
    places = collections.defaultdict(list)
    for path, text in sources:
        for point, find in by_file.items():
            places[point] += [(path, line, what) for line, what in find(path, text)]
    all_functions = [f for path, text in sources for f in functions(path, text)]
    for point, find in by_all.items():
        places[point] += find(all_functions)
    places['8'] += answers(options.commit)
    for point in sorted(places):
        if options.point and options.point != point:
            continue
        if options.count:
            crates = collections.Counter(p.split('/')[1] for p, _, _ in places[point])
            print(f'{point:3} {len(places[point]):4}  ' + ' '.join(f'{c} {n}' for c, n in sorted(crates.items())))
        else:
            for path, line, what in sorted(places[point]):
                print(f'{point}\t{path}:{line}\t{what}')


if __name__ == '__main__':
    main()
