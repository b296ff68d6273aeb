#!/usr/bin/env python3
"""Counts, in the sources, the places that docs/DESIGN-PASS.md speaks of.

usage: design_counts.py [COMMIT] [--list]

Without COMMIT it reads the working tree. With --list each place is printed, else a number for each rule. Places are found by text:
what a rule takes for a place is read by a person before it counts as one."""
import collections
import re
import subprocess
import sys

FAILURE = re.compile(r'\b(Refused|Failed|Nothing|Bad|End|Full|Deep|Error|Unlisted|NoNumber|Wrong|Tree|New|Neither|Broken|Missing)\b')
KINDS = ('UNIT NIL PRODUCT CONS INFIX NEGATE APPLICATION CONSTANT VARIABLE FUNCTION INTRINSIC LET MATCH SEQUENCE LINK UNIT_PATTERN NIL_PATTERN '
         'AS_PATTERN PRODUCT_PATTERN CONS_PATTERN VARIABLE_PATTERN CONSTANT_PATTERN EXPANDED EXPANDED_NIL').split()
CODES = 'NEVER WITNESS CONSTRAINT NONE'.split()


def sources(commit):
    if commit is None:
        names = subprocess.run(['git', 'ls-files', 'crates/*/src/*.rt'], capture_output=True, text=True, check=True).stdout.split()
        return {name: open(name, encoding='utf-8').read() for name in names}
    names = subprocess.run(['git', 'ls-tree', '-r', '--name-only', commit, 'crates'], capture_output=True, text=True, check=True).stdout.split()
    names = [name for name in names if re.fullmatch(r'crates/[a-z0-9_]+/src/.*\.rt', name)]
    return {name: subprocess.run(['git', 'show', f'{commit}:{name}'], capture_output=True, text=True, check=True).stdout for name in names}


def line_of(text, at):
    return text.count('\n', 0, at) + 1


def functions(text):
    """Each function: its name, where it starts, its parameters, its clauses, its body."""
    for m in re.finditer(r'^[ \t]*(?:pub )?fn (\w+)', text, re.M):
        depth, i = 0, m.end()
        while text[i] != '(':
            i += 1
        start = i
        while True:
            depth += {'(': 1, ')': -1}.get(text[i], 0)
            i += 1
            if depth == 0:
                break
        parameters = [p.strip() for p in re.split(r',(?![^(<]*[)>])', text[start + 1:i - 1]) if p.strip()]
        body = re.search(r'^[ \t]*\{$|\{\s*$|\{[^}]*\}$', text[i:], re.M)
        ends = re.search(r'^\}|^    \}', text[i:], re.M)
        whole = text[i:i + (ends.end() if ends else len(text))]
        yield m.group(1), m.start(), parameters, whole


def enums(text):
    for m in re.finditer(r'^[ \t]*(?:pub )?enum (\w+)[^{]*\{(.*?)^\s*\}', text, re.M | re.S):
        variants = [v.strip() for v in re.sub(r'//.*', '', m.group(2)).split(',\n') if v.strip()]
        yield m.group(1), m.start(), variants


def rules(files):
    found = collections.OrderedDict()

    def place(rule, name, at, what):
        found.setdefault(rule, []).append((name, at, what))

    for rule in ('1 enums of the shape of Option or Result', '1 numbers of refusals', '1 comparisons with numbers of kinds and codes', '3 loops that count an index by hand',
                 '4 casts', '5 functions of six parameters or more'):
        found[rule] = []
    for name, text in files.items():
        for enum, at, variants in enums(text):
            payload = [v for v in variants if '(' in v]
            if payload and len(variants) <= 4 and any(FAILURE.match(v) for v in variants) and enum not in ('Simple', 'Tribool'):
                place('1 enums of the shape of Option or Result', name, line_of(text, at), enum)
        for m in re.finditer(r'Refused\((\d+|[A-Z_]+)\)', text):
            place('1 numbers of refusals', name, line_of(text, m.start()), m.group())
        words = '|'.join(KINDS + CODES)
        for m in re.finditer(rf'(?:[=!]=|<=?) (?:{words})\b|\b(?:{words}) (?:<=?|[=!]=)|^\s*(?:{words}) =>|^\s*(?:(?:{words}) \| )+(?:{words}) =>', text, re.M):
            place('1 comparisons with numbers of kinds and codes', name, line_of(text, m.start()), m.group().strip())
        for m in re.finditer(r'^([ \t]*)while ([^\n]*?) \{\n(.*?)^\1\}', text, re.M | re.S):
            counters = [v for v in re.findall(r'\b([a-z_]\w*)\b', m.group(2)) if re.search(rf'^\s*{v} [+-]= 1;', m.group(3), re.M)]
            if counters:
                place('3 loops that count an index by hand', name, line_of(text, m.start()), f'while {m.group(2)}')
        for m in re.finditer(r' as (?:u|i)(?:8|16|32|64|size)\b', text):
            place('4 casts', name, line_of(text, m.start()), m.group().strip())
        for function, at, parameters, _ in functions(text):
            if len(parameters) >= 6:
                place('5 functions of six parameters or more', name, line_of(text, at), f'{function}: {len(parameters)}')
    named = collections.defaultdict(list)
    for name, text in files.items():
        for function, at, _, _ in functions(text):
            if function != 'main' and '/test_' not in name:
                named[function].append((name, line_of(text, at)))
    found['2 functions of one name in several crates'] = [(p[0][0], p[0][1], f'{f}: ' + ', '.join(sorted({q[0].split("/")[1] for q in p})))
                                                         for f, p in sorted(named.items()) if len({q[0].split('/')[1] for q in p}) > 1]
    clauses = collections.defaultdict(list)
    for name, text in files.items():
        for m in re.finditer(r'requires(?: \w+)? \{ (.*) \}$', text, re.M):
            for part in re.split(r' × ', re.sub(r'[()]', '', m.group(1))):
                part = re.sub(r'\.(?:now|old|new)\b', '', part.strip())
                clauses[name.split('/')[1], part].append((name, line_of(text, m.start())))
    found['5 facts that three or more contracts of a crate require'] = [(p[0][0], p[0][1], f'{crate}: {part} ({len(p)})')
                                                                       for (crate, part), p in sorted(clauses.items()) if len(p) >= 3]
    return found


def main():
    words = [w for w in sys.argv[1:] if w != '--list']
    if len(words) > 1:
        sys.exit(__doc__.split('\n\n')[1])
    for rule, places in sorted(rules(sources(words[0] if words else None)).items()):
        print(f'{len(places):5}  {rule}')
        if '--list' in sys.argv:
            for name, line, what in places:
                print(f'         {name}:{line}: {what}')


if __name__ == "__main__":
    main()
