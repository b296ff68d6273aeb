#!/usr/bin/env python3
"""Prints, as tables, what changed in public between a commit and the working tree: signatures and clauses of public functions, public types,
ghost fields, the declarations of specs/, and the theorems of proofs/ that README or docs/ named. docs/DESIGN-PASS.md ends with what it prints.

usage: design_changes.py COMMIT"""
import collections
import os
import re
import subprocess
import sys

from design_counts import sources


def squeeze(text):
    return re.sub(r'\s+', ' ', re.sub(r'^\s*(//|--).*$', '', text, flags=re.M)).strip()


def head_of(text, at):
    """A function's signature and clauses: up to the line that opens its body."""
    depth, i = 0, at
    while i < len(text):
        c = text[i]
        if c in '([':
            depth += 1
        elif c in ')]':
            depth -= 1
        elif c == '{' and depth == 0:
            before = text[at:i].rstrip()
            if re.search(r'(requires|ensures)\*?(\s+\w+)?$', before) or re.search(r'ghost \w+( \w+)*\s*[:=]$', before):
                level, j = 1, i + 1
                while level:
                    level += {'{': 1, '}': -1}.get(text[j], 0)
                    j += 1
                i = j
                continue
            return squeeze(text[at:i])
        elif c == ';' and depth == 0:
            return squeeze(text[at:i])
        i += 1
    return squeeze(text[at:])


def block_of(text, at):
    i = text.index('{', at)
    level = 0
    while True:
        level += {'{': 1, '}': -1}.get(text[i], 0)
        i += 1
        if level == 0:
            return squeeze(text[at:i])


def items(files):
    """Public functions, types and impls of a tree's sources, by crate and name."""
    found = collections.OrderedDict()
    for name, text in sorted(files.items()):
        crate = name.split('/')[1]
        owner = None
        for m in re.finditer(r'^(impl\b[^{\n]*)\{|^[ \t]*(pub fn (\w+))|^(pub (?:struct|enum) (\w+))|^(\})', text, re.M):
            if m.group(1):
                owner = squeeze(re.sub(r'^impl(<[^>]*>)?\s*', '', m.group(1)))
                if ' for ' in owner:
                    found[crate, f'impl {owner}'] = squeeze('; '.join(re.findall(r'ghost \w+ = \{[^}]*\}', block_of(text, m.start())))) or 'derived or without clauses'
            elif m.group(6):
                owner = None
            elif m.group(2):
                method = text[m.start():m.start() + 4].startswith('    ') and owner
                key = f'{owner.split("<")[0]}::{m.group(3)}' if method else m.group(3)
                found[crate, f'fn {key}'] = head_of(text, m.start(2))
            elif m.group(4):
                body = text[m.start():]
                if re.match(r'pub struct \w+(<[^>]*>)?;|pub struct \w+(<[^>]*>)?\(', body):
                    found[crate, m.group(5)] = squeeze(body[:body.index(';')])
                else:
                    found[crate, m.group(5)] = block_of(text, m.start())
    return found


HEAD = re.compile(r'(\s*)((?:(?:abbrev|unfoldable|opaque|erased|mutual|pub)\s+)*)(record\s+|data\s+)?([^\s:=(){}]+)((?:\s+[({][^:]*:.*?[)}])*)\s+:(?:\s|$)')
NO_NAMES = {'let', 'in', 'where', 'use', 'module', 'infix', 'infixl', 'infixr', 'ruleset', '_', '→', '×', '≡', '∙'}


def declared(text):
    """Name, whether it is public, and text of each declaration, in modules and mutual blocks too; what stands in a record or data belongs to it."""
    lines = []
    for line in text.split('\n'):
        if not line.strip() or re.match(r'\s*--', line):
            continue
        # a head whose parameters go on in the next line is one line
        before = lines[-1] if lines else ''
        goes_on = re.match(r'\s*(?:(?:abbrev|unfoldable|opaque|erased|mutual|pub)\s+)*(?:record\s+|data\s+)?[^\s:=(){}]+(?:\s+[({][^:]*:.*?[)}])+\s*$', before)
        if goes_on and re.match(r'\s*[({]', line):
            lines[-1] = before.rstrip() + ' ' + line.strip()
        else:
            lines.append(line)
    out, i = [], 0
    while i < len(lines):
        m = HEAD.match(lines[i])
        if not m or m.group(4) in NO_NAMES:
            i += 1
            continue
        indent, end = len(m.group(1)), i + 1
        while end < len(lines):
            own = len(lines[end]) - len(lines[end].lstrip())
            if re.match(r'\s*(use|module|infix[lr]?|ruleset|pub ruleset|pub mod|unfolding)\b', lines[end]) and own <= indent and not lines[end].lstrip().startswith('unfolding'):
                break
            if m.group(3):
                if own <= indent:
                    break
            else:
                n = HEAD.match(lines[end])
                if n and n.group(4) not in NO_NAMES:
                    break
            end += 1
        out.append((m.group(4), 'pub' in m.group(2), squeeze('\n'.join(lines[i:end]))))
        i = end
    return out


def tree(commit, folder):
    """The .antt files of a folder of each crate, at a commit or as they lie here."""
    if commit is None:
        names = subprocess.run(['git', 'ls-files', '--cached', '--others', '--exclude-standard', 'crates'], capture_output=True, text=True, check=True).stdout.split()
    else:
        names = subprocess.run(['git', 'ls-tree', '-r', '--name-only', commit, 'crates'], capture_output=True, text=True, check=True).stdout.split()
    names = [name for name in names if re.fullmatch(r'crates/[a-z0-9_]+/' + folder + r'/.*\.antt', name)]
    if commit is None:
        return {name: open(name, encoding='utf-8').read() for name in names if os.path.exists(name)}
    asked = ''.join(f'{commit}:{name}\n' for name in names)
    raw = subprocess.run(['git', 'cat-file', '--batch'], input=asked.encode(), capture_output=True, check=True).stdout
    texts, at = {}, 0
    for name in names:
        line = raw.index(b'\n', at)
        size = int(raw[at:line].split()[2])
        texts[name] = raw[line + 1:line + 1 + size].decode('utf-8')
        at = line + 2 + size
    return texts


def by_name(found):
    """By crate and name; a name that stands in several files of a crate has its file, too."""
    count = collections.Counter((crate, name) for crate, _, name, _ in found)
    return collections.OrderedDict(((crate, name if count[crate, name] == 1 else f'{file}/{name}'), text) for crate, file, name, text in found)


def specs(commit):
    return by_name([(path.split('/')[1], path.split('/')[-1][:-5], name, text) for path, whole in sorted(tree(commit, 'specs').items()) for name, _, text in declared(whole)])


def named_by_docs(commit):
    names = subprocess.run(['git', 'ls-tree', '-r', '--name-only', commit, 'README.md', 'docs'], capture_output=True, text=True, check=True).stdout.split()
    pages = [subprocess.run(['git', 'show', f'{commit}:{name}'], capture_output=True, text=True, check=True).stdout for name in names]
    return {word for page in pages for word in re.findall(r'`([^`\s]+)`', page)}


def theorems(commit, names):
    """The statements of proofs/ that are named so, without their proofs."""
    found = []
    for path, whole in sorted(tree(commit, 'proofs').items()):
        for name, public, text in declared(whole):
            goals = path.endswith(('/Answers.antt', '/Invariants.antt')) or re.match(r'returns|loop-', name)
            if name in names and not goals:
                statement = re.split(r' unfolding | ' + re.escape(name) + r' (?:[^:→]*?)=(?: |$)', text)[0]
                found.append((path.split('/')[1], path.split('/')[-1][:-5], name, statement))
    return by_name(found)


def difference(a, b, most=900, around=120):
    """Both texts, cut where they are long to their beginning and to the part that differs."""
    if max(len(a), len(b)) <= most:
        return a, b
    p = 0
    while p < min(len(a), len(b)) and a[p] == b[p]:
        p += 1
    q = 0
    while q < min(len(a), len(b)) - p and a[-1 - q] == b[-1 - q]:
        q += 1

    def cut(text):
        start, end = max(p - around, 0), min(len(text) - q + around, len(text))
        if start <= 2 * around:
            start = 0
        text = (text[:around] + ' .. ' if start else '') + text[start:end] + (' ..' if end < len(text) else '')
        return text if len(text) <= 2 * most else text[:2 * most] + ' ..'
    return cut(a), cut(b)


def cell(text, most=1800):
    text = text if len(text) <= most else text[:most] + ' ..'
    return '`' + text.replace('|', '\\|').replace('`', "'") + '`'


def table(title, then, now):
    changed = [(k, then[k], now[k]) for k in then if k in now and then[k] != now[k]]
    gone = [(k, then[k]) for k in then if k not in now]
    new = [(k, now[k]) for k in now if k not in then]
    print(f'### {title}\n')
    print(f'{len(changed)} changed, {len(gone)} gone, {len(new)} new.\n')
    if changed:
        print('| where | then | now |\n|---|---|---|')
        for (crate, name), a, b in changed:
            a, b = difference(a, b)
            print(f'| {crate}: {name} | {cell(a)} | {cell(b)} |')
        print()
    for title, rows in (('gone | then', gone), ('new | now', new)):
        if rows:
            print(f'| {title} |\n|---|---|')
            for (crate, name), text in rows:
                print(f'| {crate}: {name} | {cell(text, 900)} |')
            print()


def main():
    if len(sys.argv) != 2:
        sys.exit('usage: design_changes.py COMMIT')
    then, now = items(sources(sys.argv[1])), items(sources(None))
    functions = lambda d: collections.OrderedDict((k, v) for k, v in d.items() if k[1].startswith('fn '))
    types = lambda d: collections.OrderedDict((k, v) for k, v in d.items() if not k[1].startswith('fn '))
    table('Public functions', functions(then), functions(now))
    table('Public types, and impls of traits', types(then), types(now))
    table('Definitions and theorems of specs/', specs(sys.argv[1]), specs(None))
    names = named_by_docs(sys.argv[1])
    table('Theorems of proofs/ that README or docs/ named', theorems(sys.argv[1], names), theorems(None, names))


main()
