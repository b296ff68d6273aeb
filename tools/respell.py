#!/usr/bin/env python3
"""Spells this repository's own definitions and lemmas as Rattle's library does: words in snake case.

usage: respell.py [--check] ROOT

It turns the .antt files, the clauses and ghost items of the .rt files, and the must-fail edits below ROOT/crates. A name is turned where it begins
with a small letter and a part of it between dashes has a capital behind a small letter or digit; types, facts, modules and constants keep theirs, and so do
the library's names. It turns the code spans of README.md and docs/ too. A new name that stands somewhere already is shown on a line that begins 'meets:'.
"""

import os
import re
import sys

WORD = re.compile(r'[^\s(){}.;,@"«»`]+')
HUMP = re.compile(r"(?<=[a-z0-9])[A-Z]|(?<=[A-Z])[A-Z](?=[a-z])")
# Where a record begins each of its lists: the snake-case name is a field's of the code.
OFFSETS = {f"{name}At": f"{name}_offset" for name in "definitions equalities equations expressions kept nodes provers publics text".split()}
# Lemmas that would get the name of the definition that they are about.
LEMMAS = {
    name: f"{name}_lem"
    for name in "arm_walk chain_fits is_pos laid_cells length_run link_fits number_size on_values one_more outer_arms power_count same_number".split()
}
# A field beside item-fits and rest-fits.
FIELDS = {"result_fits": "result-fits"}


def texts(root, ends):
    for folder, dirs, files in os.walk(os.path.join(root, "crates")):
        dirs[:] = sorted(d for d in dirs if d != "out")
        for name in sorted(files):
            if name.endswith(ends):
                yield os.path.join(folder, name)


def pages(root):
    for name in ["README.md"] + sorted(os.path.join("docs", it) for it in os.listdir(os.path.join(root, "docs"))):
        if name.endswith(".md") and not re.search(r"LANDINGS|PORT", name):
            yield os.path.join(root, name)


def spelled(word):
    if word in OFFSETS:
        return OFFSETS[word]
    parts = []
    for part in word.split("-"):
        if part[:1].islower() and HUMP.search(part):
            part = HUMP.sub(lambda m: "_" + m[0].lower(), part).replace("_to3ac", "_to_3ac")
        parts.append(part)
    return "-".join(parts)


def ghost_parts(text):
    """Where the ghost parts of a .rt file stand: 'ghost use' items, clauses, ghost blocks."""
    for m in re.finditer(r"\bghost\s+use\b[^;]*;", text):
        yield m.start(), m.end()
    for m in re.finditer(r"\b(?:requires|ensures|ghost)\b\*?\s*(?:\w+\s*)?(?::\s*|=\s*)?\{", text):
        depth, at = 0, m.end() - 1
        while at < len(text):
            depth += (text[at] == "{") - (text[at] == "}")
            if depth == 0:
                break
            at += 1
        yield m.end(), at


def main(argv):
    check = "--check" in argv
    root = [a for a in argv if not a.startswith("--")][0]
    words, met = set(), {}
    for path in texts(root, (".antt",)):
        text = open(path, encoding="utf-8").read()
        here = set(WORD.findall(text))
        words |= here
        text = re.sub(r"(?m)--.*$", " ", text)
        free = set(WORD.findall(re.sub(r'(?<=\S)\.[^\s(){}.;,@"«»]+', " ", text)))
        for word in here:
            if word[:1].islower() and spelled(word) != word and spelled(word) in free - LEMMAS.keys() - FIELDS.keys():
                met.setdefault(word, []).append(os.path.relpath(path, root))
    names = {w: spelled(w) for w in sorted(words) if w[:1].islower() and spelled(w) != w}
    taken = {}
    for old, new in names.items():
        if old in met:
            print(f"meets: {old} as {new}: {' '.join(met[old])}")
        if new in taken:
            print(f"meets: {old} and {taken[new]} as {new}")
        taken[new] = old
    if not names:
        print("nothing to do")
        return
    turned = 0

    def turn(text):
        return WORD.sub(lambda m: names.get(m[0], m[0]), text)

    def lemmas(text):
        text = WORD.sub(lambda m: FIELDS.get(m[0], m[0]), text)
        return re.sub(r'(?<![^\s(){};,@"«»])[^\s(){}.;,@"«»]+(?!\.\w)', lambda m: LEMMAS.get(m[0], m[0]), text)

    after = {names.get(LEMMAS.get(w, w), LEMMAS.get(w, w)) for w in words} | {names.get(w, w) for w in words}

    def follow(m):
        # what an edit or a page names: by the new name that the files have
        word = m[0]
        for new in (names.get(word, word), spelled(word), word.replace("-", "_"), spelled(word).replace("-", "_"), word.replace("\u2032", "'")):
            if new in after:
                return new
        return word

    for path in [*texts(root, (".antt", ".edit", ".rt")), *pages(root)]:
        text = old = open(path, encoding="utf-8").read()
        if path.endswith(".rt"):
            out, last = [], 0
            for a, b in sorted(ghost_parts(text)):
                if a < last:
                    continue
                out += [text[last:a], turn(text[a:b])]
                last = b
            text = "".join(out) + text[last:]
            text = re.sub(r"(?m)//.*$", lambda m: turn(m[0]), text)
        elif path.endswith(".md"):
            text = re.sub(r"(?ms)^(?:    .*?$)+|`[^`\n]+`", lambda m: WORD.sub(follow, m[0]), text)
        elif path.endswith(".edit"):
            text = WORD.sub(follow, text)
        else:
            text = turn(lemmas(text) if path.endswith(".antt") else text)
        if text != old:
            turned += 1
            if not check:
                open(path, "w", encoding="utf-8").write(text)
    print(f"{len(names)} names, {turned} files")


main(sys.argv[1:])
