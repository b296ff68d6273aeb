#!/usr/bin/env python3
"""Lists the public functions of all crates with their promises.

    python3 tools/promises.py            a table: function, requires, ensures, and a remark
    python3 tools/promises.py --silent   only functions that are silent: without an ensures, or about the later contents of a slice that they are lent

A remark says where the result or the later contents of a lent slice are not a side of an equation (`result ≡ ..`, `x.new ≡ ..`): `by made: result`
where the equation is of a function of it, `no equation` where a relation holds or the answer is free. Functions of a private module that no `pub use`
hands on are marked `inner`: no other crate can call them. The exit status is 1 if a function is silent.
"""
import pathlib
import re
import sys

CRATES = pathlib.Path(__file__).resolve().parent.parent / "crates"
CLOSING = {"(": ")", "{": "}", "[": "]"}


def without_comments(text):
    """The text with `// ..` blanked out, so that positions stay."""
    return re.sub(r"//[^\n]*", lambda found: " " * len(found.group()), text)


def matching(text, start):
    """The position after the bracket that closes the one at `start`."""
    opening, closing, depth = text[start], CLOSING[text[start]], 0
    for at in range(start, len(text)):
        if text[at] == opening:
            depth += 1
        elif text[at] == closing:
            depth -= 1
            if depth == 0:
                return at + 1
    raise ValueError(f"no {closing} for the {opening} at {start}")


def parts(text):
    """The parts of a parameter list, cut at the commas that stand in no bracket."""
    found, depth, start = [], 0, 0
    for at, char in enumerate(text):
        if char in "([{<":
            depth += 1
        elif char in ")]}>":
            depth -= 1
        elif char == "," and depth == 0:
            found.append(text[start:at])
            start = at + 1
    return [part.strip() for part in found + [text[start:]] if part.strip()]


def cut_at(text, mark):
    """The text cut at a mark that stands in no bracket."""
    found, depth, start = [], 0, 0
    for at, char in enumerate(text):
        depth += (char in "([{") - (char in ")]}")
        if depth == 0 and text.startswith(mark, at):
            found.append(text[start:at].strip())
            start = at + len(mark)
    return found + [text[start:].strip()]


def equations(text):
    """The equations that a fact promises: of its parts, and behind what it asks or ranges over."""
    text = text.strip()
    while text.startswith("(") and matching(text, 0) == len(text):
        text = text[1:-1].strip()
    conclusion = cut_at(text, " → ")[-1]
    factors = cut_at(conclusion, " × ")
    if len(factors) > 1 or conclusion != text:
        return [equation for factor in factors for equation in equations(factor)]
    sides = cut_at(text, " ≡ ")
    return [tuple(sides)] if len(sides) == 2 else []


def view_of(pattern, clauses):
    """Of what matches the pattern: "" if an equation has it, or its fields, as a side; the function of it that is a side; None where it is in none."""
    found = None
    for left, right in [equation for clause in clauses for equation in equations(clause)]:
        for side, other in ((left, right), (right, left)):
            if re.search(pattern, side) and not re.search(pattern, other):
                if re.fullmatch(pattern + r"(?: \.\w+)?", side):
                    return ""
                found = found or side.split()[0]
    return found


def fact(clause):
    """A clause on one line."""
    return " ".join(clause.split())


class Function:
    def __init__(self, crate, module, name, parameters, result, requires, ensures):
        self.crate, self.module, self.name, self.result = crate, module, name, result
        self.requires = [fact(clause) for clause in requires]
        self.ensures = [fact(clause) for clause in ensures]
        self.lent = [found.group(1) for part in parameters for found in [re.match(r"(?:mut )?(\w+)\s*:\s*&\s*(?:'\w+\s+)?mut\b", part)] if found]
        self.lent += ["self" for part in parameters if re.match(r"&\s*(?:'\w+\s+)?mut self\b", part)]
        self.inner = False

    def path(self):
        return "::".join([self.crate] + self.module + [self.name])

    def silences(self):
        """What the function says nothing of."""
        if not self.ensures:
            return ["no ensures"] if self.result or self.lent else []
        said = " ".join(self.ensures)
        return [f"nothing of `{name}`" for name in self.lent if not re.search(rf"\b{name}\.new\b", said)]

    def said(self):
        """For the result and each lent slice: "" if an equation says what it is, the name of a view if one says it of that, else None."""
        names = {"result": r"(?<![\w.])result(?![\w.])"} if self.result and self.ensures else {}
        names.update({f"`{name}`": rf"(?<![\w.]){name}\.new(?!\w)" for name in self.lent if self.ensures})
        return {name: view_of(pattern, self.ensures) for name, pattern in names.items()}

    def remark(self):
        words = ["silent: " + ", ".join(self.silences())] if self.silences() else []
        said = self.said()
        for view in sorted({view for view in said.values() if view}):
            words.append(f"by `{view}`: " + ", ".join(name for name in said if said[name] == view))
        left = [name for name in said if said[name] is None and f"nothing of {name}" not in self.silences()]
        words += ["no equation: " + ", ".join(left)] if left else []
        words += ["nothing to say"] if not self.ensures and not self.silences() else []
        words += ["inner"] if self.inner else []
        return "; ".join(words)


def clauses(text, at):
    """The requires and ensures clauses from `at` on."""
    found = {"requires": [], "ensures": []}
    while True:
        word = re.compile(r"\s*(requires|ensures)\s*(?:\w+\s*)?(?=\{)").match(text, at)
        if not word:
            return found["requires"], found["ensures"]
        at = matching(text, word.end())
        found[word.group(1)].append(text[word.end() + 1 : at - 1])


def functions_of(crate, module, text):
    """The `pub fn`s of a file."""
    for head in re.finditer(r'\bpub (?:extern "C" )?fn (\w+)\s*(?:<[^>]*>)?\s*(?=\()', text):
        end = matching(text, head.end())
        result = re.compile(r"\s*->\s*").match(text, end)
        at = end
        if result:
            at = re.compile(r"\s*(?=requires\b|ensures\b|\{)").search(text, result.end()).end()
        answer = text[result.end() : at].strip() if result else ""
        yield Function(crate, module, head.group(1), parts(text[head.end() + 1 : end - 1]), answer, *clauses(text, at))


def file_of(folder, module):
    """The file of a module."""
    return folder.joinpath(*module).with_suffix(".rt") if module else next(p for p in (folder / "lib.rt", folder / "main.rt") if p.exists())


def read_crate(crate):
    """The public functions of a crate, module by module; `inner` are those that no other crate can reach."""
    folder, waiting, found, handed_on = crate / "src", [([], True)], [], []
    while waiting:
        module, reached = waiting.pop(0)
        text = without_comments(file_of(folder, module).read_text(encoding="utf-8"))
        for path, items in re.findall(r"\bpub use (?:super::|self::)*([\w:]+?)(?:::\{([^}]*)\})?;", text):
            handed_on += [f"{path}::{item.strip()}" for item in items.split(",")] if items else [path]
        waiting += [(module + [name], reached and bool(public)) for public, name in re.findall(r"^(pub )?mod (\w+);", text, re.M)]
        for function in functions_of(crate.name, module, text):
            function.inner = not reached
            found.append(function)
    for function in found:
        path = "::".join(function.module + [function.name])
        function.inner = function.inner and not any(path == handed or path.endswith("::" + handed) for handed in handed_on)
    return found


def cell(clauses):
    return "<br>".join("`" + clause.replace("|", "\\|") + "`" for clause in clauses)


def main():
    functions = [function for crate in sorted(CRATES.iterdir()) if (crate / "src").is_dir() for function in read_crate(crate)]
    silent = [function for function in functions if function.silences()]
    if "--silent" in sys.argv[1:]:
        for function in silent:
            print(f"{function.path()}: {', '.join(function.silences())}")
    else:
        print("| function | requires | ensures | remark |\n|---|---|---|---|")
        for function in functions:
            print(f"| `{function.path()}` | {cell(function.requires)} | {cell(function.ensures)} | {function.remark()} |")
    return 1 if silent else 0


if __name__ == "__main__":
    sys.exit(main())
