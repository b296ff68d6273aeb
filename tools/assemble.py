#!/usr/bin/env python3
r"""Assembler: the text of a module in, its source record out.

    python3 tools/assemble.py [FILE] > RECORD

FILE has the text; without it standard input has. What would be no legal record is refused: a message with the line on standard error, nothing on standard
output, exit status 1. docs/RECORDS.md says what the record is, and what the text means.

The text is made of parentheses and words; spaces, tabs and line ends separate words, and `;` begins a comment that goes to the end of its line.

    module      statement ..
    statement   (pub NAME ..)                  public names
                (def PATTERN EXPRESSION)       a definition
                EXPRESSION                     an expression of the module, an equation where it is an (= a b)
    EXPRESSION  NUMBER   NAME   unit   nil
                (OPERATOR a b)                 one of / | * + - = ^ \ %
                (neg a)                        negation
                (, a b)                        a pair
                (: a b)                        a list: its first item and the rest
                (list a ..)                    a list: (list a b) is (: a (: b nil)), (list) is nil
                (fun (PATTERN ..) a)           a function with its parameters, one at least
                (app f a ..)                   a function applied: (app f a b) is (app (app f a) b)
                (let PATTERN a b)              a let: the value a, the body b
                (match a (PATTERN b) ..)       a match, with one arm at least
                (seq a ..)                     a sequence, of one item at least
    PATTERN     NUMBER   NAME   unit   nil
                (, p q)   (: p q)   (as p NAME)
    NUMBER      decimal digits, perhaps with a sign in front: -9223372036854775808 to 9223372036854775807
    NAME        any other word, of 1 to 64 characters from ! to ~

Names are numbered by first appearance. Nodes come statement by statement, children first and left to right; the links of a chain stand behind its items, the last one
first, and those of a function before its body. `oracle asm` (oracle/README.md) gives the same bytes.

The builder of records below is also that of number_cases.py and of oracle/model/trees.py.
"""
import os
import re
import struct
import sys

sys.path.insert(0, os.path.join(os.path.dirname(os.path.abspath(__file__)), "..", "oracle", "model"))
import model

UNIT, NIL, PRODUCT, CONS, INFIX, NEGATE, APPLY, CONSTANT, VARIABLE, FUNCTION, LET, MATCH, SEQUENCE, LINK = 0, 1, 2, 3, 4, 5, 6, 7, 8, 9, 11, 12, 13, 14
P_UNIT, P_NIL, AS, P_PRODUCT, P_CONS, P_VARIABLE, P_CONSTANT = 16, 17, 18, 19, 20, 21, 22
NONE = 4294967295  # the next link of the last one


def pack(names, publics, definitions, expressions, nodes):
    """The bytes of a source record: names as bytes, all else as indices. Nothing is checked, so that tests can write what is no record."""
    words = [len(names), len(publics), len(definitions), len(expressions), len(nodes)]
    at = 0
    for n in names:
        words += [at, len(n)]
        at += len(n)
    words += publics
    words += [w for pair in definitions for w in pair]
    words += expressions
    words += [w for node in nodes for w in node]
    return struct.pack("<%dI" % len(words), *[w % 2**32 for w in words]) + b"".join(names)


class Builder:
    """A source record in the making: names by their text, nodes children first."""

    def __init__(self):
        self.names, self.index, self.publics, self.definitions, self.expressions, self.nodes = [], {}, [], [], [], []

    def name(self, text):
        text = text.encode() if isinstance(text, str) else text
        if text not in self.index:
            self.index[text] = len(self.names)
            self.names.append(text)
        return self.index[text]

    def node(self, kind, a=0, b=0, c=0):
        self.nodes.append((kind, a, b, c))
        return len(self.nodes) - 1

    def constant(self, kind, n):
        """A signed 64-bit number, an expression's or a pattern's: its low word, then its high word."""
        return self.node(kind, n % 2**32, (n >> 32) % 2**32)

    def chain(self, items):
        """The first link of the items, pairs of nodes (item, arm result). The links are made last to first, since the next one stands before."""
        link = NONE
        for item, result in reversed(items):
            link = self.node(LINK, item, link, result)
        return link

    def bytes(self):
        return pack(self.names, self.publics, self.definitions, self.expressions, self.nodes)


# ---- text

SIGNS = ("/", "|", "*", "+", "-", "=", "^", "\\", "%")
NUMBER = re.compile(r"[+-]?[0-9]+\Z")
NAME_BYTES = 64
LIMITS = {
    "names": model.MAX_NAMES, "publics": model.MAX_PUBS, "definitions": model.MAX_DEFS, "expressions": model.MAX_EXPRS, "nodes": model.MAX_NODES,
}


class Wrong(Exception):
    """What is wrong with a text, and the line."""

    def __init__(self, line, what):
        super().__init__("line %d: %s" % (line, what))


class Word:
    def __init__(self, line, text):
        self.line, self.text = line, text


class Group:
    """What stands between two parentheses."""

    def __init__(self, line):
        self.line, self.items = line, []


def words_of(data):
    """The words and parentheses of a text, with their lines."""
    for number, line in enumerate(data.split(b"\n"), 1):
        line = line.split(b";")[0]
        for text in re.sub(rb"([()])", rb" \1 ", line).split():
            if not all(33 <= byte <= 126 for byte in text):
                raise Wrong(number, "a word has the byte %d, and only those from 33 to 126 may be in one" % next(b for b in text if not 33 <= b <= 126))
            yield Word(number, text.decode())


def statements_of(data):
    """The text's statements: words, and groups of words and groups."""
    top = Group(0)
    opened = [top]
    for word in words_of(data):
        if word.text == "(":
            opened.append(Group(word.line))
        elif word.text != ")":
            opened[-1].items.append(word)
        elif len(opened) == 1:
            raise Wrong(word.line, ") without its (")
        else:
            group = opened.pop()
            opened[-1].items.append(group)
    if len(opened) > 1:
        raise Wrong(opened[-1].line, "( without its )")
    return top.items


class Text(Builder):
    """A source record made from statements."""

    def name(self, word):
        if isinstance(word, Group) or word.text in ("unit", "nil") or NUMBER.match(word.text):
            raise Wrong(word.line, "a name is asked for, and %s is none" % ("a group" if isinstance(word, Group) else word.text))
        if len(word.text) > NAME_BYTES:
            raise Wrong(word.line, "a name of %d characters, and %d are the most" % (len(word.text), NAME_BYTES))
        return super().name(word.text)

    def number(self, word):
        digits = word.text.lstrip("+-").lstrip("0")
        if len(digits) > 19 or not -(2**63) <= int(word.text) < 2**63:
            raise Wrong(word.line, "%s is no signed 64-bit number" % word.text)
        return int(word.text)

    def leaf(self, word, unit, nil, number, variable):
        """A word, by the kinds for its forms."""
        if word.text == "unit":
            return self.node(unit)
        if word.text == "nil":
            return self.node(nil)
        if NUMBER.match(word.text):
            return self.constant(number, self.number(word))
        return self.node(variable, self.name(word))

    def head(self, group, what):
        if not group.items or isinstance(group.items[0], Group):
            raise Wrong(group.line, "%s in parentheses begins with a word that says what it is" % what)
        return group.items[0].text

    def parts(self, group, count, more=False):
        """What follows the head, of which there have to be so many, or so many at least."""
        parts = group.items[1:]
        if len(parts) < count or (len(parts) > count and not more):
            raise Wrong(group.line, "(%s ..) takes %d parts%s, and has %d" % (group.items[0].text, count, " or more" * more, len(parts)))
        return parts

    def pattern(self, item):
        if isinstance(item, Word):
            return self.leaf(item, P_UNIT, P_NIL, P_CONSTANT, P_VARIABLE)
        head = self.head(item, "a pattern")
        if head in (",", ":"):
            first, second = map(self.pattern, self.parts(item, 2))
            return self.node(P_PRODUCT if head == "," else P_CONS, first, second)
        if head == "as":
            inner, name = self.parts(item, 2)
            return self.node(AS, self.pattern(inner), self.name(name))
        raise Wrong(item.line, "there is no pattern (%s ..)" % head)

    def expression(self, item):
        if isinstance(item, Word):
            return self.leaf(item, UNIT, NIL, CONSTANT, VARIABLE)
        head = self.head(item, "an expression")
        if head in SIGNS:
            first, second = map(self.expression, self.parts(item, 2))
            return self.node(INFIX, first, second, SIGNS.index(head))
        if head in (",", ":"):
            first, second = map(self.expression, self.parts(item, 2))
            return self.node(PRODUCT if head == "," else CONS, first, second)
        if head in ("neg", "app", "fun", "let", "match", "seq", "list"):
            return getattr(self, head)(item)
        raise Wrong(item.line, "there is no expression (%s ..)" % head)

    def neg(self, item):
        return self.node(NEGATE, *map(self.expression, self.parts(item, 1)))

    def app(self, item):
        first, *rest = self.parts(item, 2, more=True)
        made = self.expression(first)
        for argument in rest:
            made = self.node(APPLY, made, self.expression(argument))
        return made

    def fun(self, item):
        parameters, body = self.parts(item, 2)
        if isinstance(parameters, Word) or not parameters.items:
            raise Wrong(parameters.line, "(fun (PATTERN ..) a) has its parameters in parentheses, one at least")
        links = self.chain([(self.pattern(p), 0) for p in parameters.items])
        return self.node(FUNCTION, links, self.expression(body))

    def let(self, item):
        pattern, value, body = self.parts(item, 3)
        return self.node(LET, self.pattern(pattern), self.expression(value), self.expression(body))

    def match(self, item):
        value, *arms = self.parts(item, 2, more=True)
        made = self.expression(value)
        return self.node(MATCH, made, self.chain([self.arm(a) for a in arms]))

    def arm(self, item):
        if isinstance(item, Word) or len(item.items) != 2:
            raise Wrong(item.line, "an arm of a match is (PATTERN EXPRESSION)")
        return self.pattern(item.items[0]), self.expression(item.items[1])

    def seq(self, item):
        return self.node(SEQUENCE, self.chain([(self.expression(e), 0) for e in self.parts(item, 1, more=True)]))

    def list(self, item):
        items = [self.expression(e) for e in self.parts(item, 0, more=True)]
        made = self.node(NIL)
        for e in reversed(items):
            made = self.node(CONS, e, made)
        return made

    def statement(self, item):
        head = item.items[0].text if isinstance(item, Group) and item.items and isinstance(item.items[0], Word) else None
        if head == "pub":
            self.publics += map(self.name, self.parts(item, 0, more=True))
        elif head == "def":
            pattern, value = self.parts(item, 2)
            self.definitions.append((self.pattern(pattern), self.expression(value)))
        else:
            self.expressions.append(self.expression(item))
        for what, most in LIMITS.items():
            if len(getattr(self, what)) > most:
                raise Wrong(item.line, "with this statement there are %d %s, and %d are the most" % (len(getattr(self, what)), what, most))


def assembled(data):
    """The source record of a text. Run it inside model.deep, on a large stack."""
    record = Text()
    for item in statements_of(data):
        record.statement(item)
    made = record.bytes()
    model.parse_source(made)  # what is written is legal, or else this tool is wrong
    return made


def main():
    if len(sys.argv) > 2 or any(a.startswith("-") for a in sys.argv[1:]):
        raise SystemExit("usage: assemble.py [FILE] > RECORD")
    try:
        data = open(sys.argv[1], "rb").read() if len(sys.argv) == 2 else sys.stdin.buffer.read()
        sys.stdout.buffer.write(model.deep(assembled, data))
    except (OSError, Wrong) as error:
        raise SystemExit("assemble.py: %s" % error)


if __name__ == "__main__":
    main()
