#!/usr/bin/env python3
"""Writes tests/rows/expressions_in_c.txt: random expressions from a fixed seed, each after the value that C gives it.

Usage: tests/support/expressions_in_c.py

It needs a C compiler; the tests only read the file. Which operator takes which operands is left to C: operators stand in the C program
as in the expression, with no brackets added. What C leaves undefined, or means otherwise, is settled within single operands, by casts:
they bind tighter than all operators between two.

There are two kinds of expressions. In one all values are uint32_t. Before and after a comparison of size then stands a single operand,
cast to int32_t. In the other all values are int32_t, and wrap (-fwrapv), so a comparison may have any operands; `>>`, which would bring
in the sign, is left out. In both a shift goes by a single operand, of which C takes the low 5 bits, or by a small sum or product.
"""
import os
import random
import subprocess
import tempfile

TOP = os.path.dirname(os.path.dirname(os.path.dirname(os.path.abspath(__file__))))
DATA = os.path.join(TOP, "tests", "rows", "expressions_in_c.txt")
SEED = 20191213
OF_EACH_KIND = 220
LONGEST = 90

BASE = 0x10000
PC = 0x00010204
VALUES = {"a0": 5, "a1": 0xfffffffb, "a2": 0x80000000, "a3": 0x7fffffff, "a4": 33, "a5": 0x12345678, "s1": 0xffffffff, "t6": 0x00010100}
# 251 does not divide the number of bytes, so that words at different addresses differ.
MEMORY = bytes(i * 7 % 251 for i in range(0x400))

UNSIGNED, SIGNED = "uint32_t", "int32_t"
SUMS = ("+", "-", "*")
SHIFTS = ("<<", ">>")
COMPARISONS = ("<", "<=", ">", ">=")
# Those that give 0 or 1 stand here once, and others twice, so that most values say more.
OPERATORS = ("||", "&&", "==", "!=") + COMPARISONS + 2 * (SUMS + SHIFTS + ("|", "^", "&"))

PROGRAM = """#include <stdint.h>
#include <stdio.h>

static const unsigned char memory[] = {%s};
%s

static uint32_t word(uint32_t address) {
    const unsigned char *at = memory + (address - %du);
    return at[0] | (uint32_t)at[1] << 8 | (uint32_t)at[2] << 16 | (uint32_t)at[3] << 24;
}

int main(void) {
%s
    return 0;
}
"""


class Maker:
    """Makes expressions of a kind, each as pairs: the text of a token, and what C reads there. Some are for C alone."""

    def __init__(self, chance, kind):
        self.chance, self.kind = chance, kind
        self.cast = ("", "(%s)" % kind)

    def expression(self, depth):
        """Operands with operators between them, from one operand to four."""
        operators = []
        for _ in range(self.chance.choice((0, 1, 2, 2, 3)) if depth else 0):
            before = operators[-1] if operators else None
            operators.append(self.chance.choice([it for it in OPERATORS if self.may_follow(before, it)]))
        tokens = []
        for left, right in zip([None] + operators, operators + [None]):
            tokens += self.operand_between(left, right, depth)
            tokens += [(right, right)] if right else []
        return tokens

    def may_follow(self, before, operator):
        """Whether an operator may stand after another with one operand between them."""
        if before in SHIFTS and operator in SUMS:
            return False
        if self.kind == SIGNED:
            return operator != ">>"
        return not any(it in COMPARISONS and other in SUMS + SHIFTS for it, other in ((before, operator), (operator, before)))

    def operand_between(self, left, right, depth):
        """An operand, as C has to read it between these operators."""
        if left in SHIFTS and self.chance.random() < 0.3:
            return self.small_sum()
        operand = self.operand(depth)
        if left in SHIFTS:
            return [("", "(31 & (")] + operand + [("", "))")]
        if self.kind == UNSIGNED and (left in COMPARISONS or right in COMPARISONS):
            return [("", "(int32_t)")] + operand
        return operand

    def small_sum(self):
        """A sum or a product of at most 25."""
        first, sign, second = str(self.chance.randrange(1, 6)), self.chance.choice("+*"), str(self.chance.randrange(1, 6))
        return [(first, first), (sign, sign), (second, second)]

    def operand(self, depth):
        kind = self.chance.random()
        if depth and kind < 0.2:
            sign = self.chance.choice("-~!")
            return [self.cast] * (sign == "!") + [(sign, sign)] + self.operand(depth - 1)
        if depth and kind < 0.45:
            return [self.cast, ("(", "(")] + self.expression(depth - 1) + [(")", ")")]
        if depth and kind < 0.55:
            return self.load(depth)
        return [self.leaf()]

    def load(self, depth):
        """A word at an address within the bytes that are written."""
        start, mask = self.chance.choice(("0x10000", "65537", "0x10002")), self.chance.choice(("0xff", "255", "0x3C"))
        begins = [("[", "word("), (start, start + "u"), ("+", "+"), ("(", "("), ("(", "(uint32_t)(")]
        ends = [(")", ")"), ("&", "&"), (mask, mask + "u"), (")", ")"), ("]", ")")]
        return [self.cast] + begins + self.expression(depth - 1) + ends

    def leaf(self):
        kind = self.chance.random()
        if kind < 0.45:
            name = self.chance.choice(sorted(VALUES))
            return name, name
        if kind < 0.5:
            return "pc", "pc"
        if kind < 0.55:
            return "zero", "(%s)0" % self.kind
        number = self.chance.choice((0, 1, 2, 3, 5, 31, 32, 255, 65536, 0x7fffffff, 0x80000000, 0xffffffff, self.chance.randrange(2 ** 32)))
        text = self.chance.choice(("%d", "0x%x", "0x%X")) % number
        return text, "(%s)%su" % (self.kind, text)


def spaced(chance, tokens):
    """The tokens' text, with blanks between them here and there. No two tokens that follow each other here are one sign together."""
    texts = [text for text, _ in tokens if text]
    dense = chance.random() < 0.3
    return "".join(text + ("" if dense or chance.random() < 0.1 else " ") for text in texts[:-1]) + texts[-1]


def made(chance, kind):
    """Expressions that are neither short nor long, each with what C reads."""
    maker, found = Maker(chance, kind), {}
    while len(found) < OF_EACH_KIND:
        tokens = maker.expression(3)
        text = spaced(chance, tokens)
        if 5 < len(tokens) and len(text) <= LONGEST:
            found[text] = " ".join(read for _, read in tokens)
    return list(found.items())


def program(kind, read):
    """The C program that prints the value of each."""
    machine = dict(VALUES, pc=PC)
    variables = "\n".join("static volatile %s %s = (%s)%du;" % (kind, name, kind, value) for name, value in machine.items())
    prints = "\n".join('    printf("0x%%08x\\n", (uint32_t)(%s));' % it for it in read)
    return PROGRAM % (", ".join(str(byte) for byte in MEMORY), variables, BASE, prints)


def values(kind, read):
    """What a C compiler makes of them."""
    with tempfile.TemporaryDirectory() as folder:
        source, built = os.path.join(folder, "values.c"), os.path.join(folder, "values")
        with open(source, "w", encoding="ascii") as file:
            file.write(program(kind, read))
        subprocess.run(["cc", "-O1", "-fwrapv", "-w", "-fsanitize=undefined", "-fno-sanitize=shift-base", "-fno-sanitize-recover",
                        "-o", built, source], check=True)
        return subprocess.run([built], check=True, stdout=subprocess.PIPE, encoding="ascii").stdout.split()


def main():
    chance = random.Random(SEED)
    with open(DATA, "w", encoding="ascii") as file:
        for kind in (UNSIGNED, SIGNED):
            found = made(chance, kind)
            for (text, _), value in zip(found, values(kind, [read for _, read in found])):
                file.write("%s %s\n" % (value, text))


if __name__ == "__main__":
    main()
