"""Programs of other assemblers, made at random: texts of assembly with what GNU as has and rvdap does not, and texts of C for a compiler."""
import random

REGISTERS = ["zero", "ra", "sp", "gp", "tp", "t0", "t1", "t2", "s0", "s1", "a0", "a1", "a2", "a3", "a4", "a5", "a6", "a7", "s2", "s11", "t3", "t6", "x9", "fp"]
WITH_NUMBER = ["add", "and", "or", "xor", "slt", "sltu"]


class Text:
    """A text of assembly as it is made."""

    def __init__(self, seed):
        self.chance = random.Random(seed)
        self.lines, self.numeric, self.constants, self.labels = [], set(), [], []

    def register(self):
        return self.chance.choice(REGISTERS)

    def number(self, low, high):
        """A number from low to high, in any form."""
        value = self.chance.randint(low, high)
        forms = [str(value), hex(value)] + [bin(value)] * (value >= 0) + ["%d + %d" % (value - 3, 3), "(%d) * 2 - %d" % (value, value)]
        if 32 < value < 127 and chr(value) not in "'\\\"#;,":
            forms.append("'%s'" % chr(value))
        if self.constants:
            name, of_name = self.chance.choice(self.constants)
            forms.append("%s + %d" % (name, value - of_name) if value >= of_name else "%s - %d" % (name, of_name - value))
        return self.chance.choice(forms)

    def comment(self):
        return self.chance.choice(["", "", "", "  # a comment", " /* within */", ' # "quoted'])

    def add(self, line):
        self.lines.append(line + self.comment())

    def constant(self):
        name, value = "N%d" % len(self.constants), self.chance.randint(-20, 40)
        self.add(self.chance.choice([".equ %s, %d", ".set %s, %d", "%s = %d", ".equiv %s, %d"]) % (name, value))
        self.constants.append((name, value))

    def string(self):
        letters = "".join(self.chance.choice(["a", "Z", " ", "#", ",", ":", ";", "\\n", "\\t", "\\\\", '\\"', "\\0", "\\101", "é", "//", "/*"]) for _ in range(self.chance.randint(0, 12)))
        self.add('%s "%s"' % (self.chance.choice([".ascii", ".asciz", ".string"]), letters))
        self.add(self.chance.choice([".balign 4", ".align 2", ".p2align 2"]))

    def data(self):
        kind = self.chance.randint(0, 5)
        if kind == 0:
            self.add(self.chance.choice([".word ", ".long ", ".4byte ", ".int "]) + ", ".join(self.number(-2048, 2047) for _ in range(3)))
        elif kind == 1:
            self.add(self.chance.choice([".half ", ".short ", ".hword ", ".2byte "]) + ", ".join(self.number(-2048, 2047) for _ in range(2)))
        elif kind == 2:
            self.add(".byte " + ", ".join(self.number(0, 120) for _ in range(4)))
        elif kind == 3:
            self.add(self.chance.choice([".zero ", ".skip ", ".space "]) + str(4 * self.chance.randint(0, 5)))
        elif kind == 4:
            self.string()
        else:
            self.add(self.chance.choice([".type f, @function", ".size f, 4", ".option norelax", ".attribute stack_align, 16", ".ident \"me\"", ".file \"a.c\"",
                                         ".section .rodata", ".bss", ".data", ".section .text.startup,\"ax\",@progbits", ".cfi_startproc"]))

    def code(self):
        chance, register = self.chance, self.register
        kind = chance.randint(0, 11)
        if kind == 0:
            self.add("%s %s, %s, %s" % (chance.choice(WITH_NUMBER), register(), register(), self.number(-2048, 2047)))
        elif kind == 1:
            self.add("%s %s, %s, %s" % (chance.choice(["sll", "srl", "sra"]), register(), register(), self.number(0, 31)))
        elif kind == 2:
            self.add("li %s, %s" % (register(), self.number(-100000, 100000)))
        elif kind == 3:
            self.add("%s %s, %s(%s)" % (chance.choice(["lw", "lb", "lhu", "sw", "sb"]), register(), self.number(0, 100), register()))
        elif kind == 4 and self.labels:
            self.add("%s %s, %s" % (chance.choice(["lw", "lb", "lhu"]), chance.choice(REGISTERS[1:]), chance.choice(self.labels)))
        elif kind == 5 and self.labels:
            self.add("%s %s, %s, %s" % (chance.choice(["sw", "sb", "sh"]), register(), chance.choice(self.labels), chance.choice(REGISTERS[1:])))
        elif kind == 6:
            self.add("jalr %s, %s" % (register(), register()))
        elif kind == 7 and self.numeric:
            self.add("%s %sb" % (chance.choice(["j", "jal", "beqz a0,", "bne a0, a1,", "bgtu t0, t1,"]), chance.choice(sorted(self.numeric))))
        elif kind == 8 and self.labels:
            self.add("%s %s" % (chance.choice(["call", "tail", "la a0,", "lla a1,", "j"]), chance.choice(self.labels)))
        elif kind == 9:
            self.add("%s %s, %s, %s" % (chance.choice(["sgt", "sgtu"]), register(), register(), register()))
        elif kind == 10:
            self.add("%s %s, %s" % (chance.choice(["mv", "move", "not", "neg", "seqz", "zext.b"]), register(), register()))
        else:
            self.add(chance.choice(["nop", "ecall", "ebreak", "ret", "scall", "nop; nop", "li a0, 1; li a1, 2"]))

    def label(self):
        if self.chance.random() < 0.5:
            number = str(self.chance.randint(0, 3))
            self.numeric.add(number)
            self.add("%s:" % number)
        else:
            self.labels.append("label%d" % len(self.labels))
            self.lines.append(self.labels[-1] + self.chance.choice([":", ": nop"]))

    def text(self):
        """The whole text, whose forward references have their labels at the end."""
        for _ in range(self.chance.randint(10, 60)):
            self.chance.choice([self.code, self.code, self.code, self.data, self.label, self.constant])()
            self.lines.append(".balign 4")
        self.lines += ["j 9f", "beq a0, a1, 9f", "/* over", "lines */", "9: ret"]
        return "\n".join(self.lines) + "\n"


def assembly(seed):
    return Text(seed).text()


def source(seed):
    """A text of C that needs no multiplication."""
    chance = random.Random(seed)
    parts = ["int table[8] = {%s};" % ", ".join(str(chance.randint(-99, 99)) for _ in range(8)), "static int count;", "char text[] = \"%s\";" % ("ab" * chance.randint(1, 5)),
             "const short halves[3] = {%s};" % ", ".join(str(chance.randint(-9, 9)) for _ in range(3)), "unsigned char zeros[%d];" % (4 * chance.randint(1, 4))]
    for number in range(chance.randint(1, 4)):
        names = ["a", "b", "c"]
        sums = ["(%s %s %s)" % (chance.choice(names), chance.choice(["+", "-", "&", "|", "^", "<", ">", "=="]), chance.choice(names + [str(chance.randint(0, 5000))])) for _ in range(3)]
        body = chance.choice([
            "for (int i = 0; i < a; i++) c += table[i & 7] %s b; return c;" % chance.choice("+-^"),
            "while (*p) { c += *p++; } return c + %s;" % sums[0],
            "switch (a) { case 0: return %s; case 1: return b; case 2: return c; case 3: return %s; case 4: return 7; case 5: count++; return 1; default: return %s; }" % tuple(sums),
            "count += %s; if (%s) return %s; return count;" % tuple(sums),
            "zeros[a & 3] = b; halves_sum: c += halves[b & 1]; if (c < a) goto halves_sum; return c >> 3;",
        ])
        parts.append("int f%d(int a, int b, int c) { const char *p = text; (void)p; %s }" % (number, body))
    parts.append("int main(void) { return f0(%d, 2, 3); }" % chance.randint(0, 9))
    return "\n".join(parts) + "\n"
