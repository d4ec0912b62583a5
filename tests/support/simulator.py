"""A simulator of RV32I in the words of the RISC-V Unprivileged ISA (20191213, chapters 2 and 24): one hart, which fetches and decodes each
instruction anew. It knows no trap: what is none of the manual's instructions, or reaches beyond memory, is an error of the test."""
WORD = 0xffffffff


def signed(value, width=32):
    return value - (1 << width) if value >> width - 1 else value


# What an instruction computes of two values, by funct3: the first are those with bit 30 set.
ALTERNATIVES = {0: lambda a, b: a - b, 5: lambda a, b: signed(a) >> (b & 31)}
OPERATIONS = (lambda a, b: a + b, lambda a, b: a << (b & 31), lambda a, b: signed(a) < signed(b), lambda a, b: a < b, lambda a, b: a ^ b,
              lambda a, b: a >> (b & 31), lambda a, b: a | b, lambda a, b: a & b)
BRANCHES = {0: lambda a, b: a == b, 1: lambda a, b: a != b, 4: lambda a, b: signed(a) < signed(b), 5: lambda a, b: signed(a) >= signed(b),
            6: lambda a, b: a < b, 7: lambda a, b: a >= b}


def immediate_of(word, opcode):
    """The immediate, in the format that the opcode has (section 2.3)."""
    if opcode == 0x23:
        return signed(word >> 25 << 5 | word >> 7 & 31, 12)
    if opcode == 0x63:
        return signed(word >> 31 << 12 | (word >> 7 & 1) << 11 | (word >> 25 & 63) << 5 | (word >> 8 & 15) << 1, 13)
    if opcode == 0x6f:
        return signed(word >> 31 << 20 | (word >> 12 & 255) << 12 | (word >> 20 & 1) << 11 | (word >> 21 & 1023) << 1, 21)
    return signed(word & ~4095, 32) if opcode in (0x37, 0x17) else signed(word >> 20, 12)


class Hart:
    """A hart that begins at the first address of its memory, and the numbers that it printed: ecall prints a0 where a7 is 1."""

    def __init__(self, image, base, size):
        self.base, self.pc, self.x, self.printed = base, base, [0] * 32, []
        self.memory = bytearray(image) + bytes(size - len(image))

    def place(self, address, count):
        place = (address & WORD) - self.base
        if place < 0 or place + count > len(self.memory) or place % count:
            raise AssertionError("an access to %d bytes at 0x%08x" % (count, address))
        return place

    def load(self, address, count):
        place = self.place(address, count)
        return int.from_bytes(self.memory[place:place + count], "little")

    def store(self, address, count, value):
        place = self.place(address, count)
        self.memory[place:place + count] = (value & (1 << 8 * count) - 1).to_bytes(count, "little")

    def run(self):
        """Goes on until ecall ends the program, a7 being 93: its code."""
        while True:
            word, after = self.load(self.pc, 4), self.pc + 4
            opcode, rd, funct3 = word & 127, word >> 7 & 31, word >> 12 & 7
            a, b, imm = self.x[word >> 15 & 31], self.x[word >> 20 & 31], immediate_of(word, opcode)
            value = None
            if opcode == 0x13:
                value = ALTERNATIVES[5](a, imm) if funct3 == 5 and word >> 30 & 1 else OPERATIONS[funct3](a, imm & WORD)
            elif opcode == 0x33:
                value = ALTERNATIVES[funct3](a, b) if word >> 30 & 1 else OPERATIONS[funct3](a, b)
            elif opcode == 0x03:
                count = 1 << (funct3 & 3)
                value = self.load(a + imm, count)
                value = value if funct3 & 4 else signed(value, 8 * count)
            elif opcode == 0x23:
                self.store(a + imm, 1 << funct3, b)
            elif opcode == 0x63:
                after = self.pc + imm if BRANCHES[funct3](a, b) else after
            elif opcode == 0x6f:
                value, after = after, self.pc + imm
            elif opcode == 0x67:
                value, after = after, a + imm & ~1
            elif opcode == 0x37:
                value = imm
            elif opcode == 0x17:
                value = self.pc + imm
            elif word == 0x73 and self.x[17] == 93:
                return signed(self.x[10])
            elif word == 0x73 and self.x[17] == 1:
                self.printed.append(signed(self.x[10]))
            else:
                raise AssertionError("the word 0x%08x at 0x%08x" % (word, self.pc))
            if value is not None and rd:
                self.x[rd] = int(value) & WORD
            self.pc = after & WORD
