"""The machine of the tables: the names of its registers, where its memory begins, and the commands that set a stopped one."""
BASE = 0x10000
REGISTERS = "zero ra sp gp tp t0 t1 t2 s0 s1 a0 a1 a2 a3 a4 a5 a6 a7 s2 s3 s4 s5 s6 s7 s8 s9 s10 s11 t3 t4 t5 t6".split()


def sets(name, value):
    """Sets a register of the hart, whatever an editor may set."""
    return "set %d %d" % (REGISTERS.index(name), value), "ok"


def go(address):
    return "go %d" % address, "ok"


def write(address, block):
    return "write %d %s" % (address, block.hex()), "ok"
