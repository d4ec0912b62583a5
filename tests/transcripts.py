"""What `rvdap debug` shows for lines: programs, and for each line that is typed what is shown, worked by hand from the text of the program.

Instructions stand at 0x00010000, 0x00010004 and so on; with 1 MiB of memory sp is 0x00110000 in the beginning.
"""

# Counts down from 3, and ends with the code 0.
COUNT = b"_start: li a0, 3\nloop: addi a0, a0, -1\nbnez a0, loop\nli a7, 93\necall\n"
COUNT_BEGINS = "0x00010000 _start\n>    1  _start: li a0, 3\n     2  loop: addi a0, a0, -1\n"

# Calls a function that stores a0 into a word, and prints it.
STORE = (b"_start: li a0, 7\ncall put\nli a7, 1\necall\nli a0, 1\ncall put\nli a7, 93\necall\n"
         b"put: la t0, table\nsw a0, 4(t0)\nret\ntable: .word 65, 0xfffffffe\n")
STORE_BEGINS = "0x00010000 _start\n>    1  _start: li a0, 7\n     2  call put\n"

# Stores a word, and sets ra and a7, once each, in a program with more instructions than one request can watch.
LONG = (b"_start: la t0, word\nli a0, 5\nsw a0, 0(t0)\njal ra, end\nnop\nend: li a7, 93\necall\nword: .word 7\n" + b"nop\n" * 1024)
LONG_BEGINS = "0x00010000 _start\n>    1  _start: la t0, word\n     2  li a0, 5\n"

# Runs for ever.
ENDLESS = b"here: j here\n"

# Loads from address 0.
TRAP = b"_start: nop\nlw a0, 0(zero)\n"
TRAP_BEGINS = "0x00010000 _start\n>    1  _start: nop\n     2  lw a0, 0(zero)\n"

# An unknown call, and an instruction that is written over.
CALLS = b"_start: li a7, 5\necall\n"
CALLS_BEGINS = "0x00010000 _start\n>    1  _start: li a7, 5\n     2  ecall\n"
OVER = b"_start: la t0, target\nsw zero, 0(t0)\ntarget: nop\n"
OVER_BEGINS = "0x00010000 _start\n>    1  _start: la t0, target\n     2  sw zero, 0(t0)\n"

# Calls itself 23 times, and then has 25 frames.
DEEP = b"_start: li a0, 23\ncall down\nli a7, 93\necall\ndown: beqz a0, bottom\naddi a0, a0, -1\ncall down\nret\nbottom: nop\nret\n"
DEEP_BEGINS = "0x00010000 _start\n>    1  _start: li a0, 23\n     2  call down\n"

# Counts for ever.
UP = b"_start: addi t0, t0, 1\nj _start\n"
UP_BEGINS = "0x00010000 _start\n>    1  _start: addi t0, t0, 1\n     2  j _start\n"
WORDS = "0x00010000  0x00128293 0xffdff06f 0x00000000 0x00000000\n"
ZEROS = "".join("0x%08x  0x00000000 0x00000000 0x00000000 0x00000000\n" % place for place in range(0x10010, 0x20000, 16))

# The program, its first screen, and lines with what is shown for each; whether a line is refused.
TRANSCRIPTS = (
    ("steps show what changed", COUNT, COUNT_BEGINS, (
        ("step", "0x00010004 loop\n    a0 = 0x00000003  3\n     1  _start: li a0, 3\n>    2  loop: addi a0, a0, -1\n     3  bnez a0, loop\n"),
        ("", "0x00010008 loop+4\n    a0 = 0x00000002  2\n     2  loop: addi a0, a0, -1\n>    3  bnez a0, loop\n     4  li a7, 93\n"),
        ("back", "0x00010004 loop\n    a0 = 0x00000003  3\n     1  _start: li a0, 3\n>    2  loop: addi a0, a0, -1\n     3  bnez a0, loop\n"),
        ("si 2", "0x00010004 loop\n    a0 = 0x00000002  2\n     1  _start: li a0, 3\n>    2  loop: addi a0, a0, -1\n     3  bnez a0, loop\n"),
        ("back 4", "nothing before this is recorded\n0x00010000 _start\n    a0 = 0x00000000  0\n>    1  _start: li a0, 3\n     2  loop: addi a0, a0, -1\n"),
        ("continue", "the program ended with exit code 0\n"),
    ), True),
    ("breakpoints have numbers, conditions and marks", COUNT, COUNT_BEGINS, (
        ("break loop if a0 == 2", "breakpoint 1 at 0x00010004\n"),
        ("b 4", "breakpoint 2 at 0x0001000c\n"),
        ("breakpoints", "   1  0x00010004  loop  if a0 == 2\n   2  0x0001000c  line 4\n"),
        ("c", "breakpoint 1\n0x00010004 loop\n    a0 = 0x00000002  2\n     1  _start: li a0, 3\n>*   2  loop: addi a0, a0, -1\n     3  bnez a0, loop\n"),
        ("delete 1", ""),
        ("tbreak *loop + 8 hit 1", "breakpoint 3 at 0x0001000c\n"),
        ("c", "breakpoint 2, 3\n0x0001000c loop+8\n    a0 = 0x00000000  0\n     3  bnez a0, loop\n>*   4  li a7, 93\n     5  ecall\n"),
        ("breakpoints", "   2  0x0001000c  line 4\n"),
        ("delete", ""),
        ("breakpoints", "no breakpoints\n"),
    ), False),
    ("a breakpoint is deleted by its number here, and not by that in the session", COUNT, COUNT_BEGINS, (
        ("break 2", "breakpoint 1 at 0x00010004\n"),
        ("break 4", "breakpoint 2 at 0x0001000c\n"),
        ("delete 2", ""),
        ("breakpoints", "   1  0x00010004  line 2\n"),
        ("delete 1", ""),
        ("continue", "the program ended with exit code 0\n"),
    ), False),
    ("all are deleted, at lines, labels and addresses", COUNT, COUNT_BEGINS, (
        ("break 2", "breakpoint 1 at 0x00010004\n"),
        ("break loop", "breakpoint 2 at 0x00010004\n"),
        ("break *loop + 8", "breakpoint 3 at 0x0001000c\n"),
        ("delete", ""),
        ("continue", "the program ended with exit code 0\n"),
    ), False),
    ("a temporary breakpoint is met once", COUNT, COUNT_BEGINS, (
        ("tbreak loop", "breakpoint 1 at 0x00010004\n"),
        ("c", "breakpoint 1\n0x00010004 loop\n    a0 = 0x00000003  3\n     1  _start: li a0, 3\n>    2  loop: addi a0, a0, -1\n     3  bnez a0, loop\n"),
        ("c", "the program ended with exit code 0\n"),
    ), False),
    ("calls are shown, 20 at most", DEEP, DEEP_BEGINS, (
        ("break bottom", "breakpoint 1 at 0x00010028\n"),
        ("c", "breakpoint 1\n0x00010028 bottom\n    ra = 0x00010024  65572  down+16\n     8  ret\n>*   9  bottom: nop\n    10  ret\n"),
        ("bt", "#0   0x00010028 bottom  line 9  bottom: nop\n"
         + "".join("#%-3d 0x00010020 down+12  line 7  call down\n" % number for number in range(1, 20)) + "and 5 more\n"),
    ), False),
    ("values are shown in each form, with the label that lies there", STORE, STORE_BEGINS, (
        ("print [table]", "0x00000041  65  'A'\n"),
        ("p [table + 4]", "0xfffffffe  4294967294  -2\n"),
        ("print put", "0x00010028  65576  put\n"),
        ("print 'A' + 1", "0x00000042  66  'B'\n"),
        ("x table 2", "0x00010038  0x00000041 0xfffffffe\n"),
        ("xb table 5", "0x00010038  41 00 00 00 fe  A....\n"),
        ("labels", "0x00010000  _start\n0x00010028  put\n0x00010038  table\n"),
        ("set [table] = 'B'", "    [0x00010038] = 0x00000042\n"),
        ("set a1 = table", "    a1 = 0x00010038  65592  table\n"),
        ("registers a1 pc", "    a1 = 0x00010038  65592  table\n    pc = 0x00010000  65536  _start\n"),
        ("where", "0x00010000 _start\n>    1  _start: li a0, 7\n     2  call put\n"),
    ), False),
    ("who changed a word is found, on and back", STORE, STORE_BEGINS, (
        ("change [table + 4]", "[table + 4] was 0xfffffffe  4294967294  -2\n[table + 4] is  0x00000007  7\nchanged by\n"
         "> 0x00010030  00a2a223  sw a0, 4(t0)              put+8\n"
         "0x00010034 put+12\n    ra = 0x0001000c  65548  _start+12\n    t0 = 0x00010038  65592  table\n    a0 = 0x00000007  7\n"
         "    10  sw a0, 4(t0)\n>   11  ret\n    12  table: .word 65, 0xfffffffe\n"),
        ("finish", "0x0001000c _start+12\n     2  call put\n>    3  li a7, 1\n     4  ecall\n"),
        ("break put", "breakpoint 1 at 0x00010028\n"),
        ("c", "7\nbreakpoint 1\n0x00010028 put\n    ra = 0x00010020  65568  _start+32\n    a0 = 0x00000001  1\n    a7 = 0x00000001  1\n"
         "     8  ecall\n>*   9  put: la t0, table\n    10  sw a0, 4(t0)\n"),
        ("bt", "#0   0x00010028 put  line 9  put: la t0, table\n#1   0x0001001c _start+28  line 6  call put\n"),
        ("back-to-change [table + 4]", "[table + 4] was 0xfffffffe  4294967294  -2\n[table + 4] is  0x00000007  7\nchanged by\n"
         "> 0x00010030  00a2a223  sw a0, 4(t0)              put+8\n"
         "0x00010030 put+8\n    ra = 0x0001000c  65548  _start+12\n    a0 = 0x00000007  7\n    a7 = 0x00000000  0\n"
         " *   9  put: la t0, table\n>   10  sw a0, 4(t0)\n    11  ret\n"),
    ), False),
    ("of a long program the instructions are watched that can change what is read", LONG, LONG_BEGINS, (
        ("change [word]", "[word] was 0x00000007  7\n[word] is  0x00000005  5\nchanged by\n"
         "> 0x0001000c  00a2a023  sw a0, 0(t0)              _start+12\n"
         "0x00010010 _start+16\n    t0 = 0x00010020  65568  word\n    a0 = 0x00000005  5\n"
         "     3  sw a0, 0(t0)\n>    4  jal ra, end\n     5  nop\n"),
        ("back-to-change a0", "a0 was 0x00000000  0\na0 is  0x00000005  5\nchanged by\n"
         "> 0x00010008  00500513  addi a0, zero, 5          _start+8\n"
         "0x00010008 _start+8\n    a0 = 0x00000000  0\n     1  _start: la t0, word\n>    2  li a0, 5\n     3  sw a0, 0(t0)\n"),
        ("change x1", "x1 was 0x00000000  0\nx1 is  0x00010014  65556\nchanged by\n"
         "> 0x00010010  008000ef  jal ra, 0x00010018        _start+16\n"
         "0x00010018 end\n    ra = 0x00010014  65556  _start+20\n    a0 = 0x00000005  5\n     5  nop\n>    6  end: li a7, 93\n     7  ecall\n"),
        ("change a7", "a7 was 0x00000000  0\na7 is  0x0000005d  93  ']'\nchanged by\n"
         "> 0x00010018  05d00893  addi a7, zero, 93         end\n"
         "0x0001001c end+4\n    a7 = 0x0000005d  93  ']'\n     6  end: li a7, 93\n>    7  ecall\n     8  word: .word 7\n"),
        ("back-to-change pc", "pc was 0x00010018  65560\npc is  0x0001001c  65564\nchanged by\n"
         "> 0x00010018  05d00893  addi a7, zero, 93         end\n"
         "0x00010018 end\n    a7 = 0x00000000  0\n     5  nop\n>    6  end: li a7, 93\n     7  ecall\n"),
    ), False),
    ("what is displayed is shown at each stop", COUNT, COUNT_BEGINS, (
        ("display a0 * 2", "1: a0 * 2 = 0x00000000  0\n"),
        ("display [sp - 4]", "2: [sp - 4] = 0x00000000  0\n"),
        ("undisplay 2", ""),
        ("s", "0x00010004 loop\n    a0 = 0x00000003  3\n     1  _start: li a0, 3\n>    2  loop: addi a0, a0, -1\n     3  bnez a0, loop\n"
         "1: a0 * 2 = 0x00000006  6\n"),
        ("undisplay", ""),
        ("where", "0x00010004 loop\n     1  _start: li a0, 3\n>    2  loop: addi a0, a0, -1\n     3  bnez a0, loop\n"),
    ), False),
    ("what is displayed may lose its value", COUNT, COUNT_BEGINS, (
        ("set a0 = 65536", "    a0 = 0x00010000  65536  _start\n"),
        ("display [a0 + 4096]", "1: [a0 + 4096] = 0x00000000  0\n"),
        ("s", "0x00010004 loop\n    a0 = 0x00000003  3\n     1  _start: li a0, 3\n>    2  loop: addi a0, a0, -1\n     3  bnez a0, loop\n"
         "1: [a0 + 4096] = no value here\n"),
    ), False),
    ("fp is s0", COUNT, COUNT_BEGINS, (
        ("set fp = 3", "    s0 = 0x00000003  3\n"),
        ("print fp + s0", "0x00000006  6\n"),
        ("registers fp", "    s0 = 0x00000003  3\n"),
    ), False),
    ("what a logpoint says comes before the stop after it", COUNT, COUNT_BEGINS, (
        ("log loop once more", "breakpoint 1 at 0x00010004\n"),
        ("break 4", "breakpoint 2 at 0x0001000c\n"),
        ("c", "once more\nonce more\nonce more\nbreakpoint 2\n0x0001000c loop+8\n     3  bnez a0, loop\n>*   4  li a7, 93\n     5  ecall\n"),
    ), False),
    ("what was wrong is said", TRAP, TRAP_BEGINS, (
        ("c", "load access fault: lw a0, 0(zero) reads 0x00000000, where no memory is\n0x00010004 _start+4\n     1  _start: nop\n>    2  lw a0, 0(zero)\n"),
    ), False),
    ("the number of an unknown call is said", CALLS, CALLS_BEGINS, (
        ("c", "unknown environment call: a7 is 5, and the calls are 1 and 93\n0x00010004 _start+4\n    a7 = 0x00000005  5\n     1  _start: li a7, 5\n>    2  ecall\n"),
    ), False),
    ("an ended program says so", COUNT, COUNT_BEGINS, (
        ("c", "the program ended with exit code 0\n"),
        ("step", "the program has ended: run begins anew\n"),
        ("print a0", "the program has ended: run begins anew\n"),
    ), True),
    ("it begins anew", COUNT, COUNT_BEGINS, (
        ("b 3", "breakpoint 1 at 0x00010008\n"),
        ("c", "breakpoint 1\n0x00010008 loop+4\n    a0 = 0x00000002  2\n     2  loop: addi a0, a0, -1\n>*   3  bnez a0, loop\n     4  li a7, 93\n"),
        ("run", COUNT_BEGINS),
        ("c", "breakpoint 1\n0x00010008 loop+4\n    a0 = 0x00000002  2\n     2  loop: addi a0, a0, -1\n>*   3  bnez a0, loop\n     4  li a7, 93\n"),
    ), False),
    ("breakpoints at labels and addresses are kept where it begins anew", COUNT, COUNT_BEGINS, (
        ("break loop if a0 == 1", "breakpoint 1 at 0x00010004\n"),
        ("break *loop + 8", "breakpoint 2 at 0x0001000c\n"),
        ("run", "0x00010000 _start\n>    1  _start: li a0, 3\n *   2  loop: addi a0, a0, -1\n"),
        ("c", "breakpoint 1\n0x00010004 loop\n    a0 = 0x00000001  1\n     1  _start: li a0, 3\n>*   2  loop: addi a0, a0, -1\n     3  bnez a0, loop\n"),
        ("c", "breakpoint 2\n0x0001000c loop+8\n    a0 = 0x00000000  0\n     3  bnez a0, loop\n>*   4  li a7, 93\n     5  ecall\n"),
    ), False),
    ("so much and no more is shown or moved at once", UP, UP_BEGINS, (
        ("x _start 16384", WORDS + ZEROS),
        ("x _start 16385", "at most 65,536 bytes at once\n"),
        ("xb _start 65537", "at most 65,536 bytes at once\n"),
        ("change a0", "unchanged after 1,000,000 instructions\npaused\n0x00010000 _start\n    t0 = 0x0007a120  500000\n"
         ">    1  _start: addi t0, t0, 1\n     2  j _start\n"),
    ), True),
    ("1,024 breakpoints at addresses and no more, and one that is refused is forgotten", UP, UP_BEGINS, (
        *(("break *65536", "breakpoint %d at 0x00010000\n" % number) for number in range(1, 1025)),
        ("break *65536", "too much at once: 1,024 breakpoints, 65,536 bytes, 4,096 instructions\n"),
        ("delete 1024", ""),
        ("break *65536", "breakpoint 1025 at 0x00010000\n"),
        ("delete 1026", "there is no breakpoint 1026\n"),
    ), True),
    ("what has no value says what was missing", COUNT, COUNT_BEGINS, (
        ("print [sp]", "[sp]: 0x00110000 is outside memory\n"),
        ("x sp 2", "0x00110000 is outside memory\n"),
        ("xb sp - 2", "0x0010fffe  00 00 ? ? ? ? ? ? ? ? ? ? ? ? ? ?  ................\n"),
        ("stack", "0x00110000 is outside memory\n"),
        ("set [8] = 1", "0x00000008 is outside memory\n"),
        ("print loop + nobody", "nobody is no register and no label\n"),
        ("print 1 +", "1 +: no expression\n"),
        ("break nowhere", "nowhere is no label\n"),
        ("break 9", "breakpoint 1: no code at or after this line\n"),
        ("delete 1", "there is no breakpoint 1\n"),
        ("undisplay 1", "there is no display 1\n"),
        ("set zero = 1", "zero and pc cannot be set\n"),
        ("set nobody = 1", "no such register\n"),
        ("list nobody", "nobody is no label\n"),
        ("registers a0 nobody", "    a0 = 0x00000000  0\nnobody is no register\n"),
        ("back", "nothing before this is recorded\n"),
        ("contineu", "no such command, column 1\ndid you mean continue? help lists the commands\n"),
        ("break", "a line, a label or *ADDRESS is missing, column 6\n"),
        ("help nobody", "no such command: help lists them\n"),
    ), True),
)
