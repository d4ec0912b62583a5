"""GNU as and ld: the bytes that they make of a text, in one section from 0x00010000 on as rvdap has it. And gcc: texts that a compiler writes."""
import os
import re
import shutil
import subprocess
import tempfile

PREFIX = "riscv64-unknown-elf-"
AS = [PREFIX + "as", "-march=rv32i", "-mabi=ilp32", "-mno-relax"]
LD = [PREFIX + "ld", "-m", "elf32lriscv", "--no-relax", "-e", "0", "--section-start=.all=0x10000"]
GCC = [PREFIX + "gcc", "-O1", "-S", "-march=rv32i", "-mabi=ilp32", "-ffreestanding", "-x", "c", "-", "-o", "-"]
SECTION = re.compile(r"^[ \t]*\.(text|data|bss|section|sdata|sbss|rodata)\b.*$", re.M)
AUIPC, LUI = 0x17, 0x37


def absent():
    """Those of the programs that are not here."""
    return [program[0] for program in (AS, LD, GCC) if shutil.which(program[0]) is None]


def in_one_section(text):
    """The text for GNU as: all of it in one section, whose padding is zeros as it is no code, each section at a multiple of 4; and call 10 as it is
    converted."""
    text = SECTION.sub(".balign 4", text)
    text = re.sub(r"(?m)(\b(?:li +a7, *10|addi +a7, *zero, *10)\b)", "li a0, 0; li a7, 93", text)
    return '.section .all, "aw"\n' + text + "\n"


def image_of(text):
    """The bytes of a text. None: they do not take it."""
    with tempfile.TemporaryDirectory() as folder:
        into = {name: os.path.join(folder, name) for name in ("text", "object", "linked", "image")}
        with open(into["text"], "w", encoding="utf-8") as file:
            file.write(in_one_section(text))
        for command in (AS + ["-o", into["object"], into["text"]], LD + ["-o", into["linked"], into["object"]],
                        [PREFIX + "objcopy", "-O", "binary", "-j", ".all", into["linked"], into["image"]]):
            if subprocess.run(command, stdout=subprocess.DEVNULL, stderr=subprocess.DEVNULL).returncode:
                return None
        with open(into["image"], "rb") as file:
            return file.read()


def compiled(source):
    """What gcc makes of a text of C."""
    return subprocess.run(GCC, input=source, stdout=subprocess.PIPE, text=True, check=True).stdout


def signed(number, bits):
    return number - (1 << bits) if number >> (bits - 1) & 1 else number


def low_part(word):
    """The low part of an address in a load, a jump or a store."""
    store = word & 0x7f == 0x23
    return signed(word >> 25 << 5 | word >> 7 & 31, 12) if store else signed(word >> 20, 12)


def without_low_part(word):
    return word & (0x01fff07f if word & 0x7f == 0x23 else 0x000fffff)


def reach_the_same(address, ours, theirs):
    """Whether two pairs of words at an address reach the same one: LUI, and AUIPC as GNU as has it for `lw rd, label`."""
    same_form = ours[0] & 0xfff == theirs[0] & 0xf80 | LUI and theirs[0] & 0x7f == AUIPC and without_low_part(ours[1]) == without_low_part(theirs[1])
    to_ours = (ours[0] & 0xfffff000) + low_part(ours[1])
    to_theirs = address + (theirs[0] & 0xfffff000) + low_part(theirs[1])
    return same_form and (to_ours - to_theirs) % (1 << 32) == 0


def first_difference(ours, theirs):
    """The address from which two images differ; loads and stores of a label may reach it in either way. None: nowhere."""
    if len(ours) != len(theirs):
        return 0x10000 + min(len(ours), len(theirs))
    words = [[int.from_bytes(image[at:at + 4], "little") for at in range(0, len(image), 4)] for image in (ours, theirs)]
    place = 0
    while place < len(words[0]):
        if words[0][place] != words[1][place]:
            pairs = [image[place:place + 2] for image in words]
            if len(pairs[0]) < 2 or not reach_the_same(0x10000 + 4 * place, *pairs):
                return 0x10000 + 4 * place
            place += 1
        place += 1
    return None
