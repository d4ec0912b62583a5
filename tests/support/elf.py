"""Programs as files that qemu-riscv32 runs."""
import struct
import subprocess

from support.machine import BASE
from support.program import PROGRAM, SECONDS


def image_of(path):
    """The bytes of a text that has no data, as the program lists them."""
    listed = subprocess.run([PROGRAM, "asm", path], stdout=subprocess.PIPE, check=True, timeout=SECONDS).stdout.decode()
    return b"".join(int(line.split()[1], 16).to_bytes(4, "little") for line in listed.splitlines())


def elf_of(image):
    """An ELF file of one segment, which may be read, written and executed, with 1 MiB of memory; its header is not loaded."""
    header = struct.pack("<7s9xHHIIIIIHHHHHH", b"\x7fELF\1\1\1", 2, 243, 1, BASE, 52, 0, 0, 52, 32, 1, 0, 0, 0)
    segment = struct.pack("<8I", 1, 4096, BASE, BASE, len(image), 1 << 20, 7, 4096)
    return (header + segment).ljust(4096, b"\0") + image
