"""Images of pawc as programs for Linux on PA-RISC, which qemu-hppa runs.

The words of an image stand at their addresses, as they are, but for the library's three functions: the two words of each,
`BREAK 0,3`, `BREAK 0,1` or `BREAK 0,2` and a return, jump to what monitor.s has in their place. `BREAK 0,4`, which stops a
program that has no room on its stack, stays: qemu ends then by the signal SIGTRAP. Memory is that of the machine, 64 MiB,
but its text can be written: what the machine halts for is no matter of this module.
"""
import hashlib
import os
import signal
import struct
import subprocess
import tempfile
from pathlib import Path

FIRST = 4096
MEMORY = 1 << 26
MONITOR = 0x4200000
ENTRY_AND_STACK, CALLS = 0x100, 0x180
RETURN = 0xE840C002
LIBRARY = {"exit": 0x6000, "getchar": 0x2000, "putchar": 0x4000}
# Guest memory from here on: not every Linux lets a process have addresses as low as those of an image.
BASE = "0x100000000"


def number(value):
    return value.to_bytes(4, "big")


class Fields:
    """The fields of a file, from an offset on."""

    def __init__(self, data, at):
        self.data, self.at = data, at

    def number(self):
        self.at += 4
        return int.from_bytes(self.data[self.at - 4 : self.at], "big")

    def bytes(self, count):
        self.at += count
        return self.data[self.at - count : self.at]

    def text(self):
        return self.bytes(self.number())


class Image:
    """The entry, the memory from 4096 on, the stack pointer at the start, and the addresses of the functions by name."""

    def __init__(self, file):
        fields = Fields(file, 12)
        self.entry, _, _ = (fields.number() for _ in range(3))
        text = fields.bytes(4 * fields.number())
        data = (FIRST + len(text) + 7) // 8 * 8
        size = fields.number()
        self.memory = bytearray(text.ljust(data - FIRST + size, b"\0"))
        for _ in range(fields.number()):
            at = data - FIRST + fields.number()
            item = fields.text()
            self.memory[at : at + len(item)] = item
        self.stack = (data + size + 63) // 64 * 64 + 64
        names = [fields.text().decode() for _ in range(fields.number())]
        self.functions = {}
        for _ in range(fields.number()):
            name, address, _ = (fields.number() for _ in range(3))
            self.functions[names[name]] = address


def image_file(words, data, functions):
    """The file of an image that is entered at its first word."""
    start = (FIRST + 4 * len(words) + 7) // 8 * 8
    end = (start + len(data) + 63) // 64 * 64 + 64 + 4096
    names = sorted(functions)
    fields = [number(v) for v in (1, FIRST, 4096, end, len(words), *words, len(data), 1, 0, len(data))] + [data]
    fields += [number(len(names))] + [number(len(name)) + name.encode() for name in names]
    fields.append(number(len(names)))
    for name in sorted(names, key=functions.get):
        fields += [number(v) for v in (names.index(name), functions[name], 0)]
    fields.append(number(0))
    body = b"".join(fields)
    file = b"PAWI" + number(8 + len(body) + 32) + body
    return file + hashlib.sha256(file).digest()


def assembled(folder):
    """The bytes of monitor.s, by the GNU assembler and linker for hppa."""
    made = {kind: str(folder / f"monitor.{kind}") for kind in ("o", "elf", "bin")}
    source = str(Path(__file__).with_name("monitor.s"))
    for command in (
        ["as", "-o", made["o"], source],
        ["ld", f"-Ttext={MONITOR:#x}", "-e", f"{MONITOR:#x}", "-o", made["elf"], made["o"]],
        ["objcopy", "-O", "binary", "-j", ".text", made["elf"], made["bin"]],
    ):
        subprocess.run(["hppa-linux-gnu-" + command[0], *command[1:]], check=True)
    return Path(made["bin"]).read_bytes()


def program_of(image, monitor):
    """The program for Linux, as an ELF file of two segments: the image's memory, and the monitor."""
    memory = bytearray(image.memory)
    for place, (name, word) in enumerate(LIBRARY.items()):
        at = image.functions.get(name, FIRST + len(memory)) - FIRST
        if memory[at : at + 8] == number(word) + number(RETURN):
            memory[at : at + 8] = monitor[CALLS + 8 * place : CALLS + 8 * place + 8]
        elif name in image.functions:
            raise ValueError(f"{name} is not the library's")
    beside = bytearray(monitor)
    beside[ENTRY_AND_STACK : ENTRY_AND_STACK + 8] = number(image.entry) + number(image.stack)
    memory += bytes(-len(memory) % 4096)
    head = b"\x7fELF" + bytes([1, 2, 1, 3]).ljust(12, b"\0")
    head += struct.pack(">HHIIIIIHHHHHH", 2, 15, 1, MONITOR, 52, 0, 0x210, 52, 32, 2, 0, 0, 0)
    head += struct.pack(">8I", 1, 4096, FIRST, FIRST, len(memory), MEMORY - FIRST, 7, 4096)
    head += struct.pack(">8I", 1, 4096 + len(memory), MONITOR, MONITOR, len(beside), len(beside), 7, 4096)
    return head.ljust(4096, b"\0") + memory + beside


class Machine:
    """qemu-hppa, with a folder for programs and inputs."""

    def __init__(self, folder):
        self.folder, self.monitor = folder, assembled(folder)

    def run(self, file, given, seconds=300):
        """What a run of an image's file over an input comes to: the status, `StackStop`, or the signal that ended it; the
        output; and how many bytes of the input were read."""
        with tempfile.TemporaryDirectory(dir=self.folder) as folder:
            program, source, out = (Path(folder, name) for name in ("program", "input", "output"))
            program.write_bytes(program_of(Image(file), self.monitor))
            program.chmod(0o700)
            source.write_bytes(given)
            # A file and no pipe: whoever reads a pipe is woken by each byte.
            with open(source, "rb", buffering=0) as stdin, open(out, "wb") as stdout, open(os.devnull, "wb") as told:
                command = ["qemu-hppa", "-B", BASE, program]
                ran = subprocess.run(command, stdin=stdin, stdout=stdout, stderr=told, timeout=seconds, cwd=folder)
                read = os.lseek(stdin.fileno(), 0, os.SEEK_CUR)
            written = out.read_bytes()
        end = ran.returncode
        if end < 0:
            end = "StackStop" if end == -signal.SIGTRAP else signal.Signals(-end).name
        return end, written, read
