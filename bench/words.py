"""Images of random instructions: all forms of docs/MACHINE.md, with taken and nullified branches, and branches behind
branches. Each image loads its registers from its data, goes through its instructions once, and puts out the registers, the
shift amount and a sum of the data behind them, so that two machines can be compared.

Words are made from the fields of docs/MACHINE.md, written a second time. On Linux the two low bits of a return address are
set, which they are not on pawc's machine: an image clears them in a register that it links, before it reads it.
"""
import random

from hppa import FIRST, LIBRARY, RETURN, image_file

BASE, TOP = 30, 8192  # the register that points to the middle of the data, and how many bytes they have
EDGES = [0, 1, 2, 3, 7, 8, 31, 32, 255, 256, 32767, 32768, 65535, 65536, 0x7FFFFFFE, 0x7FFFFFFF, 0x80000000, 0x80000001]
EDGES += [2**32 - 1 - edge for edge in EDGES]
NOP = 0x08000240


def low_sign(value, width):
    return (value % 2 ** (width - 1)) * 2 + (value < 0)


def access(opcode, base, register, displacement):
    return opcode << 26 | base << 21 | register << 16 | low_sign(displacement, 14)


def load_offset(displacement, base, register):
    return access(0x0D, base, register, displacement)


def load_high(value, register):
    """LDIL of the value's upper 21 bits."""
    x = value >> 11
    field = (x >> 20 & 1) | (x >> 9 & 0x7FF) << 1 | (x >> 7 & 3) << 14 | (x >> 2 & 31) << 16 | (x & 3) << 12
    return 0x08 << 26 | register << 21 | field


def three(extension, r1, r2, target):
    return 0x02 << 26 | r2 << 21 | r1 << 16 | extension << 5 | target


def compare_and_clear(condition, negated, r1, r2, target):
    return three(0x44, r1, r2, target) | condition << 13 | negated << 12


def subtract_from(immediate, register, target):
    return 0x25 << 26 | register << 21 | target << 16 | low_sign(immediate, 11)


def extract(extension, register, position, length, target):
    return 0x34 << 26 | register << 21 | target << 16 | extension << 10 | position << 5 | 32 - length


def deposit(register, position, length, target):
    return 0x35 << 26 | target << 21 | register << 16 | 2 << 10 | 31 - position << 5 | 32 - length


def shift_double(r1, r2, target):
    return 0x34 << 26 | r2 << 21 | r1 << 16 | target


def to_shift(register):
    return 0x1840 | 11 << 21 | register << 16


def compare_and_branch(opcode, condition, r1, r2, words):
    return opcode << 26 | r2 << 21 | r1 << 16 | condition << 13 | (words & 0x3FF) << 3 | (words >> 10 & 1) << 2 | (words < 0)


def branch_and_link(target, nullify, words):
    field = (words >> 11 & 31) << 16 | (words & 0x3FF) << 3 | (words >> 10 & 1) << 2 | (words < 0)
    return 0x3A << 26 | target << 21 | field | nullify << 1


def branch_vectored(base, nullify):
    return 0x3A << 26 | base << 21 | 6 << 13 | nullify << 1


def branch_external(base, nullify):
    return 0x39 << 26 | base << 21 | 1 << 13 | nullify << 1


def cleared(register):
    """The words that clear the two low bits of a register."""
    return [extract(6, register, 29, 30, register), deposit(register, 29, 30, register)]


class Words:
    """The words of an image so far."""

    def __init__(self, seed):
        self.draw = random.Random(seed)
        self.words = []
        self.subs = []

    def source(self, but=()):
        return self.draw.choice([r for r in range(32) if r not in but])

    def target(self, but=()):
        return self.source((BASE, *but))

    def memory(self, but):
        size = self.draw.choice([1, 2, 4])
        place = {1: 0, 2: 1, 4: 2}[size]
        at = self.draw.randrange(-TOP // 2, TOP // 2) // size * size
        if self.draw.random() < 0.5:
            return [access(0x10 + place, BASE, self.target(but), at)]
        return [access(0x18 + place, BASE, self.source(but), at)]

    def computing(self, but, target=None):
        a, b, t = self.source(but), self.source(but), self.target(but) if target is None else target
        position = self.draw.randrange(32)
        length = self.draw.randrange(position + 1) + 1
        return [
            self.draw.choice(
                [
                    three(self.draw.choice([0x10, 0x12, 0x14, 0x20, 0x50]), a, b, t),
                    subtract_from(self.draw.randrange(-1024, 1024), a, t),
                    load_offset(self.draw.randrange(-8192, 8192), a, t),
                    load_high(self.draw.randrange(2**32), t),
                    extract(self.draw.choice([6, 7]), a, position, length, t),
                    deposit(a, position, length, t),
                    shift_double(a, b, t),
                    to_shift(a),
                    compare_and_clear(0, 0, a, b, t),
                ]
            )
        ]

    def simple(self, but=()):
        """One instruction that neither branches nor nullifies, nor names these registers."""
        return (self.memory if self.draw.random() < 0.3 else self.computing)(but)

    def simples(self, count, but=()):
        return [word for _ in range(count) for word in self.simple(but)]

    def condition(self):
        return self.draw.randrange(6), self.source(), self.source()

    def comparing(self, words):
        return compare_and_branch(self.draw.choice([0x20, 0x22]), *self.condition(), words)

    def nullifying(self):
        condition, a, b = self.condition()
        test = compare_and_clear(condition, self.draw.randrange(2), a, b, self.target())
        return [test] + self.draw.choice([self.simple, self.forward, self.jumping])()

    def stored(self):
        """An instruction whose result stands in the data from then on."""
        register, at = self.target(), self.draw.randrange(-TOP // 8, TOP // 8) * 4
        return self.computing((), register) + [access(0x1A, BASE, register, at)]

    def pointing(self):
        """A register that points into the data, and an access by it."""
        register = self.target((0,))
        size, place = self.draw.choice([(1, 0), (2, 1), (4, 2)])
        away = self.draw.randrange(-2048, 2048) // size * size
        at = self.draw.randrange(-TOP // 2 + 2048, TOP // 2 - 2048) // size * size
        opcode = self.draw.choice([0x10, 0x18]) + place
        return [load_offset(at, BASE, register), access(opcode, register, self.target(), away)]

    def forward(self):
        over = self.draw.randrange(6)
        return [self.comparing(over)] + self.simples(over + 1)

    def jumping(self):
        over = self.draw.randrange(6)
        return [branch_and_link(0, self.draw.randrange(2), over)] + self.simples(over + 1)

    def linking(self):
        over, link = self.draw.randrange(6), self.target((0,))
        return [branch_and_link(link, self.draw.randrange(2), over)] + self.simples(over + 1, (link,)) + cleared(link)

    def behind(self):
        """A branch in the delay slot of a taken one: one instruction at the first target runs before the second's."""
        first = self.draw.randrange(4)
        second = first + self.draw.randrange(1, 4)
        if self.draw.random() < 0.5:
            return [branch_and_link(0, 0, first + 1), self.comparing(second)] + self.simples(second + 2)
        link = self.target((0,))
        slot = branch_and_link(link, self.draw.randrange(2), second)
        return [branch_and_link(0, 0, first + 1), slot] + self.simples(second + 2, (link,)) + cleared(link)

    def calling(self):
        """A call of a routine, by BL with its link in register 2 or by BLE with its link in register 31."""
        entry, link = self.draw.choice(self.subs)
        nullify = self.draw.randrange(2)
        if link == 2:
            call = [branch_and_link(2, nullify, entry - len(self.words) - 2)]
        else:
            address, register = FIRST + 4 * entry, self.draw.choice([31, self.target((0, 31))])
            call = [load_high(address, register), load_offset(address % 2048, register, register), branch_external(register, nullify)]
        return call + self.simple((link,))

    def routine(self):
        link = self.draw.choice([2, 31])
        self.subs.append((len(self.words), link))
        self.words += cleared(link) + self.simples(self.draw.randrange(5), (link,))
        nullify = self.draw.randrange(2)
        self.words += [branch_vectored(link, nullify)] + self.simple((link,))

    def group(self):
        kinds = [self.simple] * 2 + [self.stored] * 6 + [self.nullifying] * 3
        kinds += [self.forward, self.jumping, self.linking, self.behind, self.calling, self.pointing]
        self.words += self.draw.choice(kinds)()

    def call(self, name, library):
        self.words += [branch_and_link(2, 0, library[name] - len(self.words) - 2), NOP]

    def loop(self, begin, end, step, turn):
        """Goes over the data from one place to another, with register 3 at the place."""
        self.words += [load_offset(begin, BASE, 3), load_offset(end, BASE, 4)]
        first = len(self.words)
        turn()
        self.words.append(load_offset(step, 3, 3))
        self.words += [compare_and_branch(0x22, 1, 3, 4, first - len(self.words) - 2), NOP]

    def put_out(self, status, library):
        """Puts out 32 words: the shift amount, the registers, and in the place of register 30 a sum of the data with them."""
        slots = TOP // 2 - 128
        for register in range(1, 32):
            if register != BASE:
                self.words.append(access(0x1A, BASE, register, slots + 4 * register))
        self.words += [load_offset(1, 0, 1), shift_double(1, 0, 2), access(0x1A, BASE, 2, slots)]
        self.words += [load_offset(5, 0, 6), to_shift(6), load_offset(0, 0, 5)]
        turned = [access(0x12, 3, 7, 0), shift_double(5, 5, 5), three(0x50, 5, 7, 5)]
        self.loop(-TOP // 2, TOP // 2, 4, lambda: self.words.extend(turned))
        self.words.append(access(0x1A, BASE, 5, slots + 4 * BASE))

        def byte():
            self.words.append(access(0x10, 3, 26, 0))
            self.call("putchar", library)

        self.loop(slots, TOP // 2, 1, byte)
        self.words.append(load_offset(status, 0, 26))
        self.call("exit", library)


def random_image(seed, groups):
    """The file of an image of so many random groups of instructions."""
    made = Words(seed)
    made.words = [0, NOP]
    library = {}
    for name, word in LIBRARY.items():
        library[name] = len(made.words)
        made.words += [word, RETURN]
    for _ in range(8):
        made.routine()
    made.words[0] = branch_and_link(0, 0, len(made.words) - 2)
    pointer = len(made.words)
    made.words += [0, 0]
    for register in range(1, 32):
        if register != BASE:
            made.words.append(access(0x12, BASE, register, 4 * made.draw.randrange(-TOP // 8, TOP // 8)))
    made.words.append(to_shift(made.source()))
    for _ in range(groups):
        made.group()
    made.put_out(seed % 256, library)
    made.words.append(NOP)
    middle = (FIRST + 4 * len(made.words) + 7) // 8 * 8 + TOP // 2
    made.words[pointer : pointer + 2] = [load_high(middle, BASE), load_offset(middle % 2048, BASE, BASE)]
    numbers = [made.draw.choice([made.draw.choice(EDGES), made.draw.randrange(2**32)]) for _ in range(TOP // 4)]
    data = b"".join(n.to_bytes(4, "big") for n in numbers)
    return image_file(made.words, data, {name: FIRST + 4 * at for name, at in library.items()})
