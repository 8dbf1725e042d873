"""The functions of a compiled archive: their instructions, what they call, and what each takes of the stack. Python alone reads it: the archive, the ELF objects
in it, and x86-64 code as far as the kit's compiler makes it. Whatever is not known here ends the program with the bytes and their place; nothing is passed over.
"""

import struct
import sys

ADDRESS = 8  # what a call puts on the stack
RSP = 4


def refuse(text):
    sys.exit(f"stack: {text}")


# ---- the archive


class Function:
    """A function's name and code, the places in it that the linker fills in, and where its jump tables lead."""

    def __init__(self, name, code, fills, tables):
        self.name, self.code, self.fills, self.tables = name, code, fills, tables


def members(path):
    """The objects of an archive, or the one that a file is."""
    try:
        with open(path, "rb") as file:
            data = file.read()
    except OSError as error:
        refuse(f"{path}: {error.strerror}; `bin/run --archive` makes the archive")
    if data[:8] != b"!<arch>\n":
        return [data]
    found, at = [], 8
    while at + 60 <= len(data):
        size = int(data[at + 48 : at + 58])
        if data[at : at + 16].rstrip() not in (b"/", b"//", b"/SYM64/"):  # lists of names and symbols
            found.append(data[at + 60 : at + 60 + size])
        at += 60 + size + size % 2
    return found


def text_at(data, at):
    return data[at : data.index(b"\0", at)].decode()


def table_leads(home, cited, filled, leads):
    """Where the jump tables of a section lead: an entry holds how far its place lies from its table's start."""
    starts = sorted({addend + 4 for _, symbol, addend in cited if symbol[2] == home})
    for offset, symbol, addend in filled:
        start = max((s for s in starts if s <= offset), default=None)
        yield None if start is None else leads(symbol, addend - (offset - start))[0]


def functions(path):
    """Each function's name, with the function."""
    found = {}
    for data in members(path):
        if data[:6] != b"\x7fELF\x02\x01" or struct.unpack_from("<H", data, 18)[0] != 62:
            refuse(f"{path}: not an object for x86-64")
        (start,) = struct.unpack_from("<Q", data, 40)
        size, count, names = struct.unpack_from("<HHH", data, 58)
        # name, kind, flags, address, offset, size, link, info
        sections = [struct.unpack_from("<IIQQQQII", data, start + size * i) for i in range(count)]
        title = [text_at(data, sections[names][4] + s[0]) for s in sections]
        symbols = []  # name, kind, section, value, size
        for s in sections:
            if s[1] == 2:
                for at in range(s[4], s[4] + s[5], 24):
                    name, info, _, home, value, length = struct.unpack_from("<IBBHQQ", data, at)
                    symbols.append((text_at(data, sections[s[6]][4] + name), info & 15, home, value, length))
        inside = {}  # the functions of a section
        for name, kind, home, value, length in symbols:
            if kind == 2 and home:
                inside.setdefault(home, []).append((value, length, name))

        def leads(symbol, addend):
            """The function that a place lies in, by its name, and how far in it; or a name from outside."""
            name, kind, home, value, _ = symbol
            for low, length, there in inside.get(home, []):
                if low <= value + addend < low + length:
                    return there, value + addend - low
            return (name, 0) if home == 0 else (None, 0)

        fills = {}  # by section: offset, symbol, addend
        for s in sections:
            if s[1] == 4:
                for at in range(s[4], s[4] + s[5], 24):
                    offset, info, addend = struct.unpack_from("<QQq", data, at)
                    fills.setdefault(s[7], []).append((offset, symbols[info >> 32], addend))
        for home, parts in inside.items():
            for low, length, name in parts:
                code = data[sections[home][4] + low : sections[home][4] + low + length]
                own = {o - low: leads(symbol, addend + 4) for o, symbol, addend in fills.get(home, []) if low <= o < low + length}
                tables = [lead for i, t in enumerate(title) if t == f".rodata.{name}" for lead in table_leads(i, fills.get(home, []), fills.get(i, []), leads)]
                if name in found:
                    refuse(f"{name} stands twice in {path}")
                found[name] = Function(name, code, own, tables)
    return found


# ---- the instructions

PREFIXES = {0x26, 0x2E, 0x36, 0x3E, 0x64, 0x65, 0x66, 0x67, 0xF0, 0xF2, 0xF3}


def spread(text):
    """Opcodes as `00-03 63`."""
    found = set()
    for part in text.split():
        low, _, high = part.partition("-")
        found.update(range(int(low, 16), int(high or low, 16) + 1))
    return found


# Opcodes with a byte that names operands, those with a byte or a word of their own after it, and those with neither.
NAMED = spread("00-03 08-0b 10-13 18-1b 20-23 28-2b 30-33 38-3b 63 69 6b 80 81 83-8b 8d 8f c0 c1 c6 c7 d0-d3 f6 f7 fe ff")
BYTE = spread("04 0c 14 1c 24 2c 34 3c 6a 6b 70-7f 80 83 a8 b0-b7 c0 c1 c6 eb")
WORD = spread("05 0d 15 1d 25 2d 35 3d 68 69 81 a9 b8-bf c7 e8 e9")
PLAIN = spread("50-5f 90-99 a4 a5 aa ab c3 c9 cc")
# The same after 0f.
NAMED_2 = spread("10-17 1e 1f 28-2f 40-76 7c-7f 90-9f a3-a5 ab-ad af-b1 b3 b6-bf c0-c2 c4-c6 d0-ff")
BYTE_2 = spread("70-73 a4 ac ba c2 c4-c6")
WORD_2 = spread("80-8f")
PLAIN_2 = spread("0b 77 a2 c8-cf")
# Those that write the register that is named last, and those that write the one that is named first. With no other can the stack pointer move.
TO_LAST = spread("01 09 11 19 21 29 31 81 83 87 89 8f c1 c7 d1 d3 f7 ff")
TO_FIRST = spread("03 0b 13 1b 23 2b 33 63 69 6b 87 8b 8d")
TO_FIRST_2 = spread("40-4f af b6-b8 bc-bf c1")


class Step:
    """One instruction: where it ends, its opcode, its operands and its number."""

    def __init__(self, code, at):
        self.at = at
        rex, wide = 0, 4
        while code[at] in PREFIXES:
            wide = 2 if code[at] == 0x66 else wide
            at += 1
        if 0x40 <= code[at] <= 0x4F:
            rex = code[at]
            at += 1
        self.second = code[at] == 0x0F
        at += self.second
        self.op = code[at]
        at += 1
        third = self.second and self.op in (0x38, 0x3A)
        if third:
            kind, self.op = self.op, code[at]
            at += 1
            named, byte, word, plain = True, kind == 0x3A, False, False
        else:
            sets = (NAMED_2, BYTE_2, WORD_2, PLAIN_2) if self.second else (NAMED, BYTE, WORD, PLAIN)
            named, byte, word, plain = (self.op in s for s in sets)
        if not (named or byte or word or plain):
            raise LookupError
        self.first = self.last = self.base = self.index = None
        self.shift = 0
        if named:
            kind, first, last = code[at] >> 6, code[at] >> 3 & 7, code[at] & 7
            at += 1
            self.group = first
            self.first = first + 8 * (rex >> 2 & 1)
            size = (0, 1, 4, 0)[kind]
            if kind == 3:
                self.last = last + 8 * (rex & 1)
            else:
                if last == 4:
                    last = code[at] & 7
                    self.index = (code[at] >> 3 & 7) + 8 * (rex >> 1 & 1)
                    at += 1
                    size = 4 if kind == 0 and last == 5 else size
                elif kind == 0 and last == 5:
                    size = 4
                self.base = last + 8 * (rex & 1) if (kind, last) != (0, 5) else None
            self.shift = int.from_bytes(code[at : at + size], "little", signed=True)
            at += size
            if not self.second and self.op in (0xF6, 0xF7) and first < 2:
                byte, word = self.op == 0xF6, self.op == 0xF7
        else:
            self.last = (self.op & 7) + 8 * (rex & 1)
        size = byte + (wide if word else 0)
        if word and not self.second and 0xB8 <= self.op <= 0xBF and rex & 8:
            size = 8
        if word and (self.second or self.op in (0xE8, 0xE9)):
            size = 4
        self.place = at
        self.number = int.from_bytes(code[at : at + size], "little", signed=True)
        self.end = at + size
        if self.end > len(code):
            raise LookupError
        self.named, self.third = named, third

    def moves(self):
        """What the stack pointer goes down by: 0 where it stays or goes up, None where it cannot be told."""
        if self.third:
            return 0
        if self.second:
            return None if self.op in TO_FIRST_2 and self.named and self.first == RSP else 0
        if not self.named:
            if 0x50 <= self.op <= 0x57 or self.op in (0x68, 0x6A):
                return 8
            # a pop into it, an exchange with it, a number into it; `leave`
            return None if (self.op in spread("58-5f 90-97 b8-bf") and self.last == RSP) or self.op == 0xC9 else 0
        if self.op == 0xFF and self.group == 6:
            return 8
        if self.op == 0x8D and self.first == RSP:
            return max(0, -self.shift) if self.base == RSP and self.index in (None, RSP) else None
        if self.op in (0x81, 0x83) and self.last == RSP:
            if self.group == 7:
                return 0
            return {0: max(0, -self.number), 5: max(0, self.number)}.get(self.group)
        if self.op in (0xFF, 0xF7) and self.group in (2, 4):
            return 0
        if (self.op in TO_LAST and self.last == RSP) or (self.op in TO_FIRST and self.first == RSP):
            return None
        return 0

    def under(self):
        """How far under the stack pointer it reaches."""
        return max(0, -self.shift) if self.base == RSP and not (self.op == 0x8D and not self.second) else 0


def steps(function):
    """The function's instructions, from the first byte to the last."""
    at = 0
    while at < len(function.code):
        try:
            step = Step(function.code, at)
        except (LookupError, IndexError):
            refuse(f"{function.name}: no instruction known at byte {at}: {function.code[at : at + 12].hex(' ')}")
        yield step
        at = step.end


def frame(function):
    """The bytes that one call takes, its return address included: an upper bound, since every push is counted."""
    taken = under = 0
    for step in steps(function):
        down = step.moves()
        if down is None:
            refuse(f"{function.name}: moves the stack pointer by what cannot be told: {function.code[step.at : step.end].hex(' ')}")
        taken += down
        under = max(under, step.under())
    return ADDRESS + taken + under


def callees(function):
    """The functions that it calls, or jumps to, and whether it calls itself."""
    found, itself = set(), False
    for step in steps(function):
        call = not step.second and step.op == 0xE8
        jump = step.op in WORD_2 if step.second else step.op in spread("70-7f e9 eb")
        if not step.second and step.op == 0xFF and step.group in (2, 3):
            refuse(f"{function.name}: calls through a pointer")
        if not step.second and step.op == 0xFF and step.group in (4, 5):
            # a jump by a table, which has to lead back here
            if not function.tables or set(function.tables) != {function.name}:
                refuse(f"{function.name}: jumps through a pointer")
        if not (call or jump):
            continue
        name, far = function.fills.get(step.place, (function.name, step.end + step.number))
        if name is None or (name == function.name and not 0 <= far < len(function.code)):
            refuse(f"{function.name}: leads to no function, from byte {step.at}")
        if name != function.name:
            found.add(name)
        elif call:
            itself = True
    return found, itself
