"""Writes a WebAssembly module with 64-bit memory as one with 32-bit memory, for engines that have no 64-bit memory.

Addresses stay 64-bit integers in the module's functions and in their arguments. Each access cuts its address to 32 bits, and the size
of the memory is extended to 64 bits. Nothing else changes. The tool takes the instructions that the kit's compiler puts out, and
refuses others; the engine checks the types of what it has written.
"""

import argparse
import sys

import argument_types

TYPES, IMPORTS, FUNCTIONS, MEMORIES, CODE, DATA = 1, 2, 3, 5, 10, 11
I32, I64, F32, F64 = 0x7F, 0x7E, 0x7D, 0x7C
HEAD = b"\0asm\1\0\0\0"

BLOCKS = {0x02, 0x03, 0x04}
INDEXED = {0x0C, 0x0D, 0x10, *range(0x20, 0x25)}
BARE = {0x00, 0x01, 0x05, 0x0B, 0x0F, 0x1A, 0x1B, *range(0x45, 0xC5)}
BR_TABLE, CALL_INDIRECT, SIZE, GROW, I32_CONST, I64_CONST, F32_CONST, F64_CONST, MORE = 0x0E, 0x11, 0x3F, 0x40, 0x41, 0x42, 0x43, 0x44, 0xFC
LOADS = range(0x28, 0x36)
# The type of the value that each kind of store takes.
STORES = dict(zip(range(0x36, 0x3F), [I32, I64, F32, F64, I32, I32, I64, I64, I64]))
TRUNCATIONS, COPY, FILL = range(8), 10, 11
WRAP, EXTEND_SIGNED = b"\xa7", b"\xac"
LOCAL_GET, LOCAL_SET = b"\x20", b"\x21"
END = 0x0B


def leb(number):
    """Returns an unsigned number in the form LEB128. The compiler writes longer forms, which 32-bit memory does not take."""
    made = bytearray()
    while number > 0x7F:
        made.append(number & 0x7F | 0x80)
        number >>= 7
    return bytes([*made, number])


def signed_leb(number):
    """Returns a number that is not negative in the signed form, whose last byte has a sign bit."""
    made = leb(number)
    return made if made[-1] < 0x40 else made[:-1] + bytes([made[-1] | 0x80, 0])


class Reader:
    """Bytes of the module, from a place on."""

    def __init__(self, data, at=0):
        self.data, self.at = data, at

    def byte(self):
        self.at += 1
        return self.data[self.at - 1]

    def take(self, length):
        self.at += length
        return self.data[self.at - length : self.at]

    def number(self):
        """Reads a number in the form LEB128. The value of a signed one is not needed anywhere."""
        value = shift = 0
        while True:
            byte = self.byte()
            value |= (byte & 0x7F) << shift
            shift += 7
            if byte < 0x80:
                return value

    def section(self):
        kind = self.byte()
        return kind, self.take(self.number())


class Function:
    """Body of a function, which is written again. Values that stand above an address on the stack go through locals."""

    def __init__(self, body, parameters):
        self.body, self.made = Reader(body), bytearray()
        self.groups, count = [], parameters
        for _ in range(self.body.number()):
            length, kind = self.body.number(), self.body.byte()
            self.groups.append((length, kind))
            count += length
        self.next, self.own = count, {}

    def local(self, kind, which=0):
        """Returns the number of a local of the function's own, as an immediate."""
        if (kind, which) not in self.own:
            self.own[kind, which] = self.next
            self.groups.append((1, kind))
            self.next += 1
        return leb(self.own[kind, which])

    def under(self, *kinds):
        """Writes code that cuts the address below the values of these kinds."""
        places = [self.local(kind, which) for which, kind in enumerate(kinds)]
        code = b"".join(LOCAL_SET + place for place in reversed(places)) + WRAP
        return code + b"".join(LOCAL_GET + place for place in places)

    def lowered(self):
        body = self.body
        while body.at < len(body.data):
            begin, code = body.at, body.byte()
            before, own, after = b"", None, b""
            if code in BLOCKS or code in INDEXED or code in (I32_CONST, I64_CONST):
                body.number()
            elif code in LOADS or code in STORES:
                alignment, offset = body.number(), body.number()
                if alignment > 4 or offset >= 1 << 32:
                    refuse("an access of another form")
                before, own = WRAP if code in LOADS else self.under(STORES[code]), bytes([code, alignment]) + leb(offset)
            elif code == BR_TABLE:
                for _ in range(body.number() + 1):
                    body.number()
            elif code == CALL_INDIRECT:
                body.number(), body.number()
            elif code in (F32_CONST, F64_CONST):
                body.take(4 if code == F32_CONST else 8)
            elif code in (SIZE, GROW):
                body.byte()
                before, after = WRAP if code == GROW else b"", EXTEND_SIGNED
            elif code == MORE:
                before = self.bulk(body.number())
            elif code not in BARE:
                refuse(f"the instruction {code:#x}")
            self.made += before + (own or body.data[begin : body.at]) + after
        locals_ = leb(len(self.groups)) + b"".join(leb(length) + bytes([kind]) for length, kind in self.groups)
        whole = locals_ + bytes(self.made)
        return leb(len(whole)) + whole

    def bulk(self, code):
        """Returns the code before an instruction on many bytes: a target, a source or a value, and a length."""
        if code in TRUNCATIONS:
            return b""
        if code not in (COPY, FILL):
            refuse(f"the instruction 0xfc {code}")
        self.body.take(2 if code == COPY else 1)
        second = I64 if code == COPY else I32
        length, other = self.local(I64, 1), self.local(second, 0)
        code = LOCAL_SET + length + LOCAL_SET + other + WRAP + LOCAL_GET + other
        return code + (WRAP if second == I64 else b"") + LOCAL_GET + length + WRAP


def refuse(what):
    sys.exit(f"lower: the module has {what}, which this tool does not take")


def parameters_of(types):
    """Returns the count of parameters of each type of a function."""
    reader, counts = Reader(types), []
    for _ in range(reader.number()):
        if reader.byte() != 0x60:
            refuse("a type that is not of a function")
        counts.append(reader.number())
        reader.take(counts[-1])
        reader.take(reader.number())
    return counts


def lowered_memory(content):
    """The lowest bit of the flags says whether there is a limit, and the third one that the memory is of 64 bits."""
    reader = Reader(content)
    if reader.number() != 1 or (flags := reader.byte()) not in (4, 5):
        refuse("no memory of 64 bits, or several memories")
    return b"\1" + bytes([flags - 4]) + content[reader.at :]


def lowered_data(content):
    """Each segment has the place of its bytes as a constant."""
    reader = Reader(content)
    made = bytearray(leb(reader.number()))
    while reader.at < len(content):
        head, place, end = reader.take(2), reader.number(), reader.byte()
        if head != bytes([0, I64_CONST]) or end != END or place >= 1 << 31:
            refuse("a data segment of another form")
        made += bytes([0, I32_CONST]) + signed_leb(place) + bytes([END])
        length = reader.number()
        made += leb(length) + reader.take(length)
    return bytes(made)


def lowered_code(content, parameters):
    reader = Reader(content)
    count = reader.number()
    bodies = [Function(reader.take(reader.number()), parameters[index]).lowered() for index in range(count)]
    return leb(count) + b"".join(bodies)


def lower(module):
    """Returns the module with 32-bit memory."""
    reader, made, parameters, functions = Reader(module, len(HEAD)), bytearray(HEAD), [], []
    if module[: len(HEAD)] != HEAD:
        refuse("another head")
    while reader.at < len(module):
        kind, content = reader.section()
        if kind == IMPORTS:
            refuse("imports")
        if kind == TYPES:
            parameters = parameters_of(content)
        if kind == FUNCTIONS:
            numbers = Reader(content)
            functions = [parameters[numbers.number()] for _ in range(numbers.number())]
        if kind == MEMORIES:
            content = lowered_memory(content)
        if kind == CODE:
            content = lowered_code(content, functions)
        if kind == DATA:
            content = lowered_data(content)
        made += bytes([kind]) + leb(len(content)) + content
    return bytes(made)


def main():
    parser = argparse.ArgumentParser(description=__doc__, formatter_class=argparse.RawDescriptionHelpFormatter)
    parser.add_argument("module", metavar="MODULE", type=argument_types.file, help="a module with 64-bit memory")
    parser.add_argument("lowered", metavar="LOWERED", type=argument_types.new_file, help="the module that is written")
    given = parser.parse_args()
    given.lowered.write_bytes(lower(given.module.read_bytes()))


if __name__ == "__main__":
    main()
