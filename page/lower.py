#!/usr/bin/env python3
"""lower.py IN.wasm OUT.wasm: makes of a module with a 64-bit memory and table one with a 32-bit memory and table, which
every browser since 2020 and Node 18 take. Values stay as they are (a pointer is an i64); each address is wrapped to 32
bits where it is used. An address past 4 GiB, at which the module would trap, wraps instead: only a stack that runs over
could reach one, and it lands past the memory's end and traps there. An instruction that is not known here is refused,
and so is a module that imports anything but the page's five functions."""
import sys

WRAP, EXTEND_U, EXTEND_S = b'\xa7', b'\xad', b'\xac'
I32, I64, F32, F64 = 0x7f, 0x7e, 0x7d, 0x7c
STORES = {0x36: I32, 0x37: I64, 0x38: F32, 0x39: F64, 0x3a: I32, 0x3b: I32, 0x3c: I64, 0x3d: I64, 0x3e: I64}
BLOCKS = (0x02, 0x03, 0x04)
# Instructions with one number after them: branches, calls, locals, globals, constants.
ONE_NUMBER = (0x0c, 0x0d, 0x10, 0x20, 0x21, 0x22, 0x23, 0x24, 0x41, 0x42)
# The functions of the page, the only ones that the module may import.
PAGE = ('page.word', 'page.open', 'page.read', 'page.write', 'page.close')
BARE = {0x00, 0x01, 0x05, 0x0b, 0x0f, 0x1a, 0x1b, *range(0x45, 0xc5)}


class Refused(Exception):
    """What this program does not lower."""


def want(holds, what):
    if not holds:
        raise Refused(what)


def unsigned(code, at):
    """The number at a place, and the place after it."""
    number = shift = 0
    while True:
        byte = code[at]
        at += 1
        number |= (byte & 127) << shift
        shift += 7
        if byte < 128:
            return number, at


def signed(code, at):
    start = at
    number, at = unsigned(code, at)
    bits = 7 * (at - start)
    return (number - (1 << bits) if code[at - 1] & 64 else number), at


def put(number):
    out = bytearray()
    while number > 127:
        out.append(number & 127 | 128)
        number >>= 7
    out.append(number)
    return bytes(out)


def put_signed(number):
    out = bytearray()
    while not -64 <= number < 64:
        out.append(number & 127 | 128)
        number >>= 7
    out.append(number & 127)
    return bytes(out)


def after(code, at):
    """The place after a number."""
    while code[at] > 127:
        at += 1
    return at + 1


def limits(code, at):
    """The limits of a memory or table, without the word that they are of 64 bits."""
    flags, at = unsigned(code, at)
    low, at = unsigned(code, at)
    out = put(flags & ~4) + put(low)
    if flags & 1:
        high, at = unsigned(code, at)
        out += put(high)
    return out, at


def offset(code, at):
    """An offset's expression, `i64.const N end`, as `i32.const N end`."""
    want(code[at] == 0x42, f'an offset that begins with {code[at]:#x}')
    number, at = signed(code, at + 1)
    want(code[at] == 0x0b, 'an offset of more than one instruction')
    return b'\x41' + put_signed(number if number < 1 << 31 else number - (1 << 32)) + b'\x0b', at + 1


class Body:
    """A function's body while it is lowered: `done` is what is written, `kept` the place up to which it was copied."""

    def __init__(self, code, parameters):
        self.code, self.done, self.temporaries = code, bytearray(), {}
        groups, at = unsigned(code, 0)
        self.locals, count = [], 0
        for _ in range(groups):
            number, at = unsigned(code, at)
            self.locals.append((number, code[at]))
            count += number
            at += 1
        self.first, self.kept = parameters + count, at

    def copy(self, upto):
        self.done += self.code[self.kept:upto]
        self.kept = upto

    def add(self, *parts):
        self.done += b''.join(parts)

    def temporary(self, kind, which=0):
        """A local of our own, by its type and number."""
        return put(self.temporaries.setdefault((kind, which), self.first + len(self.temporaries)))

    def access(self, at, place):
        """An access with its alignment and offset; the linker pads the offset to ten bytes, so it is written anew."""
        start, place = place, after(self.code, place)
        number, end = unsigned(self.code, place)
        want(number < 1 << 31, f'an offset of {number}')
        self.add(self.code[at:place], put(number))
        self.kept = end
        return end

    def store(self, at, place):
        value = self.temporary(STORES[self.code[at]])
        self.add(b'\x21', value, WRAP, b'\x20', value)
        return self.access(at, place)

    def bulk(self, at, place):
        """memory.copy and memory.fill: both addresses and the length, or the address and the length, are wrapped."""
        which, place = unsigned(self.code, place)
        if which <= 7:
            return place
        want(which in (10, 11), f'instruction 0xfc {which}')
        self.copy(at)
        length, second = self.temporary(I64), self.temporary(I64 if which == 10 else I32, 1)
        self.add(b'\x21', length, b'\x21', second, WRAP, b'\x20', second)
        self.add(WRAP if which == 10 else b'', b'\x20', length, WRAP)
        return place + (2 if which == 10 else 1)

    def of_memory(self, op, at, place):
        """An instruction that has to do with an address, or None."""
        if op == 0x3f:
            self.copy(place + 1)
            self.add(EXTEND_U)
            return place + 1
        if op == 0xfc:
            return self.bulk(at, place)
        if not (0x28 <= op <= 0x3e or op in (0x40, 0x11)):
            return None
        self.copy(at)
        if op in STORES:
            return self.store(at, place)
        self.add(WRAP)
        if op == 0x40:
            self.copy(place + 1)
            self.add(EXTEND_S)
            return place + 1
        if op == 0x11:
            return after(self.code, after(self.code, place))
        return self.access(at, place)

    def plain(self, op, place):
        """The place after an instruction that has to do with no address."""
        if op in BARE:
            return place
        if op in BLOCKS or op in ONE_NUMBER:
            return after(self.code, place)
        if op in (0x0e, 0x1c):
            count, place = unsigned(self.code, place)
            for _ in range(count + (op == 0x0e)):
                place = after(self.code, place)
            return place
        want(op in (0x43, 0x44), f'instruction {op:#x}')
        return place + (4 if op == 0x43 else 8)

    def lowered(self):
        at = self.kept
        while at < len(self.code):
            op = self.code[at]
            then = self.of_memory(op, at, at + 1)
            at = self.plain(op, at + 1) if then is None else then
        self.copy(at)
        own = [(1, kind) for kind, _ in self.temporaries]
        head = put(len(self.locals) + len(own))
        return head + b''.join(put(number) + bytes([kind]) for number, kind in self.locals + own) + bytes(self.done)


class Module:
    """A module while it is lowered, section by section."""

    def __init__(self, code):
        want(code[:8] == b'\0asm\x01\0\0\0', 'not a module')
        self.code, self.parameters, self.functions = code, [], []

    def types(self, part):
        count, at = unsigned(part, 0)
        for _ in range(count):
            want(part[at] == 0x60, 'a type that is no function')
            number, at = unsigned(part, at + 1)
            self.parameters.append(number)
            number, at = unsigned(part, at + number)
            at += number
        return part

    def imports(self, part):
        count, at = unsigned(part, 0)
        for _ in range(count):
            names = []
            for _ in range(2):
                number, at = unsigned(part, at)
                names.append(part[at:at + number].decode())
                at += number
            want(part[at] == 0 and '.'.join(names) in PAGE, f'the import {".".join(names)}')
            at = after(part, at + 1)
        return part

    def declared(self, part):
        count, at = unsigned(part, 0)
        for _ in range(count):
            number, at = unsigned(part, at)
            self.functions.append(number)
        return part

    def tables(self, part, head=1):
        """A section of tables; with no head, of memories."""
        count, at = unsigned(part, 0)
        out = put(count)
        for _ in range(count):
            made, end = limits(part, at + head)
            out += part[at:at + head] + made
            at = end
        return out

    def elements(self, part):
        count, at = unsigned(part, 0)
        out = put(count)
        for _ in range(count):
            want(part[at] == 0, f'an element segment of form {part[at]}')
            made, at = offset(part, at + 1)
            number, end = unsigned(part, at)
            for _ in range(number):
                end = after(part, end)
            out += b'\0' + made + part[at:end]
            at = end
        return out

    def bodies(self, part):
        count, at = unsigned(part, 0)
        out = bytearray(put(count))
        for which in range(count):
            size, at = unsigned(part, at)
            made = Body(part[at:at + size], self.parameters[self.functions[which]]).lowered()
            out += put(len(made)) + made
            at += size
        return bytes(out)

    def data(self, part):
        count, at = unsigned(part, 0)
        out = bytearray(put(count))
        for _ in range(count):
            form, at = part[at], at + 1
            want(form in (0, 1), f'a data segment of form {form}')
            made = b''
            if form == 0:
                made, at = offset(part, at)
            size, end = unsigned(part, at)
            out += put(form) + made + part[at:end + size]
            at = end + size
        return bytes(out)

    def lowered(self):
        how = {1: self.types, 2: self.imports, 3: self.declared, 4: self.tables, 9: self.elements, 10: self.bodies,
               5: lambda part: self.tables(part, 0), 11: self.data}
        out, at = bytearray(self.code[:8]), 8
        while at < len(self.code):
            kind = self.code[at]
            size, at = unsigned(self.code, at + 1)
            part = self.code[at:at + size]
            at += size
            if kind == 0:
                continue
            part = how.get(kind, bytes)(part)
            out += bytes([kind]) + put(len(part)) + part
        return bytes(out)


def main():
    if len(sys.argv) != 3:
        sys.exit(__doc__)
    with open(sys.argv[1], 'rb') as file:
        code = file.read()
    try:
        out = Module(code).lowered()
    except (Refused, IndexError) as error:
        sys.exit(f'lower: {sys.argv[1]}: {error} is not known here')
    with open(sys.argv[2], 'wb') as file:
        file.write(out)


if __name__ == '__main__':
    main()
