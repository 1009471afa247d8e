"""Makes of a WebAssembly module with a memory of 64 bits one with a memory of 32, which every browser takes.

Functions keep their types: an address stays an i64 up to where it is used, and is cut to 32 bits there. So no address
may be 2^32 or more. The memory never has more than 65,536 pages, so a good program has none. Tables become tables of
32 bits in the same way. An access whose offset alone is 2^32 or more traps, as it would with 64 bits. What is met and
not known here is an AssertionError."""

I32, I64, F32, F64 = 0x7F, 0x7E, 0x7D, 0x7C
WRAP, EXTEND, TRAP = b"\xa7", b"\xad", b"\x00"
# what each instruction that stores takes from the stack
STORED = {0x36: I32, 0x37: I64, 0x38: F32, 0x39: F64, 0x3A: I32, 0x3B: I32, 0x3C: I64, 0x3D: I64, 0x3E: I64}


class Bytes:
    """Bytes that are read one after another."""

    def __init__(self, data, at=0):
        self.data, self.at = data, at

    def byte(self):
        self.at += 1
        return self.data[self.at - 1]

    def number(self):
        """Returns an unsigned number in LEB128."""
        result = shift = 0
        while True:
            byte = self.byte()
            result |= (byte & 127) << shift
            shift += 7
            if byte < 128:
                return result

    def skip(self):
        """Passes a number, signed or not."""
        while self.byte() >= 128:
            pass

    def take(self, count):
        self.at += count
        return self.data[self.at - count : self.at]


def leb(number):
    """Returns a number as unsigned LEB128."""
    out = bytearray()
    while number > 127:
        out.append(number & 127 | 128)
        number >>= 7
    return bytes(out + bytes([number]))


def signed(number):
    """Returns a number from 0 on as a signed constant."""
    out = bytearray()
    while number > 63:
        out.append(number & 127 | 128)
        number >>= 7
    return bytes(out + bytes([number]))


def limits(read):
    """Returns limits without the flag of 64 bits."""
    flags = read.byte()
    assert flags in (4, 5), f"limits {flags}"
    least = read.number()
    most = [min(read.number(), 65536)] if flags & 1 else []
    return bytes([len(most)]) + leb(least) + b"".join(map(leb, most))


def offset(read):
    """Returns an offset that is a constant of 64 bits as one of 32."""
    assert read.byte() == 0x42, "an offset that is no i64.const"
    number = read.number()
    assert read.byte() == 0x0B and number < 2**31, "an offset that isn't small"
    return b"\x41" + signed(number) + b"\x0b"


def segments(body, is_code):
    """Returns the section of elements, or that of data."""
    read = Bytes(body)
    count, out = read.number(), bytearray()
    out += leb(count)
    for _ in range(count):
        kind = read.number()
        assert kind == 0, f"a segment of kind {kind}"
        out += b"\0" + offset(read)
        many = read.number()
        start = read.at
        if is_code:
            for _ in range(many):
                read.skip()
        else:
            read.take(many)
        out += leb(many) + body[start : read.at]
    assert read.at == len(body)
    return bytes(out)


def memory_kept(read):
    """Returns the alignment and the offset of an access, or None if the offset alone is beyond a memory of 32 bits."""
    align, beyond = read.number(), read.number()
    assert align < 64, "another memory"
    return leb(align) + leb(beyond) if beyond < 2**32 else None


class Function:
    """The code of a function. Locals that are added hold what lies above an address, while that is cut."""

    def __init__(self, body, parameters):
        self.read, self.more, self.out = Bytes(body), {}, bytearray()
        groups, self.count = self.read.number(), parameters
        start = self.read.at
        for _ in range(groups):
            self.count += self.read.number()
            self.read.byte()
        self.groups, self.kept = groups, body[start : self.read.at]

    def held(self, kind, place=0):
        """Returns the number of an added local of a type."""
        return leb(self.more.setdefault((kind, place), self.count + len(self.more)))

    def lowered(self):
        """Returns the code, with its length before it."""
        read, out, size = self.read, self.out, len(self.read.data)
        while read.at < size:
            start, code = read.at, read.byte()
            if 0x28 <= code <= 0x35:
                kept = memory_kept(read)
                out += WRAP + bytes([code]) + kept if kept else TRAP
            elif code in STORED:
                held, kept = self.held(STORED[code]), memory_kept(read)
                out += b"\x21" + held + WRAP + b"\x20" + held + bytes([code]) + kept if kept else TRAP
            elif code == 0x3F:
                out += bytes([code, read.byte()]) + EXTEND
            elif code == 0x40:  # -1 where it is refused
                out += WRAP + bytes([code, read.byte()]) + b"\xac"
            elif code == 0x11:
                kind = read.at
                read.skip()
                read.skip()
                out += WRAP + b"\x11" + read.data[kind : read.at]
            elif code == 0xFC:
                out += self.prefixed(start)
            else:
                self.plain(code)
                out += read.data[start : read.at]
        locals_ = leb(self.groups + len(self.more)) + self.kept
        locals_ += b"".join(b"\x01" + bytes([kind]) for kind, _ in self.more)
        whole = locals_ + bytes(out)
        return leb(len(whole)) + whole

    def prefixed(self, start):
        """Returns an instruction of two bytes: a copy, a filling, or a cast of a float."""
        read = self.read
        which = read.number()
        if which in (10, 11):  # copy, fill
            many = (I64, 1), (I64, 0) if which == 10 else (I32, 0)
            length, middle = self.held(*many[0]), self.held(*many[1])
            read.take(2 if which == 10 else 1)
            cut = WRAP if which == 10 else b""
            return (b"\x21" + length + b"\x21" + middle + WRAP + b"\x20" + middle + cut + b"\x20" + length + WRAP
                + read.data[start : read.at])
        assert which < 8, f"fc {which}"
        return read.data[start : read.at]

    def plain(self, code):
        """Passes what follows an instruction that has no address."""
        read = self.read
        if code in (2, 3, 4, 0x0C, 0x0D, 0x10, 0x20, 0x21, 0x22, 0x23, 0x24, 0x41, 0x42):
            read.skip()
        elif code == 0x0E:
            for _ in range(read.number() + 1):
                read.skip()
        elif code == 0x43:
            read.take(4)
        elif code == 0x44:
            read.take(8)
        elif code == 0x1C:
            read.take(read.number())
        else:
            assert code in (0, 1, 5, 0x0B, 0x0F, 0x1A, 0x1B) or 0x45 <= code <= 0xC4, f"instruction {code:#x}"


def parameters_of(body):
    """Returns how many parameters each type has."""
    read, found = Bytes(body), []
    for _ in range(read.number()):
        assert read.byte() == 0x60
        count = read.number()
        found.append(count)
        read.take(count)
        read.take(read.number())
    return found


def lowered(data):
    """Returns a module with a memory of 32 bits. Its names are left out."""
    read, out = Bytes(data, 8), bytearray(data[:8])
    counts = kinds = None
    while read.at < len(data):
        name = read.byte()
        body = read.take(read.number())
        if name == 0:
            continue  # names, and what made it
        if name == 1:
            counts = parameters_of(body)
        elif name == 3:
            inner = Bytes(body)
            kinds = [inner.number() for _ in range(inner.number())]
        elif name == 4:
            inner = Bytes(body)
            assert inner.number() == 1
            body = b"\x01" + bytes([inner.byte()]) + limits(inner)
        elif name == 5:
            inner = Bytes(body)
            assert inner.number() == 1
            body = b"\x01" + limits(inner)
        elif name in (9, 11):
            body = segments(body, name == 9)
        elif name == 10:
            inner = Bytes(body)
            made = bytearray(leb(inner.number()))
            for kind in kinds:
                made += Function(inner.take(inner.number()), counts[kind]).lowered()
            body = bytes(made)
        out += bytes([name]) + leb(len(body)) + body
    return bytes(out)
