"""Object files (ELF, as compilers write them on Linux): what is in them, and whether two are alike under a renaming."""

import struct

ALLOCATED = 2
SYMBOLS, RELOCATIONS, NO_BITS = 2, (4, 9), 8


class NotRead(Exception):
    """The file is no object that is read here."""


class Object:
    """`sections` has name, kind, flags, size and bytes of each section that takes memory, `symbols` the name and the values of each
    symbol, `relocations` for each section the offsets, symbols, kinds and addends."""

    def __init__(self, data):
        if data[:4] != b"\x7fELF" or len(data) < 64:
            raise NotRead("no ELF file")
        self.data, self.wide, self.order = data, data[4] == 2, "<" if data[5] == 1 else ">"
        start, size, count, names = self._header()
        self.headers = [self._section(start + n * size) for n in range(count)]
        self.names = [self._text(self.headers[names], header["name"]) for header in self.headers]
        self.sections = [(self.names[n], header["kind"], header["flags"], header["size"], self._bytes(header))
                         for n, header in enumerate(self.headers) if header["flags"] & ALLOCATED]
        self.symbols = [symbol for header in self.headers if header["kind"] == SYMBOLS for symbol in self._symbols(header)]
        self.relocations = [(self.names[n], one) for n, header in enumerate(self.headers) if header["kind"] in RELOCATIONS
                            for one in self._relocations(header)]

    def _unpack(self, form, at):
        return struct.unpack_from(self.order + form, self.data, at)

    def _header(self):
        if self.wide:
            start, = self._unpack("Q", 40)
            size, count, names = self._unpack("HHH", 58)
        else:
            start, = self._unpack("I", 32)
            size, count, names = self._unpack("HHH", 46)
        if not start:
            raise NotRead("no sections")
        if not count:
            count = self._section(start)["size"]
        if names == 0xffff:
            names = self._section(start)["link"]
        return start, size, count, names

    def _section(self, at):
        fields = "name kind flags address offset size link info align each".split()
        return dict(zip(fields, self._unpack("IIQQQQIIQQ" if self.wide else "IIIIIIIIII", at)))

    def _bytes(self, header):
        return b"" if header["kind"] == NO_BITS else self.data[header["offset"]:header["offset"] + header["size"]]

    def _text(self, header, at):
        start = header["offset"] + at
        return self.data[start:self.data.index(b"\0", start)]

    def _symbols(self, header):
        for at in range(header["offset"], header["offset"] + header["size"], header["each"]):
            if self.wide:
                name, info, other, section, value, size = self._unpack("IBBHQQ", at)
            else:
                name, value, size, info, other, section = self._unpack("IIIBBH", at)
            yield self._text(self.headers[header["link"]], name), info, other, section, value, size

    def _relocations(self, header):
        more = header["kind"] == 4
        form = ("QQ" if self.wide else "II") + (("q" if self.wide else "i") if more else "")
        for at in range(header["offset"], header["offset"] + header["size"], header["each"]):
            yield self._unpack(form, at)


def alike(before, after, pairs):
    """Whether the two texts are the same but for places where the one has the old name of a pair and the other its new one."""
    if len(before) != len(after):
        return False
    at = 0
    while before[at:] != after[at:]:
        at = next(n for n in range(at, len(before)) if before[n] != after[n])
        # The difference may begin behind the names' first characters, where these are the same; the longest name that fits is taken.
        ends = [n + len(old) for old, new in pairs for n in range(max(0, at - len(old) + 1), at + 1)
                if before[n:n + len(old)] == old and after[n:n + len(new)] == new]
        if not ends:
            return False
        at = max(ends)
    return True


def difference(before, after, pairs):
    """What differs first between two objects, under the renamings of `pairs`, each of two names that are equally long; None where
    nothing does."""
    if [section[:4] for section in before.sections] != [section[:4] for section in after.sections]:
        return "the sections differ"
    for one, other in zip(before.sections, after.sections):
        if not alike(one[4], other[4], pairs):
            return f"section {one[0].decode()} differs"
    if before.relocations != after.relocations:
        return "the relocations differ"
    if len(before.symbols) != len(after.symbols):
        return "the number of symbols differs"
    for one, other in zip(before.symbols, after.symbols):
        if one[1:] != other[1:] or not alike(one[0], other[0], pairs):
            return f"symbol {one[0].decode(errors='replace')} is {other[0].decode(errors='replace')}"
    return None


def outer_names(read):
    """The names of an object that the linker sees: those defined, and those that are wanted."""
    defined = {symbol[0] for symbol in read.symbols if symbol[1] >> 4 and symbol[3]}
    wanted = {symbol[0] for symbol in read.symbols if symbol[1] >> 4 and not symbol[3]}
    return defined, wanted
