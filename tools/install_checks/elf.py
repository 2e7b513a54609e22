"""What an ELF file for x86-64 says of itself: the names that it has and needs, its libraries, versions and loader; and
the names that an archive of objects has. The kit has no program that prints them, and a system need not have one."""
import re
import struct

SYMTAB, DYNAMIC, DYNSYM, VERNEED = 2, 6, 11, 0x6FFFFFFE
NEEDED, SONAME = 1, 14


class Elf:
    def __init__(self, data):
        if data[:6] != b"\x7fELF\x02\x01" or struct.unpack_from("<H", data, 18)[0] != 62:
            raise ValueError("this is no ELF file for x86-64")
        self.data = data
        start, = struct.unpack_from("<Q", data, 40)
        size, count = struct.unpack_from("<HH", data, 58)
        self.sections = [struct.unpack_from("<IIQQQQIIQQ", data, start + i * size) for i in range(count)]
        start, = struct.unpack_from("<Q", data, 32)
        size, count = struct.unpack_from("<HH", data, 54)
        self.segments = [struct.unpack_from("<IIQQQQQQ", data, start + i * size) for i in range(count)]

    def of_type(self, wanted):
        """The sections of a type: each with its bytes, and where the texts that it names begin."""
        for _, kind, _, _, at, size, link, _, _, _ in self.sections:
            if kind == wanted:
                yield self.data[at : at + size], self.sections[link][4]

    def text(self, at):
        return self.data[at : self.data.index(0, at)].decode()

    def symbols(self, table):
        """The names that other files see, which is no local one: those that are here, and those that are needed."""
        here, needed = set(), set()
        for data, texts in self.of_type(table):
            for at in range(24, len(data), 24):
                name, info, other, section = struct.unpack_from("<IBBH", data, at)
                if info >> 4:
                    (here if section and other & 3 == 0 else needed).add(self.text(texts + name))
        return here, needed

    def dynamic(self, tag):
        return [
            self.text(texts + value)
            for data, texts in self.of_type(DYNAMIC)
            for this, value in struct.iter_unpack("<qQ", data)
            if this == tag
        ]

    def versions(self):
        """The versions that are needed of the C library, as pairs of numbers."""
        found = set()
        for data, texts in self.of_type(VERNEED):
            at = 0
            while True:
                _, count, _, first, following = struct.unpack_from("<HHIII", data, at)
                here = at + first
                for _ in range(count):
                    _, _, _, name, step = struct.unpack_from("<IHHII", data, here)
                    found.add(self.text(texts + name))
                    here += step
                if not following:
                    break
                at += following
        return {tuple(map(int, re.findall(r"\d+", name)[:2])) for name in found}

    def loader(self):
        return [self.text(segment[2]) for segment in self.segments if segment[0] == 3]


def names_in_archive(data):
    """The names that the objects of an archive have."""
    if data[:8] != b"!<arch>\n":
        raise ValueError("this is no archive")
    at, names = 8, set()
    while at + 60 <= len(data):
        size = int(data[at + 48 : at + 58])
        member = data[at + 60 : at + 60 + size]
        if member[:4] == b"\x7fELF":
            names |= Elf(member).symbols(SYMTAB)[0]
        at += 60 + size + size % 2
    return names
