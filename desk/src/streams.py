#!/usr/bin/python3
"""streams.py [--] FILE: the streams in the root of a compound file, for programs, by Debian's python3-olefile.

A line for each stream: NAME SIZE BYTES. NAME is the stored name as it stands in the directory, four hexadecimal digits a UTF-16
unit, high byte first, '-' for none; SIZE is in bytes; BYTES are two hexadecimal digits each, '-' for none, of the streams whose
name begins with 4840 (tables), and '.' for all others. Nothing is written where anything is wrong: the reason is then one line on
standard error, and the exit code says which kind it is.

  0  every stream is whole
  2  wrong usage
  3  the file is missing, or cannot be read
  4  a directory, or nothing that has a size
  5  an empty file
  6  no compound file
  7  a compound file that is cut short or damaged
"""
import errno
import os
import stat
import sys

import olefile

TABLE = b"\x40\x48"
LETTERS = "0123456789ABCDEFGHIJKLMNOPQRSTUVWXYZabcdefghijklmnopqrstuvwxyz._"
# What olefile notes of a container and reads all the same, losing nothing: header fields that do not matter, names that are equal
# but for their case (they are told apart by their units here).
HARMLESS = ("in OLE header", "incorrect OLE header (", "Duplicate filename", "OLE storage with size>0")


class Wrong(Exception):
    """A file that is not read: an exit code and why."""

    def __init__(self, code, why):
        super().__init__(why)
        self.code = code


def spoken(units):
    """The name that a stored name stands for, for a person; ill-formed units as they are."""
    name = ""
    for unit in units:
        if 0x3800 <= unit < 0x4800:
            name += LETTERS[unit & 63] + LETTERS[(unit - 0x3800) >> 6]
        elif unit != 0x4840:
            name += LETTERS[unit & 63] if 0x4800 <= unit < 0x4840 else "%c" % unit
    return ascii(name)[1:-1]


def opened(path):
    try:
        mode = os.stat(path).st_mode
        if stat.S_ISDIR(mode):
            raise Wrong(4, "it is a directory, not a file")
        if not stat.S_ISREG(mode):
            raise Wrong(4, "it is a device or a pipe, not a file")
        file = open(path, "rb")
    except OSError as error:
        why = "there is no such file" if error.errno == errno.ENOENT else os.strerror(error.errno or 0).lower()
        raise Wrong(3, "it cannot be read: " + why) from error
    head = file.read(512)
    if not head:
        raise Wrong(5, "the file is empty")
    if not head.startswith(olefile.MAGIC[: len(head)]):
        raise Wrong(6, "it is no compound file, and so no package")
    if len(head) < 512:
        raise Wrong(7, "it is cut short: a compound file has at least 512 bytes, and this one %d" % len(head))
    file.seek(0)
    return file


def container(file):
    try:
        ole = olefile.OleFileIO(file)
        if ole.root.size:
            ole.loadminifat()
    except Exception as error:  # olefile raises whatever its arithmetic on damaged numbers comes to
        raise Wrong(7, "it is cut short or damaged: %s" % error) from error
    for _, message in ole.parsing_issues:
        if not any(words in message for words in HARMLESS):
            raise Wrong(7, "it is cut short or damaged: %s" % message)
    return ole


def chain(fat, first, size, unit, end, what):
    """The sectors of a stream, each once, inside the file."""
    sectors = []
    seen = set()
    sector = first
    for left in range(size, 0, -unit):
        if sector >= len(fat) or sector in seen:
            raise Wrong(7, "it is damaged: %s has %d bytes, and its sectors end after %d" % (what, size, size - left))
        if sector * unit + min(unit, left) > end:
            raise Wrong(7, "it is cut short: %s goes on past the end of the file" % what)
        sectors.append(sector)
        seen.add(sector)
        sector = fat[sector]
    return sectors


class Streams:
    def __init__(self, file):
        self.file = file
        self.ole = container(file)
        self.small = b""
        root = self.ole.root
        if root.size:
            self.small = self.large(root.isectStart, root.size, "the stream of small streams")

    def end(self):
        self.file.seek(0, os.SEEK_END)
        return self.file.tell() - self.ole.sectorsize

    def large(self, first, size, what, wanted=True):
        unit = self.ole.sectorsize
        parts = []
        for sector in chain(self.ole.fat, first, size, unit, self.end(), what):
            if wanted:
                self.file.seek((sector + 1) * unit)
                parts.append(self.file.read(unit))
        return b"".join(parts)[:size]

    def bytes(self, entry, what, wanted):
        if entry.size >= self.ole.minisectorcutoff:
            return self.large(entry.isectStart, entry.size, what, wanted)
        unit = self.ole.minisectorsize
        if entry.size == 0:
            return b""
        sectors = chain(self.ole.minifat, entry.isectStart, entry.size, unit, len(self.small), what)
        return b"".join(self.small[sector * unit : (sector + 1) * unit] for sector in sectors)[: entry.size]

    def line(self, entry):
        name = entry.name_raw[: max(entry.namelength - 2, 0)]
        units = [name[at] | name[at + 1] << 8 for at in range(0, len(name) - 1, 2)]
        what = "stream " + spoken(units)
        wanted = name.startswith(TABLE)
        content = self.bytes(entry, what, wanted)
        if wanted and len(content) != entry.size:
            raise Wrong(7, "it is damaged: %s has %d bytes, and %d are there" % (what, entry.size, len(content)))
        word = "".join("%04x" % unit for unit in units) or "-"
        return "%s %d %s" % (word, entry.size, (content.hex() or "-") if wanted else ".")

    def lines(self):
        return [self.line(entry) for entry in self.ole.root.kids if entry.entry_type == olefile.STGTY_STREAM]


def main(words):
    if any(word in ("-h", "--help") for word in words[: words.index("--") if "--" in words else None]):
        print(__doc__.strip())
        return 0
    if words[:1] == ["--"]:
        words = words[1:]
    elif words and words[0].startswith("-"):
        words = []
    if len(words) != 1:
        print("usage: streams.py [--] FILE (--help says more)", file=sys.stderr)
        return 2
    try:
        lines = Streams(opened(words[0])).lines()
    except Wrong as wrong:
        print(wrong, file=sys.stderr)
        return wrong.code
    sys.stdout.write("".join(line + "\n" for line in lines))
    return 0


if __name__ == "__main__":
    sys.exit(main(sys.argv[1:]))
