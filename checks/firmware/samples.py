#!/usr/bin/env python3
"""Boot entries for the tests of the reader and the menu (UEFI Specification 2.10, sections 3.1.3, 10.2 and 10.3).

usage: samples.py COUNT FILE    writes the named and large entries, and COUNT generated and mutated ones from a fixed seed, each after its
                                length in four bytes

`named` returns those that the menu is tested with, and what it shows for each.
"""
import random
import struct
import sys

END, END_INSTANCE = bytes([0x7F, 0xFF, 4, 0]), bytes([0x7F, 1, 4, 0])
# The disk of the test: the signature in its first sector, and the first sector and the count of its one partition.
SIGNATURE, FIRST_SECTOR, SECTORS = 0x4E415244, 2048, 16384


def text(string):
    return string.encode("utf-16-le", "surrogatepass") + b"\0\0"


def node(kind, subtype, data):
    return struct.pack("<BBH", kind, subtype, 4 + len(data)) + data


def path(string):
    return node(4, 4, text(string))


def hard_drive(signature):
    """A partition of a disk with an MBR (10.3.5.1)."""
    return node(4, 1, struct.pack("<IQQI12xBB", 1, FIRST_SECTOR, SECTORS, signature, 1, 1))


def entry(description, nodes, attributes=1, data=b"", length=None):
    return struct.pack("<IH", attributes, len(nodes) if length is None else length) + text(description) + nodes + data


DISK, OTHER_DISK, ODD = hard_drive(SIGNATURE), hard_drive(SIGNATURE + 1), node(4, 3, bytes(17))


def named():
    """The entries of the menu's test. The firmware starts the first, which gives up, and then the second, the menu."""
    return [
        entry("order", DISK + path("\\EFI\\order.efi") + END),
        entry("menu", DISK + path("\\EFI\\menu.efi") + END),
        entry("dots and options", DISK + path("\\EFI\\.\\x\\..\\tools\\hello.efi") + END, data=b"fast"),
        entry("no disk named", path("\\efi\\TOOLS\\Hello.efi") + END),
        entry("another disk", OTHER_DISK + path("\\EFI\\menu.efi") + END),
        entry("climbs", DISK + path("\\EFI\\..\\..\\secret") + END),
        entry("colon", DISK + path("\\EFI\\a:b.efi") + END),
        entry("empty component", DISK + path("\\EFI\\\\menu.efi") + END),
        entry("empty path", DISK + path("") + END),
        entry("root alone", DISK + path("\\") + END),
        entry("a folder", DISK + path("\\EFI\\tools") + END),
        entry("missing", DISK + path("\\EFI\\none.efi") + END, attributes=0),
        entry("slashes", DISK + path("/EFI/menu.efi") + END),
        entry("two nodes", DISK + path("\\EFI") + path("menu.efi") + END),
        entry("two nodes, both with a separator", DISK + path("\\EFI\\") + path("\\menu.efi") + END),
        entry("two instances", OTHER_DISK + path("\\a") + END_INSTANCE + DISK + path("\\EFI\\menu.efi") + END),
        entry("after the end", DISK + END + path("\\EFI\\menu.efi") + END),
        entry("a long name", DISK + path("\\" + "n" * 256) + END),
        entry("at an odd place", ODD + DISK + path("\\EFI\\menu.efi") + END),
        entry("Überprüfung ▶", DISK + path("\\EFI\\Ü.efi") + END),
        entry("surrogate \ud83d\ude00", DISK + path("\\EFI\\menu.efi") + END),
        entry("obeyed \x1b[2J\x07", DISK + path("\\EFI\\\x1b[31mmenu.efi") + END),
        entry("surrogate in the path", DISK + path("\\EFI\\\udfff") + END),
        entry("more after the NUL", DISK + node(4, 4, text("\\EFI") + text("x")) + END),
        entry("no NUL", DISK + node(4, 4, text("\\EFI\\menu.efi")[:-2]) + END),
        entry("half a unit", DISK + node(4, 4, text("\\EFI\\menu.efi")[:-1]) + END),
        entry("no unit", DISK + node(4, 4, b"") + END),
        entry("length of 3", DISK + bytes([4, 4, 3, 0]) + END),
        entry("length of 0", DISK + bytes([0x7F, 0xFF, 0, 0])),
        entry("cut header", DISK + bytes([4, 4])),
        entry("cut node", DISK + bytes([4, 4, 60, 0]) + text("\\a")),
        entry("greatest length", DISK + bytes([4, 4, 0xFF, 0xFF]) + text("\\a") + END),
        entry("no end", DISK + path("\\EFI\\menu.efi")),
        entry("end of 5", DISK + path("\\EFI\\menu.efi") + bytes([0x7F, 0xFF, 5, 0, 0])),
        entry("another end", DISK + path("\\EFI\\menu.efi") + bytes([0x7F, 2, 4, 0]) + END),
        entry("list too long", DISK + END, length=len(DISK + END) + 1),
        entry("list of nothing", b""),
        entry("no description", b"")[:-2],
        entry("half a NUL", b"")[:-1],
        entry("", DISK + path("\\EFI\\menu.efi") + END),
        b"\1\0\0\0\0",
        entry("x" * 2000, DISK + END),
        entry("too long", path("\\EFI\\menu.efi") + END, data=bytes(17000)),
        entry("two paths", DISK + path("\\EFI\\menu.efi") + END + ODD + path("x\0y") + END, data=b"fast"),
        entry("another end in the second path", DISK + path("\\EFI\\menu.efi") + END + bytes([0x7F, 2, 4, 0])),
        entry("turned \u202efie.exe \u2069\u200e", DISK + path("\\EFI\\\u061cgpj\u2066.efi") + END),
        entry("a fallback", DISK + path("\\efi\\Boot\\bootX64.EFI") + END),
    ]


def plain():
    """Four load options of the usual kind: two that start, one without its file and one without its disk."""
    return [
        entry("Hello", DISK + path("\\EFI\\tools\\hello.efi") + END),
        entry("Boot menu", DISK + path("\\EFI\\menu.efi") + END),
        entry("debian", DISK + path("\\EFI\\debian\\shimx64.efi") + END),
        entry("USB stick", OTHER_DISK + path("\\EFI\\BOOT\\BOOTX64.EFI") + END),
    ]


WORDS = ["EFI", "BOOT", "BOOTX64.EFI", "debian", "shimx64.efi", ".", "..", "a", "b c", "grub.efi",
         "Über", "漢字", "a:b", "", "x*", "q?", "<", "\x7f", "\x01", "\u202e", "\u061c", "n" * 255, "n" * 256, "\ud800", "\0"]
DESCRIPTIONS = ["debian", "", "Windows Boot Manager", "Überprüfung ▶", "a" * 60, "UEFI: USB, Partition 1", "😀",
                "\ud800x", "bell\a", "\u200e\u2029", "é", "\uffff", "in\0side"]


def random_bytes(source, count):
    return bytes(source.randrange(256) for _ in range(count))


def any_path(source):
    words = [source.choice(WORDS[:10] if source.random() < 0.8 else WORDS) for _ in range(source.randrange(6))]
    return path(source.choice(["\\", "\\", "\\", "", "/"]) + source.choice(["\\"] * 9 + ["/"]).join(words))


def any_node(source):
    """A node of another kind than those that the reader reads."""
    return source.choice([
        lambda: node(2, 1, struct.pack("<II", 0x0A0341D0, source.randrange(4))),
        lambda: node(1, 1, bytes([source.randrange(8), source.randrange(32)])),
        lambda: node(3, 18, struct.pack("<HHH", source.randrange(6), 0xFFFF, 0)),
        lambda: node(3, 24, source.choice([b"", b"http://boot.example/a.efi"])),
        lambda: node(4, 3, random_bytes(source, 16 + source.randrange(5))),
        lambda: node(5, 1, struct.pack("<HH", 2, 0) + b"BBS disk\0"),
        lambda: node(source.randrange(256), source.randrange(256), random_bytes(source, source.randrange(12))),
    ])()


def any_nodes(source):
    made = b"".join(any_node(source) for _ in range(source.choice([0, 1, 1, 2, 3])))
    made += DISK if source.random() < 0.7 else b""
    made += b"".join(any_path(source) for _ in range(source.choice([0, 1, 1, 1, 1, 1, 2, 3])))
    made += END_INSTANCE + OTHER_DISK + any_path(source) if source.random() < 0.1 else b""
    made += END + any_node(source) if source.random() < 0.05 else b""
    return made + END


def any_entry(source):
    data = source.choice([b"", b"", b"", random_bytes(source, source.randrange(40)), text("root=/dev/sda1")])
    return entry(source.choice(DESCRIPTIONS), any_nodes(source), source.choice([1, 1, 1, 0, 0x101, 9]), data)


def mutated(source, made):
    """Changes a byte or two, cuts, adds, moves, or writes a length of its own."""
    made = bytearray(made)
    for _ in range(source.choice([1, 1, 1, 2, 3])):
        at = source.randrange(len(made) + 1)
        kind = source.randrange(7)
        if kind == 0 and at < len(made):
            made[at] ^= 1 << source.randrange(8)
        elif kind == 1 and at < len(made):
            made[at] = source.choice([0, 1, 2, 3, 4, 5, 0x7F, 0xFF, 0xD8, source.randrange(256)])
        elif kind == 2:
            del made[at:]
        elif kind == 3:
            del made[at : at + source.randrange(1, 5)]
        elif kind == 4:
            made[at:at] = source.choice([b"\0", b"\0\0", END, random_bytes(source, 3), DISK])
        elif kind == 5 and 6 <= len(made):
            made[4:6] = struct.pack("<H", source.choice([0, 1, 4, len(made), 0x7FFF, 0x8000, 0xFFFF, source.randrange(300)]))
        elif at + 4 <= len(made):
            made[at + 2 : at + 4] = struct.pack("<H", source.choice([0, 1, 3, 4, 5, 0x7F, 0x8000, 0xFFFC, 0xFFFF]))
    return bytes(made)


def many(count):
    """Entries by a fixed seed: a quarter of them sound, the others mutants."""
    source = random.Random(20261124)
    for i in range(count):
        made = any_entry(source)
        yield made if i % 4 == 0 else mutated(source, made)


def large():
    """Entries about as long as the reader takes, and as long as their parts can be."""
    most = 16384
    head = len(entry("", path("\\a") + END))
    for size in (most - 1, most, most + 1):
        yield entry("", path("\\a") + END, data=bytes(size - head))
        yield entry("d" * ((size - head) // 2), path("\\a") + END)[:size]
        yield entry("", path("\\" + "p" * ((size - head) // 2)) + END)
        yield entry("", path("\\." * ((size - head) // 4)) + path("\\a") + END)
        yield entry("", b"".join(path("\\b") for _ in range(size // 10)) + END)
        yield bytes([1, 0, 0, 0, 0, 0]) + b"\xd8" * (size - 6)
    yield b""
    yield bytes(65536)


def longest():
    """Longer ones, up to more bytes than a program takes, one that prints more than 200,000, and attributes that begin as those that Linux adds."""
    head = len(entry("", path("\\a") + END))
    for size in (20000, 40001, *range(65525, 65542)):
        yield entry("", path("\\a") + END, data=bytes(size - head))
        yield entry("d" * ((size - head) // 2), path("\\a") + END)[:size]
    yield entry("", path("\\" + "\u202e" * 32000) + END)
    yield from (entry("seven", path("\\a") + END, attributes) for attributes in (7, 0x107, 0x10007, 0x1000007))


if __name__ == "__main__":
    if len(sys.argv) != 3:
        raise SystemExit(__doc__.strip())
    with open(sys.argv[2], "wb") as file:
        for each in [*named(), *large(), *many(int(sys.argv[1]))]:
            file.write(struct.pack("<I", len(each)) + each)
