"""Device paths of each kind of node, by a fixed seed, whose texts are compared with those of the firmware."""
import random
import re
import struct

import samples

# Bytes of vendors' GUIDs that have a name of their own, and of a RAM disk.
TERMINAL = bytes.fromhex("5347c1e0bef9d2119a0c0090273fc14d")
UART = bytes.fromhex("9d9a49372f54894ca02635da142094e4")
UART_TEXT = "37499A9D-542F-4C89-A026-35DA142094E4"
SAS = bytes.fromhex("b4dd87d48b00d911afdc001083ffca4d")
SAS_TEXT = "D487DDB4-008B-11D9-AFDC-001083FFCA4D"
# Topologies of SAS devices that words tell: in no bay and in one.
TOPOLOGIES = [b"\0\0", *(bytes([16 * it + 1, 0]) for it in range(8))]
BAYS = [16 * it + 2 for it in range(8)]
RAM_DISK = bytes.fromhex("5a53ab77fc454b625560f7b281d1f96e")
# IDs of PNP with a name of their own, and one without.
PNP = [0x0A03, 0x0A08, 0x0604, 0x0301, 0x0501, 0x0401, 0x0C08]
# Classes of USB devices with a name of their own, and two without.
USB_CLASSES = [0x01, 0x02, 0x03, 0x06, 0x07, 0x08, 0x09, 0x0A, 0x0B, 0x0E, 0xDC, 0xE0, 0xFE, 0xFE, 0xFE, 0x05, 0xFF]


def nodes_of(source):
    """A node of each kind at least, with the type, the sub-type and the data."""
    byte = lambda: source.choice([0, 1, 9, 10, 16, 255, source.randrange(256)])
    some = lambda least, most=None: bytes(byte() for _ in range(source.randint(least, most or least)))
    word = lambda: source.choice(["a", "EFI", "B\u00e9", "x.efi", "0", "long name"])
    text = lambda: "\\".join(["", *(word() for _ in range(source.randint(1, 3)))])
    guid = lambda known: known if source.random() < 0.3 else some(16)
    pnp = lambda: struct.pack("<HH", 0x41D0, source.choice(PNP)) if source.random() < 0.7 else some(4)
    strings = lambda: b"".join(source.choice([b"", b"ID0", b"PNP0A03"]) + b"\0" for _ in range(3))
    small = lambda most: bytes([source.randrange(most)])
    topology = lambda: source.choice([source.choice(TOPOLOGIES), bytes([source.choice(BAYS), byte()]), bytes([source.choice([0x83, 4, 15]), byte()])])
    return [
        (1, 1, some(2)), (1, 2, some(1)), (1, 3, some(20)), (1, 4, some(16, 20)), (1, 5, some(4)), (1, 6, some(9)),
        (2, 1, pnp() + some(4)), (2, 2, pnp() + some(4) + pnp() + strings()),
        (3, 1, some(4)), (3, 2, some(4)), (3, 3, some(20)), (3, 4, some(12)), (3, 5, some(2)), (3, 6, some(4)), (3, 9, some(44)),
        (3, 10, guid(TERMINAL) + source.choice([b"", some(1, 4)])), (3, 10, UART + struct.pack("<I", source.randrange(3))),
        (3, 11, some(32) + bytes([source.randrange(3)])),
        (3, 12, some(12) + struct.pack("<HB", source.choice([6, 17, 1]), source.randrange(3)) + source.choice([b"", some(8)])),
        (3, 13, some(36) + struct.pack("<HB", source.choice([6, 17, 1]), source.randrange(4)) + some(17)),
        (3, 13, some(36) + struct.pack("<HB", source.choice([6, 17, 1]), source.randrange(3))),
        (3, 10, SAS + some(20) + topology() + some(2)), (3, 22, some(16) + topology() + some(2)),
        (3, 14, some(4) + source.choice([bytes(8), some(8)]) + some(1) + small(7) + small(5)),
        (2, 3, some(4) + b"".join(some(4) for _ in range(source.randrange(4)))),
        (3, 16, some(6) + source.choice(["A1b2", "no NUL", "x\0", "\u00e9\0"]).encode("utf-16-le")),
        (3, 19, struct.pack("<HH", source.randrange(2), source.randrange(2**16)) + some(10) + source.choice([b"iqn.2001-04.com.example:disk", b"a"]) + b"\0"),
        (3, 28, source.choice([b"home", b"long name", b"0123456789abcdef0123456789ABCDEF"]).ljust(32, b"\0")),
        (3, 31, small(2) + b"".join(some(16) for _ in range(source.randrange(1, 4)))),
        (3, 15, some(4) + bytes([source.choice(USB_CLASSES), source.choice([byte(), 1, 2, 3])]) + some(1)), (3, 17, some(1)),
        (3, 18, some(6)), (3, 20, some(2)), (3, 21, some(20)), (3, 25, some(2)), (3, 27, some(6)), (3, 30, some(7)),
        (3, 23, some(12)), (3, 24, source.choice([b"", b"http://boot.example/a.efi"])), (3, 26, some(1)), (3, 29, some(1)),
        (4, 1, some(36) + bytes([source.randrange(3), source.randrange(3)])), (4, 2, some(20)), (4, 3, some(16, 20)),
        (4, 4, text().encode("utf-16-le") + b"\0\0"), (4, 5, some(16)), (4, 6, some(16)), (4, 7, some(16)),
        (4, 8, some(20)),
        (4, 9, some(16) + guid(RAM_DISK) + some(2)),
        (5, 1, struct.pack("<HH", source.randrange(8), source.randrange(300)) + source.choice([b"", b"disk", b"C: 0"]) + b"\0"),
    ]


def many(turns):
    """Paths of one node of each kind, of all kinds together, and of two instances, as often as this."""
    source = random.Random(20261125)
    for _ in range(turns):
        nodes = nodes_of(source)
        yield from (samples.node(*it) + samples.END for it in nodes)
        of = {it[:2]: samples.node(*it) for it in nodes}
        yield of[2, 1] + of[1, 1] + samples.END_INSTANCE + of[4, 4] + of[4, 6] + samples.END


def with_number(text):
    """A text of the firmware's in which no number of a partition and no baud rate is below 0."""
    text = re.sub(r"(?<=HD\()-\d+", lambda it: str(int(it[0]) + 2**32), text)
    return re.sub(r"(?<=Uart\()-\d+", lambda it: str(int(it[0]) + 2**64), text)


# Where the firmware prints something else of a node: why, and whether it did that here, by our text and its own.
KNOWN = [
    ("AcpiEx in fewer words", lambda ours, theirs: ours.startswith("AcpiEx(") and theirs.startswith(("AcpiEx(", "AcpiExp(", "PciRoot(", "PcieRoot("))),
    ("AcpiExp in fewer words", lambda ours, theirs: ours.startswith("AcpiExp(") and theirs.startswith(("PciRoot(", "PcieRoot("))),
    ("the shorter name of a vendor, and data lost", lambda ours, theirs: ours.startswith("VenMsg(E0C14753-F9BE-11D2-9A0C-0090273FC14D,") and theirs == "VenPcAnsi()"),
    ("flow control without shortcuts", lambda ours, theirs: ours.startswith("UartFlowCtrl(") and theirs.startswith(f"VenMsg({UART_TEXT},")),
    ("SAS without shortcuts", lambda ours, theirs: ours.startswith("SAS(") and theirs.startswith(f"VenMsg({SAS_TEXT},")),
    ("a number as one below 0", lambda ours, theirs: ours == with_number(theirs) != theirs),
]


def is_known(ours, theirs):
    """Whether two texts of a path differ in nothing else, but for a slash that the firmware prints between instances."""
    ours, theirs = ours.replace(",\\", ",/\\").split("/"), theirs.split("/")
    return len(ours) == len(theirs) and all(a == b or any(it(a, b) for _, it in KNOWN) for a, b in zip(ours, theirs))


# What the firmware reads of a node's text otherwise: why, and whether it did that here, by our text and that of what it read.
KNOWN_READ = [
    ("a node of addresses in its longer form", lambda text, read: text.startswith(("IPv4(", "IPv6(")) and read.startswith(text[:-1] + ",0")),
    ("DEFAULT as a number, and a parity without a name", lambda text, read: text.startswith("Uart(") and read.startswith("Uart(")),
    ("an ID that is none of PNP", lambda text, read: text.startswith("Acpi(0x") and read.startswith("Acpi(0x")),
]


def is_known_read(text, read):
    """Whether the two texts differ in nothing else."""
    first, second = text.split("/"), read.split("/")
    return len(first) == len(second) and all(a == b or any(it(a, b) for _, it in KNOWN_READ) for a, b in zip(first, second))
