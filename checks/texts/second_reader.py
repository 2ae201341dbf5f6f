"""A second reader of the texts of device paths, by docs/SPECIFICATION.md, docs/NODE_TEXTS.md and the rows of the file `forms`, which is no source of the library. It reads
a node with less care than it should, prints what it read, and takes it if that is the text.
"""
import collections
import pathlib
import re
import uuid

TABLE = pathlib.Path(__file__).resolve().parent / "forms"
END, END_INSTANCE = b"\x7f\xff\x04\x00", b"\x7f\x01\x04\x00"
OK, NOT_UTF8, NO_NODE = 0, 5, 31
MOST_DATA = 0xFFFF - 4
VENDORS = {"Sas": "D487DDB4-008B-11D9-AFDC-001083FFCA4D", "Uart": "37499A9D-542F-4C89-A026-35DA142094E4"}

Row = collections.namedtuple("Row", "kind mode least shortest when also start pieces tail close rest")
# A value in a text: an expression that its text matches, the number or the bytes that the text means, and the text of its bytes.
Shape = collections.namedtuple("Shape", "look read show")


def number(data):
    return int.from_bytes(data, "little")


def digits(data):
    return data.hex().upper()


def shown(data):
    """A text of bytes."""
    return "".join(chr(it) if 0x20 <= it < 0x7F else f"\\x{it:02X}" for it in data)


def shown_units(data):
    """A text of units, up to a NUL."""
    text = data[: len(data) // 2 * 2].decode("utf-16-le", "surrogatepass").split("\0")[0]
    escaped = "[\0-\x1f\x7f-\x9f\u061c\u200e\u200f\u2028-\u202e\u2066-\u2069]"
    return re.sub(escaped, lambda it: f"\\u{{{ord(it[0]):X}}}", re.sub("[\ud800-\udfff]", "\ufffd", text))


def eisa_id(text):
    """The number of an ID of EISA, or 0."""
    letters = [ord(it) - 64 for it in text[:3]]
    return 0 if text == "0" else int(text[3:], 16) << 16 | letters[0] << 10 | letters[1] << 5 | letters[2]


def eisa_text(data):
    """The text of an ID of EISA, of which bit 15 is not printed."""
    bits = number(data) & 0xFFFF7FFF
    return "".join(chr(64 + (bits >> shift & 31)) for shift in (10, 5, 0)) + f"{bits >> 16:04X}" if bits else "0"


def id_strings(text):
    """The strings of _HID, _CID and _UID as they lie."""
    hid, cid, uid = text.encode().split(b",", 2)
    return hid + b"\0" + uid + b"\0" + cid + b"\0"


def id_texts(data):
    """Their texts."""
    hid, uid, cid = (data + b"\0\0\0").split(b"\0")[:3]
    return f"{shown(hid)},{shown(cid)},{shown(uid)}"


def words(listed, end):
    """A byte as a word of a list, `x` where it has none, and what ends it."""
    return Shape("[^,)]+" + re.escape(end), lambda text: 255 if text == "x" + end else listed.index(text[:-1]),
                 lambda data: (listed[data[0]] if data[0] < len(listed) else "x") + end)


HEX, BYTES = "[0-9a-fA-F]+", "[-:0-9a-fA-F]+"
SHAPES = {
    "hexadecimal": Shape(HEX, lambda text: int(text, 16), lambda data: f"{number(data):X}"),
    "decimal": Shape("[0-9]+", int, lambda data: str(number(data))),
    "ordefault": Shape("[0-9]+|DEFAULT", lambda text: 0 if text == "DEFAULT" else int(text), lambda data: str(number(data) or "DEFAULT")),
    "next": Shape(HEX, lambda text: int(text, 16) - 1, lambda data: f"{number(data) + 1:X}"),
    "back": Shape(HEX, lambda text: bytes.fromhex(text)[::-1], lambda data: digits(data[::-1])),
    "forth": Shape(HEX, bytes.fromhex, digits),
    "dashed": Shape(BYTES, lambda text: bytes.fromhex(text.replace("-", ""))[::-1], lambda data: "-".join(f"{it:02X}" for it in data[::-1])),
    "guid": Shape(BYTES, lambda text: uuid.UUID(text).bytes_le, lambda data: str(uuid.UUID(bytes_le=bytes(data))).upper()),
    "ipv4": Shape("[0-9.]+", lambda text: bytes(map(int, text.split("."))), lambda data: ".".join(map(str, data[:4]))),
    "ipv6": Shape(BYTES, lambda text: bytes.fromhex(text.replace(":", "")), lambda data: re.sub("(....)(?=.)", r"\1:", digits(data))),
    "eisa": Shape("0|[@-_]{3}[0-9a-fA-F]{4}", eisa_id, eisa_text),
    "parity": words(["D", "N", "E", "O", "M", "S"], ","),
    "stopbits": words(["D", "1", "1.5", "2"], ")"),
    "digests": Shape("(?:CRC32C|None),(?:CRC32C|None),", lambda text: 2 * text.startswith("C") + 8 * text.endswith("C,"),
                     lambda data: "".join("CRC32C," if data[0] & bit else "None," for bit in (2, 8))),
    "login": Shape("(?:None|CHAP_UNI|CHAP_BI),", {"None,": 8, "CHAP_UNI,": 16, "CHAP_BI,": 0}.get,
                   lambda data: "None," if data[0] & 8 else "CHAP_UNI," if data[0] & 16 else "CHAP_BI,"),
    "protocol": Shape(r"(?:TCP|reserved)\)", lambda text: int(text != "TCP)"), lambda data: "reserved)" if number(data) else "TCP)"),
}
WIDTHS = {"Guid": 16, "Ipv4": 4, "Ipv6": 16}


def value_of(shape, text, width):
    """The bytes of a field that has this text."""
    value = shape.read(text)
    value = value.to_bytes(width, "little") if isinstance(value, int) else value
    if len(value) != width:
        raise ValueError(text)
    return value


def items(start, shape, width, size):
    """A list of items of this size, of which each is a field in its first bytes."""
    return Shape(f"(?:{start}{shape.look})*", lambda text: b"".join(value_of(shape, it, width).ljust(size, b"\0") for it in text.split(start)[1:]),
                 lambda data: "".join(start + shape.show(data[at : at + size]) for at in range(0, len(data) // size * size, size)))


TAILS = {
    "Nothing": Shape("", str.encode, lambda data: ""),
    "Bytes": Shape(f"(?:,{HEX})?", lambda text: bytes.fromhex(text[1:]), lambda data: "," * bool(data) + digits(data)),
    "Text": Shape("[ -(*-~]*", str.encode, shown),
    "Utf16": Shape("[ !#-~]*", lambda text: text.encode("utf-16-le"), shown_units),
    "Name": Shape(r"[ -+\--~]*", lambda text: text.encode() + b"\0", lambda data: shown(data.split(b"\0")[0])),
    "Padded": Shape("[ -(*-~]*", lambda text: text.encode().ljust(32, b"\0"), lambda data: shown(data[:32].split(b"\0")[0])),
    "Ids": Shape(r"[ -+\--~]*,[ -+\--~]*,[ -(*-~]*", id_strings, id_texts),
    "Numbers": items(",0x", SHAPES["hexadecimal"], 4, 4),
    "Ipv4": items(",", SHAPES["ipv4"], 4, 16),
    "Ipv6": items(",", SHAPES["ipv6"], 16, 16),
}


def places(text):
    """Bytes of a form, each with its place."""
    named = [each for name in VENDORS if name in text for each in enumerate(uuid.UUID(VENDORS[name]).bytes_le)]
    return named + [(int(place), int(byte, 16)) for place, byte in re.findall(r"(\d+) = 0x(\w+)", text)]


def fields_of(text):
    """The fields of a form: the shape of each, where it lies, how many bytes it has, and what stands after it."""
    for shape, place, width, ending in re.findall(r'\[(?:Word )?(\w+) (\d+)(?: (\d+))?(?: "(.*?)")?\]', text):
        yield SHAPES.get(shape.lower()), int(place), int(width or WIDTHS[shape]), ending.replace("'", '"')


def rows():
    """The rows of the table, in order."""
    for row in TABLE.read_text().splitlines():
        if row.startswith("#"):
            continue
        kind, sub_kind, mode, least, more, when, also, start, fields, tail, close, rest = re.fullmatch(
            r'(\d+) (\d+) (\w+) (\d+)(?: \+ (\d+))? \[(.*?)\] \[(.*?)\] "(.*?)"((?: \[[^]]*\])*) (?:Repeated )?(\w+) "(.*?)"((?: \[[^]]*\])*)',
            row).groups()
        yield Row((int(kind), int(sub_kind)), mode, int(least), int(least) + int(more or 0), places(when), places(also), start, list(fields_of(fields)),
                  TAILS.get(tail), close.replace("'", '"'), list(fields_of(rest)))


def row_text(row, data):
    """The text of data in a form that is read or for display."""
    pieces, rest = ("".join(shape.show(data[place : place + width]) + ending for shape, place, width, ending in fields) for fields in (row.pieces, row.rest))
    return row.start + pieces + row.tail.show(data[row.least :]) + row.close + rest


ROWS = list(rows())
# By the name before the bracket, what the text of a form matches, a group for each field and for what follows them, and the row's number.
READERS = collections.defaultdict(list)
for _number, _row in enumerate(ROWS):
    if _row.mode == "Read":
        _fields, _rest = ("".join(f"({shape.look}){re.escape(ending)}" for shape, _, _, ending in fields) for fields in (_row.pieces, _row.rest))
        _pattern = re.compile(f"{re.escape(_row.start)}{_fields}({_row.tail.look}){re.escape(_row.close)}{_rest}")
        READERS[_row.start.split("(")[0]].append((_pattern, _number))
# The numbers of rows of which a node was read.
TAKEN = set()


def node_text(kind, data):
    """The text of a node, or None where no text tells all of its kind."""
    if kind == (4, 4) and len(data) % 2 == 0:
        return shown_units(data)
    for row in ROWS:
        if row.kind == kind and row.mode != "Display" and row.shortest <= len(data) and all(data[place] == byte for place, byte in row.when):
            return row_text(row, data) if row.mode == "Read" else None
    return f"Path({kind[0]},{kind[1]}{TAILS['Bytes'].show(data)})"


def data_in(row, texts):
    """The data of which a form has these texts."""
    data = bytearray(row.least)
    for place, byte in row.when + row.also:
        data[place] = byte
    before = len(row.pieces)
    for (shape, place, width, _), text in zip(row.pieces + row.rest, texts[:before] + texts[before + 1 :]):
        data[place : place + width] = value_of(shape, text, width)
    return bytes(data) + row.tail.read(texts[before])


def candidates(text, at):
    """Nodes whose texts may begin at a place: where each ends, its kind, how to read its data, and its row."""
    if text[at : at + 1] == "\\":
        found = re.compile("[^/,]*").match(text, at)
        yield found.end(), (4, 4), lambda: found[0].encode("utf-16-le") + b"\0\0", None
    found = re.compile(r"Path\(([0-9]{1,3}),([0-9]{1,3})((?:,[0-9A-F]+)?)\)").match(text, at)
    if found and found[1] != "127":
        yield found.end(), (int(found[1]), int(found[2])), lambda: TAILS["Bytes"].read(found[3]), None
    for pattern, row in READERS.get(re.compile("[^(]*").match(text, at)[0], ()):
        found = pattern.match(text, at)
        if found:
            yield found.end(), ROWS[row].kind, lambda: data_in(ROWS[row], found.groups()), row


def node_at(text, at):
    """The node whose text begins at a place, and where that ends, or None where none does."""
    for end, kind, read_data, row in candidates(text, at):
        try:
            data = read_data()
            if text[end : end + 1] in ("", "/", ",") and len(data) <= MOST_DATA and node_text(kind, data) == text[at:end]:
                head = bytes(kind) + (4 + len(data)).to_bytes(2, "little")
                TAKEN.add(row)
                return head + data, end
        except (ValueError, OverflowError):
            pass
    return None


def read(given):
    """What the text in these bytes is read as: the reason, the place, and the bytes of the path."""
    try:
        text = given.decode()
    except UnicodeDecodeError as fault:
        return NOT_UTF8, fault.start, END
    path, at, begins = [], 0, True
    while True:
        if not begins or text[at : at + 1] not in ("", ","):
            found = node_at(text, at)
            if found is None:
                return NO_NODE, len(text[:at].encode()), END
            path.append(found[0])
            at = found[1]
        if at == len(text):
            whole = b"".join(path) + END
            return OK, len(whole), whole
        begins = text[at] == ","
        path += [END_INSTANCE] * begins
        at += 1
