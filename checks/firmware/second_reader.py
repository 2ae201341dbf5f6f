#!/usr/bin/env python3
"""A second implementation of what the menu prints for an entry, from the UEFI Specification and the rules of paths.

usage: second_reader.py FILE    prints the lines of each entry in a file that samples.py wrote, numbered from 0

It shares no code with reader.c: it splits an entry into lists and joins these.
"""
import re
import struct
import sys

MOST_BYTES, MOST_NAME, ILLEGAL = 16384, 255, set('"*/:<>?|')
SURROGATES = range(0xD800, 0xE000)
FALLBACK = re.compile(r"EFI\\BOOT\\BOOT[^\\]*\.EFI", re.IGNORECASE | re.ASCII | re.DOTALL)
TEXT_FAULTS = {
    "nul": "not null-terminated",
    "surrogate": "invalid character",
    "inside": "interior null character",
}


class Malformed(Exception):
    """The rest of an entry cannot be read: an offset and a reason."""


def shown(units):
    return "".join(chr(it) if 0x20 <= it < 0x7F else f"<{it:04X}>" for it in units)


def units_of(data):
    return list(struct.unpack(f"<{len(data) // 2}H", data[: len(data) // 2 * 2]))


def fault_of(units):
    """The place of the first NUL or surrogate that keeps units from being one string, and which it is."""
    for place, it in enumerate(units):
        if it == 0:
            return (place, "inside") if place + 1 < len(units) else None
        if it in SURROGATES:
            return place, "surrogate"
    return len(units), "nul"


def nodes_of(data, start, end):
    """The nodes of device paths from one offset to another: type, subtype, offset and bytes."""
    at, is_ended = start, False
    while not (is_ended and at == end):
        if at == end:
            raise Malformed(end, "file path list is empty" if start == end else "device path has no end node")
        if end - at < 4:
            raise Malformed(at, "device path ends within a node header")
        kind, subtype, size = struct.unpack_from("<BBH", data, at)
        if kind == 0x7F and subtype not in (1, 0xFF):
            raise Malformed(at + 1, "end node has an unknown sub-type")
        if size < 4:
            raise Malformed(at + 2, "device path node is shorter than its header")
        if kind == 0x7F and size != 4:
            raise Malformed(at + 2, "end node has data")
        if end - at < size:
            raise Malformed(at + 2, "device path node extends past the end of the data")
        yield kind, subtype, at, data[at : at + size]
        at, is_ended = at + size, (kind, subtype) == (0x7F, 0xFF)


def files_of(data, start, end):
    """The files that the first device path names, one for each instance: the units of the path, and the disk's node."""
    parts, disk, nodes = [], b"", nodes_of(data, start, end)
    for kind, subtype, at, node in nodes:
        if kind == 0x7F:
            if parts:
                yield joined(parts), disk
            parts, disk = [], b""
            if subtype == 0xFF:
                break
        elif (kind, subtype) == (4, 1):
            disk = node
        elif (kind, subtype) == (4, 4):
            if len(node) % 2:
                raise Malformed(at + len(node) - 1, "file path: odd number of bytes")
            units = units_of(node[4:])
            if fault := fault_of(units):
                raise Malformed(at + 4 + 2 * fault[0], f"file path: {TEXT_FAULTS[fault[1]]}")
            parts.append([0x5C if it == 0x2F else it for it in units[:-1]])
    # The others have to be device paths, whatever they name.
    for _ in nodes:
        pass


def joined(parts):
    """The path of several nodes: one separator between two, whichever of them brings it."""
    whole = []
    for part in parts:
        part = part[1:] if whole and part[:1] == [0x5C] else part
        whole += [0x5C] * bool(whole and part and whole[-1] != 0x5C) + part
    return whole


def normal_of(units):
    """The normal path, or why there is none, as a text; and whether it is one."""
    if not units:
        return "path is empty", False
    text, kept = "".join(map(chr, units)), []
    text = text[1:] if text[0] == "\\" else text
    for name in text.split("\\") if text else []:
        bad = [it for it in name if it in ILLEGAL]
        if not name:
            return "path contains an empty component", False
        if bad:
            return f"path contains an illegal character (value {ord(bad[0])})", False
        if name == ".." and not kept:
            return "path climbs above the root", False
        if name == "..":
            kept.pop()
        elif name != ".":
            kept.append(name)
    if any(MOST_NAME < len(it) for it in kept):
        return "a name is longer than file systems hold", False
    return "\\".join(kept) or "\\", True


def description_of(data):
    """How many units a description has, and the place of a surrogate in it, if there is one."""
    units = units_of(data[6:])
    surrogates = [place for place, it in enumerate(units) if it in SURROGATES]
    end = units.index(0) if 0 in units else len(units)
    return end, next((it for it in surrogates if it < end), None), end < len(units)


def lines(number, data, look=lambda normal, disk: ""):
    """The lines of an entry; `look` says what is printed after the normal path of a file."""
    head, after, fault = f"Boot{number:04X}", [], None
    if len(data) < 6:
        head, fault = f"{head}: ", (len(data), "load option ends before its description")
    elif MOST_BYTES < len(data):
        head, fault = f"{head}: ", (MOST_BYTES, "the entry is too long")
    else:
        count, surrogate, is_ended = description_of(data)
        start, size = 6 + 2 * (count + 1), struct.unpack_from("<H", data, 4)[0]
        is_whole = is_ended and start + size <= len(data)
        head += " not active: " if is_whole and not data[0] & 1 else ": "
        head += shown(units_of(data[6:])[:count]) if is_ended else ""
        if is_ended and surrogate is not None:
            after.append(malformed(6 + 2 * surrogate, f"description: {TEXT_FAULTS['surrogate']}"))
        if not is_ended:
            fault = 6 + 2 * count, "description is not null-terminated"
        elif not is_whole:
            fault = 4, "file path list extends past the end of the load option"
        else:
            after += list_lines(data, start, start + size, look)
    return [head, *after, *([malformed(*fault)] if fault else [])]


def list_lines(data, start, end, look):
    """The lines of the files that a device path names, and of what is malformed in it."""
    made = []
    try:
        for path, disk in files_of(data, start, end):
            normal, is_accepted = normal_of(path)
            made.append(f"    path {shown(path)}" + ("" if is_accepted else f": refused: {normal}"))
            if is_accepted:
                fallback = ", a fallback" if FALLBACK.fullmatch(normal) else ""
                made.append(f"    file {shown(map(ord, normal))}{fallback}{look(normal, disk)}")
    except Malformed as error:
        return [*made, malformed(*error.args)]
    return made or ["    names no file"]


def malformed(offset, reason):
    return f"    malformed at offset {offset}: {reason}"


if __name__ == "__main__":
    if len(sys.argv) != 2:
        raise SystemExit(__doc__.strip())
    with open(sys.argv[1], "rb") as file:
        number = 0
        while head := file.read(4):
            for line in lines(number, file.read(struct.unpack("<I", head)[0])):
                print(line)
            number += 1
