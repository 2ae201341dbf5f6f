"""Writes variables into the flash of OVMF and AAVMF, as a firmware that checks nothing would leave them there, and reads them.

The flash begins with the header of a firmware volume, and that with the header of a store of authenticated variables (EDK II,
MdeModulePkg/Include/Guid/VariableFormat.h): each variable is a header of 60 bytes, its name, its data, and bytes up to
a multiple of four.
"""
import struct
import uuid

STORE = uuid.UUID("aaf32c78-947b-439a-a180-2e144ec37792").bytes_le
GLOBAL = uuid.UUID("8be4df61-93ca-11d2-aa0d-00e098032b8c").bytes_le
# Kept, and seen at boot and at run time.
ATTRIBUTES, START, ADDED = 7, 0x55AA, 0x3F


def variable(name, data):
    name = name.encode("utf-16-le") + b"\0\0"
    made = struct.pack("<HBxIQ16xIII", START, ADDED, ATTRIBUTES, 0, 0, len(name), len(data)) + GLOBAL + name + data
    return made + b"\xff" * (-len(made) % 4)


def with_variables(flash, variables):
    """A flash with these variables in place of all that its store has."""
    volume = struct.unpack_from("<H", flash, 48)[0]
    if flash[40:44] != b"_FVH" or flash[volume : volume + 16] != STORE:
        raise ValueError("the flash has no store of authenticated variables")
    size = struct.unpack_from("<I", flash, volume + 16)[0]
    made = b"".join(variable(name, data) for name, data in variables)
    room = size - 28
    if len(made) > room:
        raise ValueError("the store is too small")
    start = volume + 28
    return flash[:start] + made + b"\xff" * (room - len(made)) + flash[start + room :]


def variables_of(flash):
    """The variables of a flash, whatever their GUIDs: their data by their names."""
    at, found = struct.unpack_from("<H", flash, 48)[0] + 28, {}
    while struct.unpack_from("<H", flash, at)[0] == START:
        names, size = struct.unpack_from("<II", flash, at + 36)
        data = at + 60 + names
        if flash[at + 2] == ADDED:
            found[flash[at + 60 : data - 2].decode("utf-16-le")] = flash[data : data + size]
        at = data + size + -(names + size) % 4
    return found
