/*
 * Reads boot entries: the bytes of a variable Boot####, an EFI_LOAD_OPTION of the UEFI Specification 2.10, section 3.1.3,
 * and the device path in it, sections 10.2 and 10.3. Any bytes may be given: the library reads each length in them, and
 * nothing beyond the entry is read. The reader calls only the library, so it runs in firmware and elsewhere.
 */
#ifndef READER_H
#define READER_H

#include "nardcorbel.h"

enum { READER_MOST_BYTES = 16384, READER_MOST_UNITS = READER_MOST_BYTES / 2 };

/*
 * The fault of an entry, and its offset: the part at fault, which is empty if the reason names it, and the reason, which is NULL if
 * nothing is malformed.
 */
struct reader_fault {
    size_t offset;
    const char *part, *reason;
};

struct reader {
    const uint8_t *bytes;
    size_t size, at, end;
    bool has_ended, is_active;
    /* The text of the description, even if it contains a surrogate: then only it has a fault, and the entry can be used. */
    uint16_t description[READER_MOST_UNITS];
    size_t description_length;
    struct reader_fault description_fault;
    /* The fault of the entry. */
    struct reader_fault fault;
    /* The file that reader_next found: its path, a string, and the node of its disk, which has no bytes if none is named. */
    uint16_t path[READER_MOST_UNITS];
    size_t path_length, disk, disk_size;
    uint16_t node[READER_MOST_UNITS];
};

/*
 * Begins to read an entry. Returns false if the end of its description or of its list of file paths is not known. From here on
 * the reader has the fault of the entry, even if the fault is a node of the list.
 */
bool reader_begin(struct reader *reader, const uint8_t *bytes, size_t size);

/*
 * Reads the next file that the entry's device path names, one for each instance that ends in a file. Returns whether there is one.
 * Returns false after the last file, before a malformed node, and at a node that should name a file and does not, which is then
 * the reader's fault. The bytes after the first device path are not for the boot manager: they must be device paths, and the
 * files that these name are not read.
 */
bool reader_next(struct reader *reader);

#endif
