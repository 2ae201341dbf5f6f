/* Prints boot entries, a few lines each. */
#ifndef LINES_H
#define LINES_H

#include "reader.h"

/* The result of a search for a file. */
enum lines_found { LINES_THERE, LINES_FOLDER, LINES_NOT_THERE, LINES_NO_DISK, LINES_UNKNOWN };

/* The most units of a name on a FAT volume. The menu does not rely on the file system to refuse a longer one. */
enum { LINES_MOST_NAME = 255 };

/* The program defines both: one prints a unit, the other searches for a file by its normal path, which ends in a NUL. */
void lines_put_unit(uint16_t unit);
enum lines_found lines_look(const struct reader *reader, const uint16_t *normal);

void lines_put(const char *text);
void lines_put_number(size_t number);

/* Prints units: printable ASCII unchanged, and any other unit as its number, because a terminal may obey it or lack it. */
void lines_put_units(const uint16_t *units, size_t length);

/* Prints the name Boot####. */
void lines_put_name(uint16_t number);

/*
 * Writes the normal path of the file that the reader found to a buffer of READER_MOST_UNITS, with a NUL after `*length` units.
 * Returns false if it names no file that can be opened, and sets `*reason`, and `*character` if a character is the reason.
 */
bool lines_normal(const struct reader *reader, uint16_t *normal, size_t *length, const char **reason, uint16_t *character);

/* Prints an entry. Returns whether it is well-formed, except perhaps for its description, and a file that it names exists. */
bool lines_show(struct reader *reader, uint16_t number, const uint8_t *bytes, size_t size);

#endif
