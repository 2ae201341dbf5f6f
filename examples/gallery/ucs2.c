/*
 * Converts UTF-8 from standard input to a string of UCS-2, as firmware stores one, and with -d back.
 *
 *     cc -I include examples/gallery/ucs2.c crates/nardcorbel/out/firmware/x86_64-linux-gnu/libnardcorbel.a -o ucs2
 *     printf 'bo\303\266t' | ./ucs2 | ./ucs2 -d
 *
 *     boöt
 *
 * UCS-2 has no character above U+FFFF, and a text in UTF-8 has no surrogate: a surrogate becomes U+FFFD. If a text cannot be
 * converted, the program reports the place and ends with 1.
 */
#include <stdio.h>
#include <string.h>

#include "nardcorbel.h"

enum { MOST = 65536 };

static char bytes[2 * MOST], shown[3 * MOST + 1];
static nard_char16 units[MOST];

static int reject(nard_status status, size_t fault)
{
    fprintf(stderr, "ucs2: %s, at %zu\n", nard_status_text(status), fault);
    return 1;
}

static int encode(size_t size)
{
    size_t length = 0, fault = 0;
    nard_status status = nard_string_from_utf8(bytes, size, units, MOST, &length, &fault);
    if (status != NARD_OK)
        return reject(status, fault);
    for (size_t i = 0; i <= length; i++)
        printf("%c%c", units[i] & 0xff, units[i] >> 8);
    return 0;
}

static int decode(size_t size)
{
    size_t length = 0, fault = 0, shown_size = 0;
    nard_status status = nard_units_from_bytes((const uint8_t *)bytes, size, units, MOST, &length);
    if (status != NARD_OK)
        return reject(status, size / 2);
    status = nard_string_check(units, length, NULL, &fault);
    if (nard_string_to_utf8_lossy(units, length, shown, sizeof shown, &shown_size) == NARD_OK)
        fwrite(shown, 1, shown_size, stdout);
    return status == NARD_OK ? 0 : reject(status, fault);
}

int main(int count, char **words)
{
    size_t size = fread(bytes, 1, sizeof bytes, stdin);
    return 1 < count && strcmp(words[1], "-d") == 0 ? decode(size) : encode(size);
}
