/*
 * Reads texts of device paths, each four bytes of length and then its own, and prints for each what
 * nard_device_path_parse says of it: the status, the size or the offset of the fault, whether the path's text is the text
 * again (1, or 0 where nothing is read), what becomes of its text in libefivar's style (1 if that is read as the path, 0 if it is
 * rejected or nothing is read, 2 if it is read as another path), and the bytes of the path that is then in the buffer.
 */
#include <nardcorbel.h>
#include <stdio.h>
#include <string.h>

enum { MOST = 1 << 18, ROOM = 8 * MOST + 4 };

static uint8_t path[ROOM], other[ROOM];
static char text[MOST], back[3 * MOST + 1];

/* Whether the text that the library writes of a path is this one. */
static bool is_text_of(size_t path_length, size_t size)
{
    size_t length = 0;
    return nard_device_path_format(path, path_length, NARD_STYLE_UEFI, back, sizeof back, &length, NULL) == NARD_OK &&
           length == size && memcmp(back, text, size) == 0;
}

/* What becomes of the text in libefivar's style of a path. */
static int as_libefivar(size_t path_length)
{
    size_t length = 0, end = 0;
    if (nard_device_path_format(path, path_length, NARD_STYLE_LIBEFIVAR, back, sizeof back, &length, NULL) != NARD_OK)
        return 2;
    if (nard_device_path_parse(back, length, NARD_STYLE_LIBEFIVAR, other, ROOM, &end, NULL) != NARD_OK)
        return 0;
    return end == path_length && memcmp(other, path, end) == 0 ? 1 : 2;
}

int main(void)
{
    uint32_t size;
    while (fread(&size, sizeof size, 1, stdin) == 1) {
        size_t fault = 0, end = 0;
        if (size > MOST || fread(text, 1, size, stdin) != size || nard_device_path_init(path, ROOM, &end) != NARD_OK)
            return 1;
        /* Without capacity for any node, and then with exactly as much as the call asks for. */
        nard_status status = nard_device_path_parse(text, size, NARD_STYLE_UEFI, path, end, &end, &fault);
        if (status == NARD_BUFFER_TOO_SMALL && end <= ROOM)
            status = nard_device_path_parse(text, size, NARD_STYLE_UEFI, path, end, &end, &fault);
        if (nard_device_path_check(path, ROOM, &end, NULL) != NARD_OK)
            return 1;
        bool is_read = status == NARD_OK;
        printf("%u %zu %d %d ", (unsigned)status, is_read ? end : fault, is_read && is_text_of(end, size), is_read ? as_libefivar(end) : 0);
        for (size_t i = 0; i < end; i++)
            printf("%02x", path[i]);
        printf("\n");
    }
    return 0;
}
