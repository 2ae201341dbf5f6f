/*
 * Calls each function of efivar.c with the load options of a file, each after its length in four bytes, and with the parts of
 * them. Prints counts, and ends with 1 where a call does not return what its callers are promised. Built with the sanitizers, and
 * each input lies in memory of its own size.
 *
 * usage: try_calls FILE
 */
#include <errno.h>
#include <stdint.h>
#include <stdio.h>
#include <stdlib.h>
#include <string.h>
#include <sys/types.h>

ssize_t efidp_format_device_path(char *buf, size_t size, const uint8_t *dp, ssize_t limit);
ssize_t efidp_parse_device_path(const char *text, uint8_t *out, size_t size);
ssize_t efidp_parse_device_node(const char *text, uint8_t *out, size_t size);
int efidp_duplicate_path(const uint8_t *dp, uint8_t **out);
int efidp_append_path(const uint8_t *dp0, const uint8_t *dp1, uint8_t **out);
int efidp_append_node(const uint8_t *dp, const uint8_t *dn, uint8_t **out);
int efidp_append_instance(const uint8_t *dp, const uint8_t *dpi, uint8_t **out);
int efi_loadopt_is_valid(const uint8_t *opt, size_t size);
uint32_t efi_loadopt_attrs(const uint8_t *opt);
void efi_loadopt_attr_set(uint8_t *opt, uint16_t attr);
void efi_loadopt_attr_clear(uint8_t *opt, uint16_t attr);
const uint8_t *efi_loadopt_path(const uint8_t *opt, ssize_t limit);
uint16_t efi_loadopt_pathlen(const uint8_t *opt, ssize_t limit);
const unsigned char *efi_loadopt_desc(const uint8_t *opt, ssize_t limit);
int efi_loadopt_optional_data(uint8_t *opt, size_t size, unsigned char **data, size_t *length);
ssize_t efi_loadopt_optional_data_size(uint8_t *opt, size_t size);
ssize_t efi_loadopt_args_as_ucs2(uint16_t *buf, ssize_t size, const uint8_t *utf8);
ssize_t efi_loadopt_create(uint8_t *buf, ssize_t size, uint32_t attributes, const uint8_t *dp, ssize_t dp_size,
                           const unsigned char *description, const uint8_t *optional, size_t optional_size);

static int wrong;
static size_t entry, options, malformed, paths, read_back, other_bytes, separator_added, not_read, nodes, made_again, not_made;

#define HOLDS(condition) \
    do { \
        if (!(condition) && ++wrong < 20) \
            printf("WRONG: entry %zu: %s, line %d\n", entry, #condition, __LINE__); \
    } while (0)

static uint8_t *copy(const uint8_t *bytes, size_t count)
{
    uint8_t *made = malloc(count ? count : 1);
    memcpy(made, bytes, count);
    return made;
}

/* How many bytes a path has, which is known to be one. */
static size_t size_of(const uint8_t *path)
{
    size_t at = 0;
    while (path[at] != 0x7f || path[at + 1] != 0xff)
        at += path[at + 2] | path[at + 3] << 8;
    return at + 4;
}

/* The text, after buffers of each size up to its own behave as those of snprintf. */
static char *text_of(const uint8_t *path, ssize_t limit)
{
    ssize_t length = efidp_format_device_path(NULL, 0, path, limit);
    if (length < 0)
        return NULL;
    char *text = malloc((size_t)length + 1);
    HOLDS(efidp_format_device_path(text, (size_t)length + 1, path, limit) == length && strlen(text) == (size_t)length);
    for (ssize_t room = 1; room <= length; room += 1 + length / 3) {
        char *part = malloc((size_t)room);
        HOLDS(efidp_format_device_path(part, (size_t)room, path, limit) == length);
        HOLDS(strlen(part) == (size_t)room - 1 && memcmp(part, text, (size_t)room - 1) == 0);
        free(part);
    }
    return text;
}

static void try_reader(const char *text, const uint8_t *path, size_t size)
{
    ssize_t length = efidp_parse_device_path(text, NULL, 0);
    if (length < 0) {
        HOLDS(errno == EINVAL);
        not_read++;
        return;
    }
    uint8_t *made = malloc((size_t)length), *one = malloc((size_t)length);
    HOLDS(efidp_parse_device_path(text, made, (size_t)length) == length && size_of(made) == (size_t)length);
    char *again = text_of(made, length);
    if ((size_t)length == size && memcmp(made, path, size) == 0)
        read_back++;
    else if (again && strcmp(again, text) == 0)
        other_bytes++;
    else
        separator_added++;
    /* A name that begins with no backslash gets one. */
    HOLDS(again && (strcmp(again, text) == 0 || (strstr(text, "File(") && strlen(text) < strlen(again))));
    free(again);
    HOLDS(efidp_parse_device_path(text, made, (size_t)length - 1) == -1 && errno == ENOSPC);
    ssize_t node = efidp_parse_device_node(text, NULL, 0);
    if (0 < node) {
        nodes++;
        HOLDS(node == length - 4 && efidp_parse_device_node(text, one, (size_t)node) == node && memcmp(one, made, (size_t)node) == 0);
        HOLDS(efidp_parse_device_node(text, one, (size_t)node - 1) == -1 && errno == ENOSPC);
    }
    free(made);
    free(one);
}

static void try_path(const uint8_t *path, size_t size)
{
    uint8_t *given = copy(path, size), *made = NULL, *node;
    char *text = text_of(given, (ssize_t)size), *same = text_of(given, -1);
    size_t first = given[2] | given[3] << 8;
    paths++;
    HOLDS(text && same && strcmp(text, same) == 0);
    if (text)
        try_reader(text, given, size);
    HOLDS(efidp_duplicate_path(given, &made) == 0 && memcmp(made, given, size) == 0);
    free(made);
    HOLDS(efidp_append_path(given, given, &made) == 0 && size_of(made) == 2 * size - 4 && memcmp(made + size - 4, given, size) == 0);
    free(made);
    HOLDS(efidp_append_path(NULL, given, &made) == 0 && size_of(made) == size && memcmp(made, given, size) == 0);
    free(made);
    HOLDS(efidp_append_instance(given, given, &made) == 0 && size_of(made) == 2 * size && memcmp(made + size, given, size) == 0);
    HOLDS(memcmp(made + size - 4, "\x7f\1\4", 4) == 0);
    free(made);
    node = copy(given, first);
    if (efidp_append_node(given, node, &made) == 0) {
        HOLDS(size_of(made) == size + first && memcmp(made + size - 4, given, first) == 0);
        free(made);
    } else {
        HOLDS(node[0] == 0x7f);
    }
    free(node);
    free(given);
    free(text);
    free(same);
}

/* The load option of the parts is the one that they are of, if it has one path, and a description without a surrogate, U+FFFD or an escape. */
static void try_create(const uint8_t *given, size_t size, const uint8_t *path, size_t list, const unsigned char *text,
                       const uint8_t *data, size_t count)
{
    uint32_t attributes = efi_loadopt_attrs(given);
    ssize_t length = efi_loadopt_create(NULL, 0, attributes, NULL, (ssize_t)list, text, NULL, count);
    uint8_t *made = malloc(size);
    if (length < 0 || strstr((const char *)text, "\xef\xbf\xbd") || strstr((const char *)text, "\\u{")
        || efi_loadopt_create(made, (ssize_t)size, attributes, path, (ssize_t)list, text, data, count) < 0) {
        not_made++;
    } else {
        HOLDS((size_t)length == size && memcmp(made, given, size) == 0);
        HOLDS(efi_loadopt_create(made, length - 1, attributes, path, (ssize_t)list, text, data, count) == -1 && errno == ENOSPC);
        made_again++;
    }
    free(made);
}

static void try_option(const uint8_t *bytes, size_t size)
{
    uint8_t *given = copy(bytes, size), *data = NULL;
    size_t count = 0;
    const uint8_t *path = efi_loadopt_path(given, (ssize_t)size);
    size_t list = efi_loadopt_pathlen(given, (ssize_t)size);
    options++;
    HOLDS(!!path == !!efi_loadopt_is_valid(given, size) && !!path == !!list);
    HOLDS(efi_loadopt_optional_data(given, size, &data, &count) == 0 && given <= data && data + count == given + size);
    HOLDS(efi_loadopt_optional_data_size(given, size) == (path ? (ssize_t)count : -1));
    HOLDS(efi_loadopt_path(given, -1) == NULL && efi_loadopt_desc(given, -1) == NULL);
    const unsigned char *text = efi_loadopt_desc(given, (ssize_t)size);
    HOLDS(text != NULL);
    if (path) {
        try_path(path, size_of(path));
        try_create(given, size, path, list, efi_loadopt_desc(given, (ssize_t)size), data, count);
    } else {
        char *why = text_of(NULL, 0);
        HOLDS(why && strncmp(why, "<malformed at offset ", 21) == 0);
        free(why);
        malformed++;
    }
    if (4 <= size) {
        efi_loadopt_attr_set(given, 0x8101);
        HOLDS((efi_loadopt_attrs(given) & 0x8101) == 0x8101 && memcmp(given + 4, bytes + 4, size - 4) == 0);
        efi_loadopt_attr_clear(given, 0x8101);
        HOLDS((efi_loadopt_attrs(given) & 0x8101) == 0 && (given[2] | given[3] << 8) == (bytes[2] | bytes[3] << 8));
    }
    free(given);
}

/* A call that builds a path fails if one of its paths is malformed. */
static void try_malformed(void)
{
    static const uint8_t sound[] = {1, 1, 6, 0, 0, 1, 0x7f, 0xff, 4, 0};
    static const uint8_t rows[][4] = {{1, 1, 3, 0}, {1, 1, 0, 0}, {0x7f, 2, 4, 0}, {0x7f, 0xff, 5, 0}};
    for (size_t i = 0; i < sizeof rows / sizeof rows[0]; i++) {
        uint8_t *given = copy(rows[i], 4), *made = NULL;
        errno = 0;
        HOLDS(efidp_duplicate_path(given, &made) == -1 && errno == EINVAL);
        errno = 0;
        HOLDS(efidp_append_path(given, sound, &made) == -1 && errno == EINVAL);
        HOLDS(efidp_append_path(sound, given, &made) == -1 && efidp_append_path(given, given, &made) == -1);
        HOLDS(efidp_append_path(given, NULL, &made) == -1 && efidp_append_path(NULL, given, &made) == -1);
        HOLDS(efidp_append_instance(given, sound, &made) == -1 && efidp_append_instance(sound, given, &made) == -1);
        errno = 0;
        HOLDS(efidp_append_node(given, sound, &made) == -1 && errno == EINVAL && efidp_append_node(given, NULL, &made) == -1);
        HOLDS(made == NULL && efidp_format_device_path(NULL, 0, given, -1) == -1);
        free(given);
    }
}

int main(int words, char **word)
{
    uint8_t head[4];
    FILE *file = words == 2 ? fopen(word[1], "rb") : NULL;
    if (!file)
        return 2;
    for (; fread(head, 1, 4, file) == 4; entry++) {
        size_t size = head[0] | head[1] << 8 | head[2] << 16 | (size_t)head[3] << 24;
        uint8_t *bytes = malloc(size + 1);
        HOLDS(fread(bytes, 1, size, file) == size);
        try_option(bytes, size);
        free(bytes);
    }
    fclose(file);
    try_malformed();
    uint16_t units[4] = {9, 9, 9, 9};
    HOLDS(efi_loadopt_args_as_ucs2(NULL, 0, (const uint8_t *)"a\xc3\xbc") == 4);
    HOLDS(efi_loadopt_args_as_ucs2(units, 4, (const uint8_t *)"a\xc3\xbc") == 4 && units[0] == 'a' && units[1] == 0xfc && units[2] == 9);
    HOLDS(efi_loadopt_args_as_ucs2(units, 3, (const uint8_t *)"a\xc3\xbc") == -1 && errno == ENOSPC);
    HOLDS(efi_loadopt_args_as_ucs2(units, 8, (const uint8_t *)"\xff") == -1 && errno == EINVAL);
    HOLDS(efidp_parse_device_path("nonsense(", NULL, 0) == -1 && errno == EINVAL);
    HOLDS(efidp_parse_device_path("", NULL, 0) == 4 && efidp_parse_device_node("", NULL, 0) == -1);
    HOLDS(efidp_format_device_path(NULL, 0, head, 3) == -1 && errno == EINVAL);
    printf("calls: %zu load options, %zu malformed; of the texts of %zu paths %zu are read as the same bytes, %zu as others of the same "
           "text, %zu with a backslash more, %zu not; %zu nodes read; %zu options made again, %zu not\n",
           options, malformed, paths, read_back, other_bytes, separator_added, not_read, nodes, made_again, not_made);
    return wrong || !malformed || !read_back || !made_again || !nodes;
}
