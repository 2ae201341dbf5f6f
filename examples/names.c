/*
 * Compares names without case, and with patterns, and judges and converts names on FAT volumes, by each call of the library that
 * does so, and compares what comes back with what the UEFI Specification 2.10, sections 13.3 and 21.1, gives. Prints each row that differs, and ends with 1 where one does.
 */
#include <stdio.h>
#include <string.h>
#include <uchar.h>

#include "nardcorbel.h"

/* Units up to and with the NUL that the compiler puts after them. */
#define UNITS(text) (const nard_char16 *)(text), sizeof(text) / sizeof(nard_char16)

static int failed;

static void expect(bool is_so, const char *call, int line)
{
    if (!is_so) {
        printf("%s, line %d: WRONG\n", call, line);
        failed = 1;
    }
}

#define ORDER(first, second, order)                                                                                  \
    expect(nard_string_compare_ignore_case(UNITS(first), UNITS(second)) == (order), "order", __LINE__);                \
    expect(nard_string_equal_ignore_case(UNITS(first), UNITS(second)) == ((order) == 0), "equal", __LINE__)
#define MATCHES(text, pattern, is_so) expect(nard_string_matches(UNITS(text), UNITS(pattern)) == (is_so), "matches", __LINE__)
#define SAME_FILE(first, second, is_so)                                                                              \
    expect(nard_path_equal_ignore_case(UNITS(first), UNITS(second)) == (is_so), "paths equal", __LINE__)
#define PATH_MATCHES(path, pattern, is_so)                                                                           \
    expect(nard_path_matches(UNITS(path), UNITS(pattern)) == (is_so), "path matches", __LINE__)

#define FAT_NAME(name, status, illegal)                                                                              \
    do {                                                                                                             \
        size_t length = 9, fault = 9;                                                                                \
        nard_char16 character = 9;                                                                                   \
        expect(nard_fat_name_check(UNITS(name), &length, &fault, &character) == (status) && character == (illegal) && \
                   length == ((status) == NARD_OK ? sizeof(name) / sizeof(nard_char16) - 1 : 9) && fault == 9,       \
               "FAT name", __LINE__);                                                                                \
    } while (0)
#define SAME_NAME(first, second, is_so)                                                                              \
    expect(nard_fat_name_equal(UNITS(first), UNITS(second)) == (is_so), "FAT names equal", __LINE__)
#define SHORT(name, is_so) expect(nard_fat_name_is_short(UNITS(name)) == (is_so), "short name", __LINE__)

/* Returns whether a name becomes these bytes in a buffer of at most as many places, and the next byte is unchanged. */
static void to_fat(const nard_char16 *name, size_t count, size_t capacity, const char *bytes, nard_status status, int line)
{
    uint8_t buffer[16];
    size_t size = 99;
    memset(buffer, 7, sizeof buffer);
    bool is_so = nard_fat_from_string(name, count, buffer, capacity, &size) == status && size == strlen(bytes);
    expect(is_so && memcmp(buffer, bytes, size) == 0 && buffer[size] == 7, "bytes of a name", line);
}

/* Returns whether bytes become this text in a buffer of `room` places, and the next unit is unchanged. */
static void from_fat(const char *bytes, size_t count, size_t room, const nard_char16 *text, size_t length, int line)
{
    nard_char16 buffer[8] = {7, 7, 7, 7, 7, 7, 7, 7};
    size_t place = 99;
    nard_status reason = nard_string_from_fat((const uint8_t *)bytes, count, buffer, room, &place);
    if (room <= length)
        expect(reason == NARD_BUFFER_TOO_SMALL && place == length && buffer[0] == 7, "no room for a name", line);
    else
        expect(reason == NARD_OK && place == length && memcmp(buffer, text, 2 * length) == 0 && buffer[length] == 0 &&
                   buffer[length + 1] == 7,
               "name of bytes", line);
}

/* Returns whether a text becomes these two in upper case and in lower case, and the units after it are unchanged. */
static void in_cases(const nard_char16 *text, const nard_char16 *upper, const nard_char16 *lower, size_t length, int line)
{
    nard_char16 buffer[8] = {0, 0, 0, 0, 0, 0, 0, 7};
    memcpy(buffer, text, 2 * length);
    expect(nard_string_make_uppercase(buffer, 8) == length && memcmp(buffer, upper, 2 * length) == 0 && buffer[length] == 0 &&
               buffer[7] == 7,
           "upper case", line);
    expect(nard_string_make_lowercase(buffer, 8) == length && memcmp(buffer, lower, 2 * length) == 0 && buffer[length] == 0 &&
               buffer[7] == 7,
           "lower case", line);
}

int main(void)
{
    static const nard_char16 surrogate[] = {'a', 0xd800, 0}, endless[] = {'a'};

    ORDER(u"boot.efi", u"BOOT.EFI", 0);
    ORDER(u"", u"", 0);
    ORDER(u"", u"a", -1);
    ORDER(u"a", u"B", -1);
    ORDER(u"b", u"A", 1);
    ORDER(u"boot", u"BOOT.EFI", -1);
    ORDER(u"_", u"a", 1);
    ORDER(u"\u00e0\u00fe", u"\u00c0\u00de", 0);
    ORDER(u"\u00f7", u"\u00d7", 1);
    ORDER(u"\u00ff", u"\u0178", -1);
    expect(nard_string_compare_ignore_case(surrogate, 3, UNITS(u"a")) == 1, "order", __LINE__);
    expect(nard_string_compare_ignore_case(UNITS(u"a"), endless, 1) == 0, "order", __LINE__);
    expect(nard_string_equal_ignore_case(endless, 1, endless, 1), "equal", __LINE__);

    MATCHES(u"BOOTX64.EFI", u"*.efi", true);
    MATCHES(u"BOOTX64.EFI", u"boot???.efi", true);
    MATCHES(u"BOOTX64.EFI", u"boot??.efi", false);
    MATCHES(u"", u"*", true);
    MATCHES(u"", u"?", false);
    MATCHES(u"c", u"[a-d]", true);
    MATCHES(u"E", u"[a-d]", false);
    MATCHES(u"a*", u"a", false);
    expect(nard_string_matches(endless, 1, UNITS(u"*")), "matches", __LINE__);
    expect(!nard_string_matches(UNITS(u"a"), surrogate, 3), "matches", __LINE__);

    SAME_FILE(u"\\EFI\\boot", u"efi\\BOOT", true);
    SAME_FILE(u"\\\\EFI", u"\\efi", false);
    SAME_FILE(u"\\EFI\\boot", u"\\EFI\\boot\\", false);
    expect(nard_path_equal_ignore_case(surrogate, 3, surrogate, 3), "paths equal", __LINE__);

    PATH_MATCHES(u"\\EFI\\BOOT\\a.efi", u"efi\\*\\*.EFI", true);
    PATH_MATCHES(u"\\EFI\\BOOT\\a.efi", u"*.efi", false);
    PATH_MATCHES(u"\\EFI\\BOOT", u"\\efi\\*\\*", false);
    expect(!nard_path_matches(UNITS(u"a"), endless, 1), "no pattern matches a path", __LINE__);

    in_cases((const nard_char16 *)u"aZ\u00e9\u00ff", (const nard_char16 *)u"AZ\u00c9\u00ff", (const nard_char16 *)u"az\u00e9\u00ff", 4, __LINE__);
    nard_char16 half[] = {'a', 0xd800, 'b', 0, 'c'};
    expect(nard_string_make_uppercase(half, 5) == 3 && half[0] == 'A' && half[1] == 0xd800 && half[2] == 'B' && half[4] == 'c',
           "upper case", __LINE__);

    FAT_NAME(u" BOOTX64.EFI ", NARD_OK, 0);
    FAT_NAME(u"..", NARD_NAME_EMPTY, 0);
    FAT_NAME(u"a:b*c", NARD_ILLEGAL_CHAR, ':');
    nard_char16 long_name[258], character = 0;
    size_t fault = 0;
    for (int i = 0; i < 257; i++)
        long_name[i] = i == 0 ? '?' : 'a';
    long_name[257] = 0;
    expect(nard_fat_name_check(long_name, 258, NULL, NULL, &character) == NARD_NAME_TOO_LONG && character == 0, "long name", __LINE__);
    expect(nard_fat_name_check(surrogate, 3, NULL, &fault, NULL) == NARD_INVALID_CHAR && fault == 1, "no name", __LINE__);
    SAME_NAME(u"Boot. ", u" bOOT", true);
    SAME_NAME(u"boot.efi", u"boot", false);
    expect(!nard_fat_name_equal(endless, 1, endless, 1), "no names equal", __LINE__);
    SHORT(u"BOOTX64.EFI", true);
    SHORT(u"bootx64.efi", false);
    to_fat(UNITS(u"boot x64.efi"), 12, "BOOTX64EFI", NARD_OK, __LINE__);
    to_fat(UNITS(u"a+b"), 12, "A_B", NARD_CHAR_REPLACED, __LINE__);
    to_fat(UNITS(u"a+b"), 1, "A", NARD_OK, __LINE__);
    from_fat("BOOT", 4, 8, UNITS(u"BOOT") - 1, __LINE__);
    from_fat("BOOT", 4, 4, UNITS(u"BOOT") - 1, __LINE__);
    from_fat("A\0B", 3, 8, UNITS(u"A") - 1, __LINE__);
    return failed;
}
