/*
 * Compares the library's results for names without case, patterns and names on FAT volumes with the firmware's results: those of
 * its Unicode collation for English (UEFI Specification 2.10, section 21.1), and of its file system, on the disk from which it
 * started this program. Prints the number of comparisons, and the number of differences by their reasons in docs/FROM_EDK2.md.
 * Prints each difference without a known reason. At the end it prints how long a pattern of many stars takes in each.
 */
#include <efi.h>

#include "lines.h"

enum { PAIRS = 100000, PATTERNS = 100000, CONVERSIONS = 10000, MOST = 8, MOST_NAME = 260, MOST_SHOWN = 5 };

static EFI_SYSTEM_TABLE *table;
static EFI_BOOT_SERVICES *services;
static EFI_UNICODE_COLLATION_PROTOCOL *firmware;
static size_t shown;

void lines_put_unit(uint16_t unit)
{
    CHAR16 text[2] = {unit, 0}, line_end[3] = {'\r', '\n', 0};
    table->ConOut->OutputString(table->ConOut, unit == '\n' ? line_end : text);
}

enum lines_found lines_look(const struct reader *reader, const uint16_t *normal)
{
    (void)reader;
    (void)normal;
    return LINES_UNKNOWN;
}

/* A number below `end`, the next of a fixed sequence. */
static size_t next_number(size_t end)
{
    static uint64_t state = 20261126;
    state = state * 6364136223846793005 + 1442695040888963407;
    return (size_t)(state >> 33) % end;
}

static size_t length_of(const uint16_t *text)
{
    size_t length = 0;
    while (text[length] != 0)
        length++;
    return length;
}

/* A text of at most MOST units of a string of units, with a NUL after it. */
static void make_text(uint16_t *text, const uint16_t *units)
{
    size_t length = next_number(MOST + 1), count = length_of(units);
    for (size_t i = 0; i < length; i++)
        text[i] = units[next_number(count)];
    for (size_t i = length; i <= MOST; i++)
        text[i] = 0;
}

/*
 * Converts a text as tables of signed bytes do: a unit from U+0080 to U+00FF becomes one from U+FF80 to U+FFFF. All other
 * units are unchanged.
 */
static void make_signed(uint16_t *to, const uint16_t *text)
{
    size_t length = length_of(text);
    for (size_t i = 0; i <= length; i++)
        to[i] = text[i];
    nard_string_make_uppercase(to, length);
    for (size_t i = 0; i < length; i++)
        to[i] = 0x80 <= text[i] && text[i] <= 0xff ? (uint16_t)(to[i] | 0xff00) : text[i];
}

/* The number of comparisons, and the number of differences by each reason. */
struct counts {
    size_t compared, by_sign, by_open_set, by_separator, otherwise;
};

static void put_count(const char *before, size_t count, const char *after)
{
    lines_put(before);
    lines_put_number(count);
    lines_put(after);
}

static void put_counts(const char *what, const struct counts *counts)
{
    lines_put(what);
    put_count(": ", counts->compared, " compared");
    put_count(", ", counts->by_sign, " differ by a sign");
    put_count(", ", counts->by_open_set, " by a set without an end");
    put_count(", ", counts->by_separator, " by a separator");
    put_count(", ", counts->otherwise, " otherwise\n");
}

/* Counts a difference that has no reason, and prints the texts of the first ones. */
static void put_difference(struct counts *counts, const uint16_t *first, const uint16_t *second)
{
    counts->otherwise++;
    if (MOST_SHOWN <= shown++)
        return;
    lines_put("differs: '");
    lines_put_units(first, length_of(first));
    lines_put("' and '");
    lines_put_units(second, length_of(second));
    lines_put("'\n");
}

/* Counts a comparison: what the firmware says, what the library does, and what it does of the signed texts. */
static void count(struct counts *counts, int theirs, int ours, int ours_signed, bool is_open, const uint16_t *first, const uint16_t *second)
{
    counts->compared++;
    if (theirs == ours)
        return;
    if (theirs == ours_signed)
        counts->by_sign++;
    else if (is_open)
        counts->by_open_set++;
    else
        put_difference(counts, first, second);
}

/* Each unit by itself. A surrogate, which no string holds, has no case to the firmware either. */
static void compare_cases(bool is_upper)
{
    struct counts counts = {0};
    for (uint32_t unit = 0; unit <= 0xffff; unit++) {
        uint16_t ours[2] = {(uint16_t)unit, 0}, theirs[2] = {(uint16_t)unit, 0}, as_signed[2] = {0, 0};
        if (is_upper)
            nard_string_make_uppercase(ours, 1);
        else
            nard_string_make_lowercase(ours, 1);
        (is_upper ? firmware->StrUpr : firmware->StrLwr)(firmware, theirs);
        as_signed[0] = 0x80 <= unit && unit <= 0xff ? (uint16_t)(ours[0] | 0xff00) : ours[0];
        count(&counts, theirs[0], ours[0], as_signed[0], false, ours, theirs);
    }
    put_counts(is_upper ? "upper" : "lower", &counts);
}

static int sign_of(INTN order)
{
    return order < 0 ? -1 : order > 0;
}

/* Pairs of texts of few letters, so that many begin alike. */
static void compare_pairs(void)
{
    static const uint16_t units[] = {'a', 'A', 'a', 'A', 'b', '_', 'z', 'Z', '[', 0xe9, 0xc9, 0xf7, 0xff, 0x100, 0xffc9, 0};
    struct counts counts = {0};
    for (size_t i = 0; i < PAIRS; i++) {
        uint16_t first[MOST + 1], second[MOST + 1], first_signed[MOST + 1], second_signed[MOST + 1];
        make_text(first, units);
        make_text(second, units);
        make_signed(first_signed, first);
        make_signed(second_signed, second);
        int ours = nard_string_compare_ignore_case(first, MOST + 1, second, MOST + 1);
        int ours_signed = nard_string_compare_ignore_case(first_signed, MOST + 1, second_signed, MOST + 1);
        count(&counts, sign_of(firmware->StriColl(firmware, first, second)), ours, ours_signed, false, first, second);
    }
    put_counts("pairs", &counts);
}

/*
 * Changes a pattern with a `[` and no `]` after it into the pattern that the firmware matches: the firmware matches any unit
 * there, and continues after the pattern's NUL, which here is followed by another NUL. Returns false if no `[` lacks its `]`.
 */
static bool close_set(uint16_t *pattern)
{
    uint16_t *open = NULL;
    for (; *pattern != 0; pattern++)
        if (*pattern == ']')
            open = NULL;
        else if (*pattern == '[' && open == NULL)
            open = pattern;
    if (open == NULL)
        return false;
    open[0] = '?';
    open[1] = 0;
    return true;
}

/* Patterns of few letters, many of them malformed. The NUL of a pattern is followed by more NULs. */
static void compare_patterns(void)
{
    static const uint16_t units[] = {'a', 'B', 'b', 'c', '-', ']', '[', 0xe9, 0xc9, 0xffc9, '*', '?', 0};
    static const uint16_t letters[] = {'a', 'A', 'b', 'B', 'c', '-', ']', '[', '*', 0xe9, 0xc9, 0xffc9, 0};
    static const uint16_t parts[][6] = {{'*', 0}, {'?', 0}, {'[', 'a', '-', 'c', ']', 0}, {'[', 'b', 0xe9, ']', 0}, {'a', 0}, {'[', '-', 'b', ']', 0}};
    struct counts counts = {0};
    size_t matched = 0;
    for (size_t i = 0; i < PATTERNS; i++) {
        uint16_t text[MOST + 1], pattern[3 * MOST] = {0}, text_signed[MOST + 1], pattern_signed[3 * MOST] = {0};
        make_text(text, letters);
        if (i % 2 == 0)
            make_text(pattern, units);
        else
            for (size_t part = next_number(4) + 1, at = 0; part != 0; part--)
                for (const uint16_t *from = parts[next_number(6)]; *from != 0; from++)
                    pattern[at++] = *from;
        make_signed(text_signed, text);
        make_signed(pattern_signed, pattern);
        bool ours = nard_string_matches(text, MOST + 1, pattern, 3 * MOST);
        bool ours_signed = nard_string_matches(text_signed, MOST + 1, pattern_signed, 3 * MOST);
        bool theirs = firmware->MetaiMatch(firmware, text, pattern) != FALSE, is_open = false;
        matched += theirs;
        if (close_set(pattern_signed) && close_set(pattern))
            is_open = theirs && (nard_string_matches(text, MOST + 1, pattern, 3 * MOST) ||
                                 nard_string_matches(text_signed, MOST + 1, pattern_signed, 3 * MOST));
        count(&counts, theirs, ours, ours_signed, is_open, text, pattern);
    }
    put_counts("patterns", &counts);
    put_count("patterns that match: ", matched, "\n");
}

/* The firmware keeps a separator, which no short name holds; elsewhere the library's byte is asked for in its place. */
static void compare_bytes_of_names(void)
{
    static const uint16_t units[] = {'a', 'Z', '0', '~', '+', ' ', '.', '\\', 0xe9, 0xc9, 0xd7, 0xdf, 0xff, 0x80, 0x100, 0xffc9, ':', '\'', '`', 0};
    struct counts counts = {0};
    for (size_t i = 0; i < CONVERSIONS; i++) {
        uint16_t text[MOST + 1], other[MOST + 1];
        uint8_t ours[MOST] = {0}, theirs[MOST] = {0};
        size_t size = next_number(MOST + 1);
        bool is_kept = false, is_same = true, is_replaced;
        make_text(text, units);
        for (size_t k = 0; k <= MOST; k++) {
            other[k] = text[k] == '\\' ? '~' : text[k];
            is_kept = is_kept || text[k] == '\\';
        }
        is_replaced = firmware->StrToFat(firmware, text, size, (CHAR8 *)theirs) != FALSE;
        counts.compared++;
        is_same = (nard_fat_from_string(text, MOST + 1, ours, size, NULL) == NARD_CHAR_REPLACED) == is_replaced;
        for (size_t k = 0; k < MOST; k++)
            is_same = is_same && ours[k] == theirs[k];
        if (is_same)
            continue;
        for (size_t k = 0; k < MOST; k++)
            ours[k] = 0;
        is_same = is_kept && (nard_fat_from_string(other, MOST + 1, ours, size, NULL) == NARD_CHAR_REPLACED) == is_replaced;
        for (size_t k = 0; k < MOST; k++)
            is_same = is_same && (ours[k] == theirs[k] || (ours[k] == '~' && theirs[k] == '\\'));
        if (is_same)
            counts.by_separator++;
        else
            put_difference(&counts, text, other);
    }
    put_counts("bytes of names", &counts);
}

static void compare_names_of_bytes(void)
{
    static const uint8_t bytes[] = {'A', '1', ' ', '.', '_', 0x80, 0xc9, 0xff, 0};
    struct counts counts = {0};
    for (size_t i = 0; i < CONVERSIONS; i++) {
        uint8_t name[MOST];
        uint16_t ours[MOST + 1] = {0}, theirs[MOST + 1] = {0}, as_signed[MOST + 1] = {0};
        size_t size = next_number(MOST + 1);
        bool is_same = true, is_signed = true;
        for (size_t k = 0; k < MOST; k++)
            name[k] = bytes[next_number(sizeof bytes)];
        if (nard_string_from_fat(name, size, ours, MOST + 1, NULL) != NARD_OK)
            ours[0] = 0xffff;
        firmware->FatToStr(firmware, size, (CHAR8 *)name, theirs);
        for (size_t k = 0; k <= MOST; k++) {
            as_signed[k] = 0x80 <= ours[k] ? (uint16_t)(ours[k] | 0xff00) : ours[k];
            is_same = is_same && ours[k] == theirs[k];
            is_signed = is_signed && as_signed[k] == theirs[k];
        }
        count(&counts, 0, !is_same, is_signed ? 0 : 1, false, ours, theirs);
    }
    put_counts("names of bytes", &counts);
}

/* The folder at the root of the disk that the firmware started this program from. */
static EFI_FILE_HANDLE open_root(EFI_HANDLE image)
{
    static EFI_GUID loaded = EFI_LOADED_IMAGE_PROTOCOL_GUID, system = EFI_SIMPLE_FILE_SYSTEM_PROTOCOL_GUID;
    void *own = NULL, *volume = NULL;
    EFI_FILE_HANDLE root = NULL;
    if (services->HandleProtocol(image, &loaded, &own) != EFI_SUCCESS)
        return NULL;
    if (services->HandleProtocol(((EFI_LOADED_IMAGE *)own)->DeviceHandle, &system, &volume) != EFI_SUCCESS)
        return NULL;
    EFI_SIMPLE_FILE_SYSTEM_PROTOCOL *files = volume;
    return files->OpenVolume(files, &root) == EFI_SUCCESS ? root : NULL;
}

static const uint16_t *const names[] = {
    u"boot", u"BOOT", u"Boot.", u" boot", u"boot .. ", u"boot.efi", u"BOOT.EFI", u"boot.ef", u".boot", u"..boot", u"boot+",
    u"a long name.text", u" A Long Name.TEXT. ", u"a long name", u"\u00c9", u"\u00e9", u"\uffc9", u"\u00d7", u"\u00f7", u"\u0100", u"\u0101",
    u"a:b", u"a*b", u"a?b", u"a\"b", u"a<b", u"a>b", u"a|b", u"a/b", u"a\x1f", u"a\x7f", u"...", u" . ", u" ", u"[=;,+]",
};

enum { NAMES = sizeof names / sizeof names[0] };

static EFI_STATUS open_file(EFI_FILE_HANDLE root, EFI_FILE_HANDLE *file, const uint16_t *name, bool is_new)
{
    UINT64 mode = EFI_FILE_MODE_READ | (is_new ? EFI_FILE_MODE_WRITE | EFI_FILE_MODE_CREATE : 0);
    return root->Open(root, file, (CHAR16 *)name, mode, 0);
}

/* A name of `length` units, and whether a file is made with it exactly where the library says so. */
static void try_name(struct counts *counts, EFI_FILE_HANDLE root, const uint16_t *name)
{
    EFI_FILE_HANDLE file = NULL;
    bool ours = nard_fat_name_check(name, length_of(name) + 1, NULL, NULL, NULL) == NARD_OK;
    bool theirs = open_file(root, &file, name, true) == EFI_SUCCESS;
    if (theirs)
        file->Delete(file);
    count(counts, theirs, ours, ours, false, name, name);
}

/* Makes a file with each name, and opens each other name while it is there. */
static void compare_files(EFI_FILE_HANDLE root)
{
    struct counts counts = {0}, name_counts = {0};
    static uint16_t long_name[MOST_NAME];
    size_t same = 0;
    for (size_t i = 0; i < NAMES; i++) {
        EFI_FILE_HANDLE file = NULL, other = NULL;
        try_name(&name_counts, root, names[i]);
        if (open_file(root, &file, names[i], true) != EFI_SUCCESS)
            continue;
        for (size_t k = 0; k < NAMES; k++) {
            uint16_t first[MOST_NAME], second[MOST_NAME];
            size_t length = length_of(names[i]) + 1, other_length = length_of(names[k]) + 1;
            bool theirs = open_file(root, &other, names[k], false) == EFI_SUCCESS;
            if (theirs)
                other->Close(other);
            make_signed(first, names[i]);
            make_signed(second, names[k]);
            bool ours = nard_fat_name_equal(names[i], length, names[k], other_length);
            same += theirs;
            count(&counts, theirs, ours, nard_fat_name_equal(first, length, second, other_length), false, names[i], names[k]);
        }
        file->Delete(file);
    }
    for (size_t length = 254; length <= 256; length++) {
        for (size_t i = 0; i < length; i++)
            long_name[i] = 'a';
        long_name[length] = 0;
        try_name(&name_counts, root, long_name);
    }
    put_counts("names", &name_counts);
    put_counts("files", &counts);
    put_count("files that are the same: ", same, "\n");
}

#if defined(__x86_64__)
static uint64_t ticks(void)
{
    return __builtin_ia32_rdtsc();
}
#else
static uint64_t ticks(void)
{
    uint64_t now;
    __asm__ volatile("mrs %0, cntvct_el0" : "=r"(now));
    return now;
}
#endif

/* Matches a pattern, `*a` for each star, against `letters` times `a` and a `b`, which it does not match; prints how long that takes. */
static void time_stars(const char *who, size_t stars, size_t letters, bool is_ours)
{
    static uint16_t pattern[64], text[257];
    for (size_t i = 0; i < 2 * stars; i++)
        pattern[i] = i % 2 == 0 ? '*' : 'a';
    pattern[2 * stars] = 0;
    for (size_t i = 0; i < letters; i++)
        text[i] = 'a';
    text[letters] = 'b';
    text[letters + 1] = 0;
    uint64_t before = ticks();
    services->Stall(10000);
    uint64_t per_ten_ms = ticks() - before + 1;
    before = ticks();
    bool matches = is_ours ? nard_string_matches(text, letters + 2, pattern, 2 * stars + 1)
                           : firmware->MetaiMatch(firmware, text, pattern) != FALSE;
    uint64_t took = ticks() - before;
    lines_put(who);
    put_count(": ", stars, " stars");
    put_count(", ", letters, " letters");
    put_count(", ", (size_t)(took * 10000 / per_ten_ms), matches ? " us, matches\n" : " us\n");
}

/* Finds the collation that has English. */
static bool find_collation(void)
{
    static EFI_GUID collation = {0xa4c751fc, 0x23ae, 0x4c3e, {0x92, 0xe9, 0x49, 0x64, 0xcf, 0x63, 0xf3, 0x49}};
    EFI_HANDLE *handles = NULL;
    UINTN many = 0;
    if (services->LocateHandleBuffer(ByProtocol, &collation, NULL, &many, &handles) != EFI_SUCCESS)
        return false;
    for (UINTN i = 0; i < many && firmware == NULL; i++) {
        void *found = NULL;
        if (services->HandleProtocol(handles[i], &collation, &found) != EFI_SUCCESS)
            continue;
        EFI_UNICODE_COLLATION_PROTOCOL *one = found;
        if (one->SupportedLanguages[0] == 'e' && one->SupportedLanguages[1] == 'n')
            firmware = one;
    }
    return firmware != NULL;
}

EFI_STATUS efi_main(EFI_HANDLE handle, EFI_SYSTEM_TABLE *system_table)
{
    table = system_table;
    services = table->BootServices;
    services->SetWatchdogTimer(0, 0, 0, NULL);
    lines_put("\ncollation\n");
    if (!find_collation())
        return EFI_UNSUPPORTED;
    compare_cases(true);
    compare_cases(false);
    compare_pairs();
    compare_patterns();
    compare_bytes_of_names();
    compare_names_of_bytes();
    EFI_FILE_HANDLE root = open_root(handle);
    if (root == NULL)
        return EFI_NOT_FOUND;
    compare_files(root);
    time_stars("ours", 30, 255, true);
    for (size_t stars = 2; stars <= 5; stars++)
        time_stars("firmware", stars, 60, false);
    lines_put("collation ends\n");
    return EFI_SUCCESS;
}
