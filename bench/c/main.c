/* Times calls of the C library beside EDK II's code and plain loops: both sides in turns, and of each the least of many rounds. */
#define _GNU_SOURCE
#include <dlfcn.h>
#include <stdint.h>
#include <stdio.h>
#include <stdlib.h>
#include <string.h>
#include <time.h>

#include <nardcorbel.h>

typedef __attribute__((ms_abi)) void *from_text(const uint16_t *text);
typedef __attribute__((ms_abi)) uint16_t *to_text(const void *path, uint8_t display_only, uint8_t allow_shortcuts);

static from_text *edk2_from_text;
static to_text *edk2_to_text;
static void (*edk2_forget)(void);

/* The input of the call that is timed. */
static char text[4096];
static uint16_t wide[4096], other[4096], pattern[64];
static size_t count, pattern_count, path_size, size;
static uint8_t path[16384];
static uint16_t room[16384];
static volatile size_t kept;

/* Reads the text in a style, and in one encoding, to a path. */
static void our_typed(void) { kept += nard_device_path_parse(text, count, NARD_STYLE_TYPED, path, sizeof path, &size, NULL); }
static void our_exact(void) { kept += nard_device_path_parse(text, count, NARD_STYLE_UEFI, path, sizeof path, &size, NULL); }

static void our_typed_utf16(void)
{
    kept += nard_device_path_parse_utf16(wide, count, NARD_STYLE_TYPED, path, sizeof path, &size, NULL);
}

static void our_exact_utf16(void)
{
    kept += nard_device_path_parse_utf16(wide, count, NARD_STYLE_UEFI, path, sizeof path, &size, NULL);
}

static void their_reader(void)
{
    edk2_forget();
    kept += (size_t)edk2_from_text(wide);
}

static void our_printer(void)
{
    kept += nard_device_path_format_utf16(path, path_size, NARD_STYLE_UEFI, room, sizeof room / sizeof *room, &size, NULL);
}

static void their_printer(void)
{
    edk2_forget();
    kept += (size_t)edk2_to_text(path, 0, 0);
}

static void our_equal(void) { kept += nard_string_equal_ignore_case(wide, count, other, count); }

static uint16_t upper(uint16_t unit)
{
    int small = (unit >= 'a' && unit <= 'z') || (unit >= 0xe0 && unit <= 0xfe && unit != 0xf7);
    return (uint16_t)(small ? unit - 32 : unit);
}

__attribute__((noinline)) static int plain_equal(const uint16_t *one, const uint16_t *two, size_t n)
{
    for (size_t i = 0; i < n; i++)
        if (upper(one[i]) != upper(two[i]))
            return 0;
    return 1;
}

static void their_equal(void) { kept += (size_t)plain_equal(wide, other, count); }

static void our_match(void) { kept += nard_string_matches(wide, count, pattern, pattern_count); }

/* A greedy matcher of `*` and `?`, without sets. */
__attribute__((noinline)) static int plain_match(const uint16_t *units, size_t n, const uint16_t *with, size_t m)
{
    size_t i = 0, at = 0, star = SIZE_MAX, tried = 0;
    while (i < n) {
        if (at < m && with[at] == '*') {
            star = ++at;
            tried = i;
        } else if (at < m && (with[at] == '?' || upper(with[at]) == upper(units[i]))) {
            at++;
            i++;
        } else if (star != SIZE_MAX) {
            at = star;
            i = ++tried;
        } else {
            return 0;
        }
    }
    while (at < m && with[at] == '*')
        at++;
    return at == m;
}

static void their_match(void) { kept += (size_t)plain_match(wide, count, pattern, pattern_count); }

static double nanoseconds(void (*of)(void), size_t rounds)
{
    struct timespec from, to;
    clock_gettime(CLOCK_MONOTONIC, &from);
    for (size_t i = 0; i < rounds; i++)
        of();
    clock_gettime(CLOCK_MONOTONIC, &to);
    return ((double)(to.tv_sec - from.tv_sec) * 1e9 + (double)(to.tv_nsec - from.tv_nsec)) / (double)rounds;
}

static void compare(const char *what, void (*ours)(void), void (*theirs)(void))
{
    double best[2] = {1e18, 1e18};
    size_t rounds = (size_t)(2e5 / (nanoseconds(theirs, 3) + 1)) + 1;
    for (int i = 0; i < 60; i++)
        for (int side = 0; side < 2; side++) {
            double time = nanoseconds(side ? theirs : ours, rounds);
            best[side] = time < best[side] ? time : best[side];
        }
    printf("%-44s %9.1f %9.1f %7.2f\n", what, best[0], best[1], best[0] / best[1]);
}

static void set_text(const char *of)
{
    count = strlen(of);
    memcpy(text, of, count + 1);
    for (size_t i = 0; i <= count; i++)
        wide[i] = (uint8_t)of[i];
}

/* Times a text that is read, and the path that is printed as this text. */
static void texts(const char *name, const char *of)
{
    char what[64];
    set_text(of);
    our_typed();
    path_size = size;
    edk2_forget();
    if (memcmp(path, edk2_from_text(wide), path_size)) {
        printf("%s: the answers differ\n", name);
        exit(1);
    }
    snprintf(what, sizeof what, "%s read leniently", name);
    compare(what, our_typed, their_reader);
    snprintf(what, sizeof what, "%s read strictly", name);
    compare(what, our_exact, their_reader);
    snprintf(what, sizeof what, "%s read leniently, UTF-16", name);
    compare(what, our_typed_utf16, their_reader);
    snprintf(what, sizeof what, "%s read strictly, UTF-16", name);
    compare(what, our_exact_utf16, their_reader);
    snprintf(what, sizeof what, "%s printed", name);
    compare(what, our_printer, their_printer);
}

/* Times text as people type it, compared with EDK II reading the printed text of the same path. */
static void written(const char *name, const char *of, const char *printed)
{
    uint8_t paths[2][256];
    size_t sizes[2];
    for (int i = 0; i < 2; i++) {
        set_text(i ? printed : of);
        our_typed();
        sizes[i] = size;
        memcpy(paths[i], path, sizeof paths[i]);
    }
    if (sizes[0] != sizes[1] || memcmp(paths[0], paths[1], sizes[0])) {
        printf("%s: the paths differ\n", name);
        exit(1);
    }
    count = strlen(of);
    memcpy(text, of, count);
    compare(name, our_typed, their_reader);
}

static void names(size_t length)
{
    char name[64], of[4096] = "\\";
    for (size_t i = 1; i < length; i++)
        of[i] = (char)('a' + i % 26);
    snprintf(name, sizeof name, "a name of %zu characters", length);
    texts(name, of);
}

static void cases(size_t length)
{
    const char *kinds[] = {"the same", "in another case", "of CJK"};
    char what[64];
    for (int kind = 0; kind < 3; kind++) {
        count = length;
        for (size_t i = 0; i < length; i++) {
            wide[i] = (uint16_t)(kind == 2 ? 0x4e00 + i % 100 : 'a' + i % 26);
            other[i] = (uint16_t)(kind == 1 ? wide[i] - 32 : wide[i]);
        }
        snprintf(what, sizeof what, "equal without case, %zu, %s", length, kinds[kind]);
        compare(what, our_equal, their_equal);
    }
}

static void matches(const char *of, const char *with)
{
    char what[64];
    set_text(of);
    pattern_count = strlen(with);
    for (size_t i = 0; i < pattern_count; i++)
        pattern[i] = (uint8_t)with[i];
    if (nard_string_matches(wide, count, pattern, pattern_count) != plain_match(wide, count, pattern, pattern_count)) {
        printf("%s: the answers differ\n", of);
        exit(1);
    }
    snprintf(what, sizeof what, "%s matched by %s", of, with);
    compare(what, our_match, their_match);
}

int main(int argc, char **argv)
{
    void *edk2 = argc == 2 ? dlopen(argv[1], RTLD_NOW) : NULL;
    if (!edk2)
        return 2;
    *(void **)&edk2_from_text = dlsym(edk2, "ConvertTextToDevicePath");
    *(void **)&edk2_to_text = dlsym(edk2, "ConvertDevicePathToText");
    *(void **)&edk2_forget = dlsym(edk2, "forget");
    printf("%-44s %9s %9s %7s\n", "nanoseconds of", "ours", "theirs", "ratio");
    texts("a boot entry", "PciRoot(0x0)/Pci(0x1F,0x2)/Sata(0x0,0xFFFF,0x0)"
        "/HD(1,GPT,76543210-BA98-FEDC-0102-030405060708,0x800,0x64000)/\\EFI\\BOOT\\BOOTX64.EFI");
    texts("two nodes", "PciRoot(0x0)/Pci(0x1F,0x2)");
    written("a boot entry as people type it", "pciroot(0)/pci(31, 2)/sata(0,65535,0)"
        "/hd(1,gpt,76543210-ba98-fedc-0102-030405060708,2048,409600)/\\EFI\\BOOT\\BOOTX64.EFI",
        "PciRoot(0x0)/Pci(0x1F,0x2)/Sata(0x0,0xFFFF,0x0)"
        "/HD(1,GPT,76543210-BA98-FEDC-0102-030405060708,0x800,0x64000)/\\EFI\\BOOT\\BOOTX64.EFI");
    names(27);
    names(200);
    names(2000);
    cases(8);
    cases(16);
    cases(64);
    cases(1024);
    matches("grubx64.efi", "*.efi");
    matches("grubx64.cfg", "*.efi");
    matches("BOOTX64.EFI", "boot*.efi");
    matches("shimx64.efi", "boot*.efi");
    return 0;
}
