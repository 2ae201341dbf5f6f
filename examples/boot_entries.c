/*
 * Prints the boot entries of this machine, as `efibootmgr -v` does: the numbers of the entry that is booted next, of the entry
 * that was booted, and of all entries in their order; and then for each entry whether it is active, its description, and the
 * text of the device path that it boots.
 *
 * usage: boot_entries [FOLDER]
 *
 * FOLDER has variables in the form of Linux: each is a file, named by the variable, a dash and the GUID of its owner, with four
 * bytes of attributes before the value. The default is /sys/firmware/efi/efivars.
 *
 * The library reads each length in an entry. For a malformed entry the program prints the reason and the offset of the fault. It
 * ends with 1 if an entry is malformed or cannot be read.
 */
#define _POSIX_C_SOURCE 200809L
#include <dirent.h>
#include <stdio.h>
#include <stdlib.h>
#include <string.h>

#include "nardcorbel.h"

/* The owner of the variables (UEFI Specification 2.10, section 3.3). */
#define GLOBAL "8be4df61-93ca-11d2-aa0d-00e098032b8c"

/* More than firmware keeps of one variable, and room for the text of a device path in it. */
enum { ATTRIBUTES = 4, MOST_BYTES = 65536, MOST_SHOWN = 4 * MOST_BYTES };

/* LOAD_OPTION_ACTIVE; and how long `Boot` and four digits are, and how many of them there are. */
enum { ACTIVE = 1, NAME = 8, MOST_ENTRIES = 65536 };

static uint8_t bytes[ATTRIBUTES + MOST_BYTES];
static char shown[MOST_SHOWN];

/* Reads a variable. Returns the number of bytes of its value, or -1 if it cannot be read or is too long. */
static long read_variable(const char *folder, const char *name)
{
    char path[4096];
    int length = snprintf(path, sizeof path, "%s/%s-%s", folder, name, GLOBAL);
    if (length < 0 || (int)sizeof path <= length)
        return -1;
    FILE *file = fopen(path, "rb");
    if (file == NULL)
        return -1;
    size_t size = fread(bytes, 1, sizeof bytes, file);
    bool is_whole = fgetc(file) == EOF && ferror(file) == 0;
    fclose(file);
    return is_whole && ATTRIBUTES <= size ? (long)(size - ATTRIBUTES) : -1;
}

/* Prints a variable that has numbers of entries, if it exists. */
static void print_numbers(const char *folder, const char *name)
{
    long size = read_variable(folder, name);
    if (size < 2)
        return;
    uint16_t number = 0;
    printf("%s:", name);
    for (size_t i = 0; nard_boot_order_read(bytes + ATTRIBUTES, (size_t)size / 2 * 2, i, &number) == NARD_OK; i++)
        printf("%c%04X", i == 0 ? ' ' : ',', (unsigned)number);
    printf("\n");
}

/* Prints the entry in a variable. Returns whether it is well-formed. */
static bool print_entry(const char *folder, const char *name)
{
    struct nard_load_option option;
    size_t fault = 0;
    long size = read_variable(folder, name);
    if (size < 0) {
        printf("%s  cannot be read\n", name);
        return false;
    }
    nard_status status = nard_load_option_read(bytes + ATTRIBUTES, (size_t)size, &option, &fault);
    if (status != NARD_OK) {
        printf("%s  malformed at offset %zu: %s\n", name, fault, nard_status_text(status));
        return false;
    }
    printf("%s%c ", name, option.attributes & ACTIVE ? '*' : ' ');
    if (nard_load_option_description(&option, shown, MOST_SHOWN, NULL) == NARD_OK)
        fputs(shown, stdout);
    status = nard_device_path_format(option.path, option.path_size, NARD_STYLE_UEFI, shown, MOST_SHOWN, NULL, NULL);
    printf("\t%s\n", status == NARD_OK ? shown : "");
    return status == NARD_OK;
}

/* Returns whether a file is the variable of an entry: its name is Boot#### and the owner. */
static bool is_entry(const char *file)
{
    size_t dash = strcspn(file, "-");
    uint32_t kind = 0;
    uint16_t number = 0;
    return strcmp(file + dash, "-" GLOBAL) == 0 && nard_boot_name_read(file, dash, &kind, &number) == NARD_OK && kind == NARD_BOOT;
}

static int by_name(const void *one, const void *other)
{
    return strcmp(one, other);
}

int main(int count, char **words)
{
    static char names[MOST_ENTRIES][NAME + 1];
    const char *folder = 1 < count ? words[1] : "/sys/firmware/efi/efivars";
    size_t found = 0;
    bool all_well = true;
    DIR *listed = opendir(folder);
    if (listed == NULL) {
        fprintf(stderr, "boot_entries: %s cannot be read\n", folder);
        return 1;
    }
    for (struct dirent *file; found < MOST_ENTRIES && (file = readdir(listed)) != NULL;)
        if (is_entry(file->d_name))
            memcpy(names[found++], file->d_name, NAME);
    closedir(listed);
    qsort(names, found, sizeof names[0], by_name);
    print_numbers(folder, "BootNext");
    print_numbers(folder, "BootCurrent");
    print_numbers(folder, "BootOrder");
    for (size_t i = 0; i < found; i++)
        all_well = print_entry(folder, names[i]) && all_well;
    return all_well ? 0 : 1;
}
