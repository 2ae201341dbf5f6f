/*
 * Device paths as libefivar, the library under efibootmgr, formats and makes them.
 *
 *     texts made       prints a path of each kind that the library can make, in hexadecimal, a line each
 *     texts < paths    reads such lines, and prints the text of each path, or `-` if the library has none
 *
 * Build: gcc -std=gnu11 -I/usr/include/efivar texts.c -lefivar
 */
#include <efivar.h>
#include <stdbool.h>
#include <stdio.h>
#include <string.h>

enum { MOST = 65535 };

static uint8_t path[MOST + 64];
static size_t length;

/* Appends a node that one of the library's makers wrote behind the path. */
#define ADD(make, ...) length += (size_t)make(path + length, MOST - (ssize_t)length, ##__VA_ARGS__)

static void end(void)
{
    ADD(efidp_make_generic, EFIDP_END_TYPE, EFIDP_END_ENTIRE, 4);
    for (size_t i = 0; i < length; i++)
        printf("%02x", path[i]);
    printf("\n");
    length = 0;
}

static uint8_t signature[16] = {0x10, 0x32, 0x54, 0x76, 0x98, 0xba, 0xdc, 0xfe, 1, 2, 3, 4, 5, 6, 7, 8};
static uint8_t eui[8] = {0x00, 0x25, 0x38, 0x5b, 0x71, 0xb0, 0x12, 0xf4};
static uint8_t mac[6] = {0x52, 0x54, 0x00, 0xab, 0xcd, 0xef};
static efi_guid_t vendor = {0x12345678, 0x9abc, 0xdef0, 0x1234, {0x56, 0x78, 0x9a, 0xbc, 0xde, 0xf0}};

static void bus(void)
{
    ADD(efidp_make_acpi_hid, 0x0a0341d0, 0);
    ADD(efidp_make_pci, 0x1f, 2);
}

static void file(char *name)
{
    ADD(efidp_make_hd, 1, 0x800, 0x64000, signature, 2, 2);
    ADD(efidp_make_file, name);
}

/* A path of each kind that efibootmgr creates, and of each other kind that the library makes and we know. */
static void made(void)
{
    bus(), ADD(efidp_make_sata, 0, (int16_t)0xffff, 0), file("\\EFI\\BOOT\\BOOTX64.EFI"), end();
    bus(), ADD(efidp_make_sata, 3, 1, 2), file("\\EFI\\Microsoft\\Boot\\bootmgfw.efi"), end();
    bus(), ADD(efidp_make_nvme, 1, eui), file("\\EFI\\debian\\shimx64.efi"), end();
    bus(), ADD(efidp_make_emmc, 1), file("\\a"), end();
    file("\\EFI\\debian\\grubx64.efi"), end();
    ADD(efidp_make_hd, 2, 63, 0x1000000000, signature, 1, 1), end();
    ADD(efidp_make_hd, 128, 0, 0, signature, 2, 0), end();
    ADD(efidp_make_file, "\\EFI\\BOOT\\BOOTAA64.EFI"), end();
    bus(), ADD(efidp_make_mac_addr, 1, mac, 6), ADD(efidp_make_ipv4, 0, 0, 0, 0, 0, 0, 0, 0), end();
    bus(), ADD(efidp_make_mac_addr, 1, mac, 6);
    ADD(efidp_make_ipv4, 0x0a00020f, 0x0a000202, 0x0a000201, 0xffffff00, 67, 68, 17, 1), end();
    ADD(efidp_make_acpi_hid, 0x0a0841d0, 7), end();
    ADD(efidp_make_acpi_hid, 0x060441d0, 1), end();
    ADD(efidp_make_acpi_hid, 0x030141d0, 2), end();
    ADD(efidp_make_acpi_hid, 0x050141d0, 3), end();
    ADD(efidp_make_acpi_hid, 0x040141d0, 4), end();
    ADD(efidp_make_acpi_hid, 0x0c0c41d0, 5), end();
    ADD(efidp_make_acpi_hid, 0x12345678, 6), end();
    ADD(efidp_make_acpi_hid_ex, 0x0a0341d0, 1, 0x0a0841d0, "", "", ""), end();
    ADD(efidp_make_acpi_hid_ex, 0, 0, 0, "HWID0001", "one", "CMPT0001"), end();
    ADD(efidp_make_vendor, EFIDP_HARDWARE_TYPE, EFIDP_HW_VENDOR, vendor, mac, 6), end();
    ADD(efidp_make_vendor, EFIDP_MESSAGE_TYPE, EFIDP_MSG_VENDOR, vendor, mac, 0), end();
    ADD(efidp_make_vendor, EFIDP_MEDIA_TYPE, EFIDP_MEDIA_VENDOR, vendor, mac, 1), end();
}

static bool read_path(const char *line)
{
    unsigned byte;
    for (length = 0; length < MOST && sscanf(line + 2 * length, "%2x", &byte) == 1; length++)
        path[length] = (uint8_t)byte;
    return 0 < length;
}

int main(int count, char **words)
{
    static char line[2 * MOST + 8], text[16 * MOST];
    if (count == 2 && strcmp(words[1], "made") == 0) {
        made();
        return 0;
    }
    while (fgets(line, sizeof line, stdin)) {
        ssize_t size = read_path(line) ? efidp_format_device_path(text, sizeof text, (const_efidp)path, (ssize_t)length) : -1;
        printf("%s\n", size < 0 ? "-" : text);
    }
    return 0;
}
