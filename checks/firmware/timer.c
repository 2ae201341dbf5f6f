/*
 * Calls the library, and a function that keeps data below its stack pointer, again and again while the timer interrupts every
 * 50 microseconds. An interrupt in firmware pushes onto the current stack, so that function gives wrong results, and
 * the library must give none. Prints both counts.
 */
#include <efi.h>

#include "lines.h"

enum { TURNS = 2500, TEXT = 2400, PERIOD = 500, MOST = 3000 };

typedef struct timer TIMER;
struct timer {
    void *register_handler;
    EFI_STATUS (EFIAPI *set_period)(TIMER *timer, UINT64 period);
    EFI_STATUS (EFIAPI *get_period)(TIMER *timer, UINT64 *period);
    void *soft_interrupt;
};

uint32_t planted_sum(const uint8_t *bytes, size_t size);

static EFI_SYSTEM_TABLE *table;
static volatile size_t ticks;

void lines_put_unit(uint16_t unit)
{
    CHAR16 text[2] = {unit, 0}, line_end[3] = {'\r', '\n', 0};
    table->ConOut->OutputString(table->ConOut, unit == '\n' ? line_end : text);
}

enum lines_found lines_look(const struct reader *reader, const uint16_t *normal)
{
    (void)reader;
    (void)normal;
    return LINES_UNKNOWN;
}

static VOID EFIAPI tick(EFI_EVENT event, VOID *context)
{
    (void)event;
    (void)context;
    ticks++;
}

static void put_count(const char *what, size_t wrong)
{
    lines_put(what);
    lines_put_number(TURNS);
    lines_put(" calls, ");
    lines_put_number(wrong);
    lines_put(" wrong\n");
}

/* Counts how many conversions of a text of three-byte characters, and how many sums of it, differ from the first ones. No
 * interrupt comes while the first ones are made. */
static void count_wrong(EFI_BOOT_SERVICES *services, size_t *library, size_t *planted)
{
    static uint8_t text[TEXT];
    static uint16_t first[MOST], units[MOST];
    static const uint8_t piece[] = {0xe6, 0xbc, 0xa2, 0xe5, 0xad, 0x97, 0xe6, 0xbc, 0xa2, 0xe5, 0xad, 0x97, 0xe6, 0xbc, 0xa2, 'a'};
    size_t first_length = 0, length = 0;
    for (size_t i = 0; i < TEXT; i++)
        text[i] = piece[i % sizeof piece];
    EFI_TPL level = services->RaiseTPL(TPL_HIGH_LEVEL);
    uint32_t sum = planted_sum(text, TEXT);
    nard_status status = nard_string_from_utf8((const char *)text, TEXT, first, MOST, &first_length, NULL);
    services->RestoreTPL(level);
    if (status != NARD_OK)
        *library = TURNS;
    for (size_t turn = 0; turn < TURNS; turn++) {
        bool is_right = nard_string_from_utf8((const char *)text, TEXT, units, MOST, &length, NULL) == NARD_OK && length == first_length;
        for (size_t i = 0; is_right && i <= length; i++)
            is_right = units[i] == first[i];
        *library += !is_right;
        *planted += planted_sum(text, TEXT) != sum;
    }
}

EFI_STATUS efi_main(EFI_HANDLE handle, EFI_SYSTEM_TABLE *system_table)
{
    static EFI_GUID timer_arch = {0x26baccb3, 0x6f42, 0x11d4, {0xbc, 0xe7, 0x00, 0x80, 0xc7, 0x3c, 0x88, 0x81}};
    (void)handle;
    table = system_table;
    EFI_BOOT_SERVICES *services = table->BootServices;
    void *found = NULL;
    EFI_EVENT event;
    UINT64 period = 0;
    size_t library = 0, planted = 0;
    services->SetWatchdogTimer(0, 0, 0, NULL);
    lines_put("\nred zone\n");
    if (services->LocateProtocol(&timer_arch, NULL, &found) != EFI_SUCCESS ||
        services->CreateEvent(EVT_TIMER | EVT_NOTIFY_SIGNAL, TPL_CALLBACK, tick, NULL, &event) != EFI_SUCCESS)
        return EFI_UNSUPPORTED;
    TIMER *timer = found;
    services->SetTimer(event, TimerPeriodic, 2 * PERIOD);
    timer->get_period(timer, &period);
    timer->set_period(timer, PERIOD);
    count_wrong(services, &library, &planted);
    timer->set_period(timer, period);
    services->CloseEvent(event);
    put_count("library: ", library);
    put_count("planted red zone: ", planted);
    lines_put(ticks > 0 ? "the timer ticked\n" : "the timer never ticked\n");
    lines_put("red zone ends\n");
    return EFI_SUCCESS;
}
