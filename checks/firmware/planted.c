/* A sum whose parts are below the stack pointer, unless the compiler has the option for no red zone. */
#include <stddef.h>
#include <stdint.h>

uint32_t planted_sum(const uint8_t *bytes, size_t size);

uint32_t planted_sum(const uint8_t *bytes, size_t size)
{
    volatile uint32_t parts[4];
    for (size_t i = 0; i < 4; i++)
        parts[i] = 0;
    for (size_t i = 0; i < size; i++)
        parts[i % 4] = parts[i % 4] * 31 + bytes[i];
    return parts[0] + parts[1] * 3 + parts[2] * 5 + parts[3] * 7;
}
