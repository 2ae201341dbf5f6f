/* Compilers write calls of these, where a struct is copied, say, and firmware has no C library. */
#include <stddef.h>

void *memcpy(void *to, const void *from, size_t count);
void *memset(void *to, int byte, size_t count);

void *memcpy(void *to, const void *from, size_t count)
{
    volatile unsigned char *places = to;
    for (size_t i = 0; i < count; i++)
        places[i] = ((const unsigned char *)from)[i];
    return to;
}

void *memset(void *to, int byte, size_t count)
{
    volatile unsigned char *places = to;
    for (size_t i = 0; i < count; i++)
        places[i] = (unsigned char)byte;
    return to;
}
