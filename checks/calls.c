/*
 * Calls the library in each way in which a function can be called, as C and as C++: with a compound literal, by its qualified
 * name, with a template argument that has a comma, through a pointer, with null pointers, and with a text up to its NUL. Exits with
 * status 1 if an answer is wrong.
 */
#include "nardcorbel.h"

#ifdef __cplusplus
template <typename First, typename Second> static size_t count_of()
{
    return sizeof(First) / sizeof(Second);
}

static int try_own()
{
    static const nard_char16 text[] = {'a', 0};
    return ::nard_string_is_ascii(text, 2) && nard_string_is_ascii(text, count_of<const nard_char16[2], nard_char16>());
}
#else
static int try_own(void)
{
    size_t length = 9, fault = 9;
    nard_char16 character = 9;
    nard_status status = nard_path_check((const nard_char16[]){'a', 0}, 2, &length, &fault, &character);
    return status == NARD_OK && length == 1 && fault == 9 && character == 0;
}
#endif

static int try_null(void)
{
    size_t length = 9;
    nard_status status = nard_string_from_utf8(0, 0, 0, 0, &length, 0);
    return status == NARD_BUFFER_TOO_SMALL && length == 0 && nard_path_equal(0, 0, 0, 0);
}

static int try_unwanted(void)
{
    static const nard_char16 text[] = {'a', 0};
    return nard_path_check(text, 2, 0, 0, 0) == NARD_OK && nard_device_path_check(0, 0, 0, 0) == NARD_NO_END_NODE;
}

static int try_ended(void)
{
    static const nard_char16 text[] = {'a', '\\', 'b', 0, 'c'};
    size_t length = 9, start = 9;
    nard_char16 units[4];
    return nard_string_check(text, NARD_NUL_TERMINATED, &length, 0) == NARD_OK && length == 3 &&
           nard_path_file_name(text, NARD_NUL_TERMINATED, &start) && start == 2 &&
           nard_string_equal(text, NARD_NUL_TERMINATED, text, 3) && nard_path_equal(text, 3, text, 4) &&
           nard_string_from_utf8("abc", NARD_NUL_TERMINATED, units, 4, &length, 0) == NARD_OK && length == 3;
}

int main(void)
{
    static const nard_char16 text[] = {'a', 0};
    bool(NARD_CALL * call)(const nard_char16 *, size_t) = nard_string_is_ascii;
    return try_own() && try_null() && try_unwanted() && try_ended() && call(text, 2) && call(0, 0) ? 0 : 1;
}
