// The output of guest.h.
#include "guest.h"
#include "kit.h"

void put_bytes(const void *bytes, size_t count)
{
    announce_at(__builtin_return_address(0), READ_RANGE, bytes, count);
    __kit_put(bytes, count);
}

void put_text(const char *text)
{
    size_t count = __kit_length(text);
    announce_at(__builtin_return_address(0), READ_RANGE, text, count + 1);
    __kit_put(text, count);
}

void put_number(long number)
{
    uint8_t digits[20];
    size_t first = sizeof digits;
    uint64_t rest = number < 0 ? -(uint64_t)number : (uint64_t)number;
    do {
        first -= 1;
        digits[first] = (uint8_t)('0' + rest % 10);
        rest /= 10;
    } while (rest != 0);
    if (number < 0) {
        first -= 1;
        digits[first] = '-';
    }
    __kit_put(digits + first, sizeof digits - first);
}
