// Output, eight bytes in a call of the machine.
#include "kit.h"

// Puts up to eight bytes in a call, the first in the low bits of the word.
void __kit_put(const void *from, size_t count)
{
    const uint8_t *bytes = from;
    while (count > 0) {
        size_t now = count < 8 ? count : 8;
        uint64_t word = 0;
        for (size_t i = 0; i < now; i += 1) {
            word |= (uint64_t)bytes[i] << (8 * i);
        }
        call(PUT, word, now, 0);
        bytes += now;
        count -= now;
    }
}

size_t __kit_length(const char *text)
{
    size_t count = 0;
    while (text[count] != 0) {
        count += 1;
    }
    return count;
}

void __kit_put_text(const char *text)
{
    __kit_put(text, __kit_length(text));
}
