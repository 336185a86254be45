// Functions of <string.h> that programs share memory by. What each reads and writes is announced as ranges at
// the place of its caller, as moves.S does. The other functions of <string.h> are the C library's and
// announce nothing.
#include <string.h>

#include "kit.h"

#define READ(text, size) announce_at(__builtin_return_address(0), READ_RANGE, (text), (size))
#define WRITE(text, size) announce_at(__builtin_return_address(0), WRITE_RANGE, (text), (size))

static size_t length_up_to(const char *text, size_t most)
{
    size_t length = 0;
    while (length < most && text[length] != 0) {
        length += 1;
    }
    return length;
}

// How many bytes of a text were read to find its end: with the byte 0, where it was met.
static size_t read_up_to(size_t length, size_t most)
{
    return length < most ? length + 1 : most;
}

static void copy(char *to, const char *from, size_t size)
{
    for (size_t i = 0; i < size; i += 1) {
        to[i] = from[i];
    }
}

size_t strlen(const char *text)
{
    size_t length = __kit_length(text);
    READ(text, length + 1);
    return length;
}

size_t strnlen(const char *text, size_t most)
{
    size_t length = length_up_to(text, most);
    READ(text, read_up_to(length, most));
    return length;
}

char *strcpy(char *to, const char *from)
{
    size_t length = __kit_length(from);
    READ(from, length + 1);
    WRITE(to, length + 1);
    copy(to, from, length + 1);
    return to;
}

char *strncpy(char *to, const char *from, size_t size)
{
    size_t length = length_up_to(from, size);
    READ(from, read_up_to(length, size));
    WRITE(to, size);
    copy(to, from, length);
    for (size_t i = length; i < size; i += 1) {
        to[i] = 0;
    }
    return to;
}

char *strcat(char *to, const char *from)
{
    size_t before = __kit_length(to);
    size_t length = __kit_length(from);
    READ(to, before + 1);
    READ(from, length + 1);
    WRITE(to + before, length + 1);
    copy(to + before, from, length + 1);
    return to;
}

char *strncat(char *to, const char *from, size_t most)
{
    size_t before = __kit_length(to);
    size_t length = length_up_to(from, most);
    READ(to, before + 1);
    READ(from, read_up_to(length, most));
    WRITE(to + before, length + 1);
    copy(to + before, from, length);
    to[before + length] = 0;
    return to;
}

// How many bytes of two texts were read to compare them.
static size_t compared(const char *one, const char *other, size_t most)
{
    size_t count = 0;
    while (count < most && one[count] == other[count] && one[count] != 0) {
        count += 1;
    }
    return read_up_to(count, most);
}

static int difference(const char *one, const char *other, size_t size)
{
    return size == 0 ? 0 : (unsigned char)one[size - 1] - (unsigned char)other[size - 1];
}

int strcmp(const char *one, const char *other)
{
    size_t size = compared(one, other, (size_t)-1);
    READ(one, size);
    READ(other, size);
    return difference(one, other, size);
}

int strncmp(const char *one, const char *other, size_t most)
{
    size_t size = compared(one, other, most);
    READ(one, size);
    READ(other, size);
    return difference(one, other, size);
}

char *strchr(const char *text, int byte)
{
    size_t at = 0;
    while (text[at] != 0 && text[at] != (char)byte) {
        at += 1;
    }
    READ(text, at + 1);
    return text[at] == (char)byte ? (char *)text + at : NULL;
}

char *strrchr(const char *text, int byte)
{
    size_t length = __kit_length(text);
    READ(text, length + 1);
    for (size_t at = length + 1; at > 0; at -= 1) {
        if (text[at - 1] == (char)byte) {
            return (char *)text + at - 1;
        }
    }
    return NULL;
}

void *memchr(const void *memory, int byte, size_t size)
{
    const unsigned char *bytes = memory;
    size_t at = 0;
    while (at < size && bytes[at] != (unsigned char)byte) {
        at += 1;
    }
    READ(memory, read_up_to(at, size));
    return at < size ? (void *)(bytes + at) : NULL;
}
