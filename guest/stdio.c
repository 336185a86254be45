// Standard output and error of <stdio.h>: both are the run's output. Each call of a program puts what it
// writes as one piece, and no other thread's output comes in between. Standard input has nothing.
#include <stdio.h>

#include "kit.h"

static struct guard writing;
static char gathered[64];
static size_t count;

static void flush(void)
{
    __kit_put(gathered, count);
    count = 0;
}

static int gather(char byte, FILE *stream)
{
    (void)stream;
    if (count == sizeof gathered) {
        flush();
    }
    gathered[count] = byte;
    count += 1;
    return (unsigned char)byte;
}

static int at_end(FILE *stream)
{
    stream->flags |= __SEOF;
    return EOF;
}

static FILE input = FDEV_SETUP_STREAM(NULL, at_end, NULL, _FDEV_SETUP_READ);
static FILE output = FDEV_SETUP_STREAM(gather, NULL, NULL, _FDEV_SETUP_WRITE);
static FILE error_output = FDEV_SETUP_STREAM(gather, NULL, NULL, _FDEV_SETUP_WRITE);

FILE *const stdin = &input;
FILE *const stdout = &output;
FILE *const stderr = &error_output;

void __kit_begin_output(void)
{
    guard_take(&writing);
}

void __kit_end_output(void)
{
    flush();
    guard_give(&writing);
}

static int put_byte(int byte, FILE *stream)
{
    return stream->put((char)byte, stream) < 0 ? EOF : (unsigned char)byte;
}

int fputc(int byte, FILE *stream)
{
    __kit_begin_output();
    int written = put_byte(byte, stream);
    __kit_end_output();
    return written;
}

#undef putc
int putc(int byte, FILE *stream)
{
    return fputc(byte, stream);
}

#undef putchar
int putchar(int byte)
{
    return fputc(byte, stdout);
}

// Puts bytes as they are: nothing was gathered before, since each call ends with a flush.
static void put_all(const char *bytes, size_t size, FILE *stream)
{
    if (stream == stdout || stream == stderr) {
        __kit_put(bytes, size);
    } else {
        for (size_t i = 0; i < size; i += 1) {
            put_byte(bytes[i], stream);
        }
    }
}

int fputs(const char *text, FILE *stream)
{
    size_t length = __kit_length(text);
    ENTER();
    __tsan_read_range((void *)text, length + 1);
    __kit_begin_output();
    put_all(text, length, stream);
    __kit_end_output();
    LEAVE();
    return 0;
}

int puts(const char *text)
{
    size_t length = __kit_length(text);
    ENTER();
    __tsan_read_range((void *)text, length + 1);
    __kit_begin_output();
    put_all(text, length, stdout);
    put_byte('\n', stdout);
    __kit_end_output();
    LEAVE();
    return 0;
}

size_t fwrite(const void *bytes, size_t size, size_t items, FILE *stream)
{
    ENTER();
    __tsan_read_range((void *)bytes, size * items);
    __kit_begin_output();
    put_all(bytes, size * items, stream);
    __kit_end_output();
    LEAVE();
    return items;
}

// Nothing waits to be written.
int fflush(FILE *stream)
{
    (void)stream;
    return 0;
}

int setvbuf(FILE *stream, char *buffer, int mode, size_t size)
{
    (void)stream;
    (void)buffer;
    (void)mode;
    (void)size;
    return 0;
}

void setbuf(FILE *stream, char *buffer)
{
    (void)stream;
    (void)buffer;
}

