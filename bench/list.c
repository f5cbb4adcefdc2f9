/* The listing of a stream of OBUs, in C: what the program's `list` is measured against.
 * It reads standard input whole, tests every header as the program does, and writes the same lines,
 * or `refused AT CODE` on standard error with status 1.
 * With -DWITH_PRINTF the lines are written by printf, one by one, as one would write it first. */
#include <stdint.h>
#include <stdio.h>
#include <stdlib.h>
#include <string.h>
#include <unistd.h>

enum { LEB = 1, OBU_SIZE = 2, FLAGS = 3, HEADER_SIZE = 4, CUT = 5 };

static const uint64_t MAX_INPUT = 1u << 30;
static const uint64_t MAX_OBU = 1u << 21;
static const size_t CHUNK = 65536;

static void end_with(int status, const char *note)
{
    fprintf(stderr, "%s\n", note);
    exit(status);
}

struct buffer {
    unsigned char *bytes;
    size_t length;
    size_t room;
};

static void reserve(struct buffer *b, size_t more)
{
    if (b->room - b->length >= more)
        return;
    b->room = b->room * 2 + more;
    b->bytes = realloc(b->bytes, b->room);
    if (b->bytes == NULL)
        end_with(3, "out of memory");
}

static void read_input(struct buffer *input)
{
    for (;;) {
        reserve(input, CHUNK);
        ssize_t count = read(0, input->bytes + input->length, CHUNK);
        if (count < 0)
            end_with(4, "read failed");
        if (count == 0)
            return;
        input->length += (size_t)count;
        if (input->length > MAX_INPUT)
            end_with(6, "input too large");
    }
}

/* The number at the front of the bytes: how many bytes it takes, 0 where they end first, -1 where it is none. */
static int read_leb(const unsigned char *bytes, uint64_t left, uint64_t *value)
{
    *value = 0;
    for (int i = 0; i < 8; i++) {
        if ((uint64_t)i >= left)
            return 0;
        *value |= (uint64_t)(bytes[i] & 127) << (7 * i);
        if (bytes[i] < 128)
            return *value < (uint64_t)1 << 32 ? i + 1 : -1;
    }
    return -1;
}

/* Whether the trims and the extension read within the bytes that the size counts. */
static int fields_read(unsigned first, const unsigned char *bytes, uint64_t left)
{
    uint64_t value = 0;
    int numbers = (first & 2 ? 2 : 0) + (first & 1 ? 1 : 0);
    for (int i = 0; i < numbers; i++) {
        int taken = read_leb(bytes, left, &value);
        if (taken <= 0)
            return 0;
        bytes += taken;
        left -= (uint64_t)taken;
    }
    return !(first & 1) || value <= left;
}

/* The length of the OBU at the front of the bytes, or its fault. */
static int read_header(const unsigned char *bytes, uint64_t left, uint64_t *length)
{
    unsigned first = bytes[0];
    unsigned kind = first >> 3;
    int allowed = (!(first & 2) || (kind >= 5 && kind <= 23)) && (!(first & 4) || kind <= 2 || kind >= 24);
    uint64_t size;
    int taken = read_leb(bytes + 1, left - 1, &size);
    if (taken < 0)
        return LEB;
    if (taken > 0 && 1 + (uint64_t)taken + size > MAX_OBU)
        return OBU_SIZE;
    if (!allowed)
        return FLAGS;
    *length = 1 + (uint64_t)taken + size;
    if (taken == 0 || *length > left)
        return CUT;
    return fields_read(first, bytes + 1 + taken, size) ? 0 : HEADER_SIZE;
}

#ifdef WITH_PRINTF

static void put_line(struct buffer *text, uint64_t at, unsigned first, uint64_t length)
{
    (void)text;
    printf("%llu %u %llu %c%c%c\n", (unsigned long long)at, first >> 3, (unsigned long long)length,
           first & 4 ? 'r' : '-', first & 2 ? 't' : '-', first & 1 ? 'x' : '-');
}

#else

static const size_t LONGEST_LINE = 64;

static unsigned char *put_decimal(unsigned char *to, uint64_t n)
{
    unsigned char digits[20];
    int count = 0;
    do {
        digits[count++] = (unsigned char)('0' + n % 10);
        n /= 10;
    } while (n > 0);
    while (count > 0)
        *to++ = digits[--count];
    return to;
}

static void put_line(struct buffer *text, uint64_t at, unsigned first, uint64_t length)
{
    reserve(text, LONGEST_LINE);
    unsigned char *to = text->bytes + text->length;
    to = put_decimal(to, at);
    *to++ = ' ';
    to = put_decimal(to, first >> 3);
    *to++ = ' ';
    to = put_decimal(to, length);
    *to++ = ' ';
    *to++ = first & 4 ? 'r' : '-';
    *to++ = first & 2 ? 't' : '-';
    *to++ = first & 1 ? 'x' : '-';
    *to++ = '\n';
    text->length = (size_t)(to - text->bytes);
}

#endif

static void write_text(const struct buffer *text)
{
    size_t at = 0;
    while (at < text->length) {
        ssize_t count = write(1, text->bytes + at, text->length - at);
        if (count <= 0)
            end_with(5, "write failed");
        at += (size_t)count;
    }
}

int main(void)
{
    struct buffer input = {0}, text = {0};
    read_input(&input);
    uint64_t at = 0;
    while (at < input.length) {
        uint64_t length = 0;
        int fault = read_header(input.bytes + at, input.length - at, &length);
        if (fault != 0) {
            fprintf(stderr, "refused %llu %d\n", (unsigned long long)at, fault);
            return 1;
        }
        put_line(&text, at, input.bytes[at], length);
        at += length;
    }
    write_text(&text);
    if (fflush(stdout) != 0)
        end_with(5, "write failed");
    return 0;
}
