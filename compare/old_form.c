/* The old session form (document 02, wish 2), written from documents 01 and 02 alone: its reader and its writer, called once for each frame of
   standard input (a line bytes=N and N bytes).
   R: tolerance, levels, rounds, count of lent values (four bytes each, the most significant first), then the session.
   W: sides, unit, counts of labels, values and output (likewise), then the labels, then the values. */
#include <stdint.h>
#include <stdio.h>
#include <stdlib.h>
#include <string.h>

struct outcome { unsigned number, place; };

static struct outcome refuse(unsigned number, unsigned place)
{
    struct outcome o = { number, place };
    return o;
}

/* ---- the header, as a text with a cursor */
struct cursor { const unsigned char *bytes; size_t length, at; };

static int literal(struct cursor *c, const char *word)
{
    for (; *word; word++, c->at++)
        if (c->at >= c->length || c->bytes[c->at] != (unsigned char)*word)
            return 0;
    return 1;
}

/* 1 to 7 digits, no leading zero but for 0 itself */
static int number(struct cursor *c, uint32_t *value)
{
    size_t begin = c->at;
    uint64_t v = 0;
    while (c->at < c->length && c->bytes[c->at] >= '0' && c->bytes[c->at] <= '9') {
        if (c->at - begin < 8)
            v = 10 * v + (c->bytes[c->at] - '0');
        c->at++;
    }
    size_t digits = c->at - begin;
    if (digits < 1 || digits > 7 || (digits > 1 && c->bytes[begin] == '0'))
        return 0;
    *value = (uint32_t)v;
    return 1;
}

static int side_fits(uint32_t n) { return n >= 1 && n <= 32; }

static long widest(unsigned char label) { return label == 0 ? 1000 : label == 1 ? 1000000 : 0; }

static int in_range(unsigned char label, long v) { return v >= -widest(label) && v <= widest(label); }

struct old_header { uint32_t side[3], unit; size_t start; };

static int header(const unsigned char *bytes, size_t length, struct old_header *h)
{
    struct cursor c = { bytes, length, 0 };
    if (!(literal(&c, "size=") && number(&c, &h->side[0]) && literal(&c, "x") && number(&c, &h->side[1]) && literal(&c, "x")
          && number(&c, &h->side[2]) && literal(&c, "\n")))
        return 1;
    if (!(literal(&c, "unit=") && number(&c, &h->unit) && literal(&c, "\n")))
        return 2;
    h->start = c.at;
    return 0;
}

static long stored(const unsigned char *two)
{
    long v = two[0] * 256L + two[1];
    return v > 32767 ? v - 65536 : v;
}

static struct outcome read_old(const uint32_t setting[3], const unsigned char *bytes, size_t length, int32_t *values, size_t room, struct old_header *h)
{
    int line = header(bytes, length, h);
    if (line)
        return refuse(10, (unsigned)line);
    for (int i = 0; i < 3; i++)
        if (!side_fits(h->side[i]))
            return refuse(1, 0);
    size_t cells = (size_t)h->side[0] * h->side[1] * h->side[2];
    if (length - h->start != 3 * cells)
        return refuse(11, 0);
    if (room < cells)
        return refuse(2, 0);
    if (h->unit < 1 || h->unit > 1000 || setting[0] > 1000000 || setting[1] < 1 || setting[1] > 6 || setting[2] > 1000)
        return refuse(3, 0);
    const unsigned char *labels = bytes + h->start + 2 * cells;
    for (size_t c = 0; c < cells; c++)
        if (labels[c] > 2)
            return refuse(4, (unsigned)c);
    for (size_t c = 0; c < cells; c++)
        if (!in_range(labels[c], stored(bytes + h->start + 2 * c) * (long)h->unit))
            return refuse(5, (unsigned)c);
    for (size_t c = 0; c < cells; c++)
        values[c] = (int32_t)(stored(bytes + h->start + 2 * c) * (long)h->unit);
    return refuse(0, 0);
}

static struct outcome write_old(const uint32_t side[3], uint32_t unit, const unsigned char *labels, size_t label_count, const int32_t *values, size_t value_count,
                                unsigned char *output, size_t room, size_t *count)
{
    char head[64];
    *count = 0;
    for (int i = 0; i < 3; i++)
        if (!side_fits(side[i]))
            return refuse(1, 0);
    if (unit < 1 || unit > 1000)
        return refuse(3, 0);
    size_t cells = (size_t)side[0] * side[1] * side[2];
    size_t front = (size_t)snprintf(head, sizeof head, "size=%ux%ux%u\nunit=%u\n", side[0], side[1], side[2], unit);
    if (label_count != cells || value_count != cells || room < front + 3 * cells)
        return refuse(2, 0);
    for (size_t c = 0; c < cells; c++)
        if (labels[c] > 2)
            return refuse(4, (unsigned)c);
    for (size_t c = 0; c < cells; c++)
        if (!in_range(labels[c], values[c]))
            return refuse(5, (unsigned)c);
    for (size_t c = 0; c < cells; c++) {
        long v = values[c], u = (long)unit;
        int found = 0;
        for (long q = v / u - 1; q <= v / u + 1; q++)
            if (q * u == v && q >= -32768 && q <= 32767)
                found = 1;
        if (!found)
            return refuse(13, (unsigned)c);
    }
    memcpy(output, head, front);
    for (size_t c = 0; c < cells; c++) {
        long q = values[c] / (long)unit;
        unsigned w = (unsigned)(q < 0 ? q + 65536 : q);
        output[front + 2 * c] = (unsigned char)(w >> 8);
        output[front + 2 * c + 1] = (unsigned char)w;
    }
    memcpy(output + front + 2 * cells, labels, cells);
    *count = front + 3 * cells;
    return refuse(0, 0);
}

/* ---- the frames */
static uint32_t four(const unsigned char *raw, size_t length, size_t at)
{
    uint32_t v = 0;
    for (size_t i = at; i < at + 4; i++)
        v = v << 8 | (i < length ? raw[i] : 0);
    return v;
}

static void hex(const char *key, const unsigned char *bytes, size_t count)
{
    fputs(key, stdout);
    for (size_t i = 0; i < count; i++)
        printf("%02x", bytes[i]);
    putchar('\n');
}

static void reader(const unsigned char *raw, size_t length)
{
    static int32_t values[1100];
    size_t room = four(raw, length, 13);
    if (length < 17 || room > 1100)
        return;
    for (size_t i = 0; i < 1100; i++)
        values[i] = 7;
    uint32_t setting[3] = { four(raw, length, 1), four(raw, length, 5), four(raw, length, 9) };
    struct old_header h;
    struct outcome o = read_old(setting, raw + 17, length - 17, values, room, &h);
    size_t cells = 0, start = 0;
    if (o.number)
        memset(&h, 0, sizeof h);
    else {
        cells = (size_t)h.side[0] * h.side[1] * h.side[2];
        start = h.start + 2 * cells;
    }
    printf("answer=%u\nplace=%u\nnx=%u\nny=%u\nnz=%u\nunit=%u\nstart=%zu\n", o.number, o.place, h.side[0], h.side[1], h.side[2], h.unit, start);
    hex("labels=", raw + 17 + start, cells);
    fputs("values=", stdout);
    for (size_t i = 0; i < room; i++)
        printf("%08x", (unsigned)values[i]);
    putchar('\n');
}

static void writer(const unsigned char *raw, size_t length)
{
    static int32_t values[1100];
    static unsigned char output[4096];
    size_t labels = four(raw, length, 17), count = four(raw, length, 21), room = four(raw, length, 25), written;
    if (count > 1100 || room > 4096 || labels > 1100 || length < 29 + labels)
        return;
    for (size_t i = 0; i < count; i++)
        values[i] = (int32_t)four(raw, length, 29 + labels + 4 * i);
    memset(output, 9, sizeof output);
    uint32_t side[3] = { four(raw, length, 1), four(raw, length, 5), four(raw, length, 9) };
    struct outcome o = write_old(side, four(raw, length, 13), raw + 29, labels, values, count, output, room, &written);
    printf("answer=%u\nplace=%u\ncount=%zu\n", o.number, o.place, written);
    hex("output=", output, room);
}

int main(void)
{
    static unsigned char raw[1 << 16];
    unsigned long length, frame = 0;
    while (scanf("bytes=%lu", &length) == 1 && getchar() == '\n' && length <= sizeof raw && fread(raw, 1, length, stdin) == length) {
        printf("call=%lu\n", frame++);
        if (raw[0] == 'R')
            reader(raw, length);
        else
            writer(raw, length);
    }
    return 0;
}
