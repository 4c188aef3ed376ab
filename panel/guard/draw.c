#include <stdio.h>
#include <string.h>

#include "draw.h"

/* ---- Drawing ---- */

static uint64_t state;

void seed(uint64_t number)
{
    state = number;
}

uint64_t draw(void)
{
    uint64_t z = state += 0x9E3779B97F4A7C15;
    z = (z ^ z >> 30) * 0xBF58476D1CE4E5B9;
    z = (z ^ z >> 27) * 0x94D049BB133111EB;
    return z ^ z >> 31;
}

size_t below(size_t n)
{
    return (size_t)(draw() % n);
}

int one_in(size_t n)
{
    return below(n) == 0;
}

/* ---- Formats ---- */

/* A writer that drops what does not fit. */
struct buffer {
    uint8_t *at;
    size_t length, most;
};

static void put(struct buffer *b, const char *text)
{
    size_t n = strlen(text);
    if (n <= b->most - b->length) {
        memcpy(b->at + b->length, text, n);
        b->length += n;
    }
}

static void put_count(struct buffer *b, size_t n)
{
    char digits[24];
    snprintf(digits, sizeof digits, "%zu", n);
    put(b, digits);
}

/* t or T and one of the letters that may stand behind. */
static void put_time_letter(struct buffer *b)
{
    static const char letters[] = "HIklMSLNpzZsQBbhAaCYyjmdeRTrDFc";
    const char letter[] = { letters[below(sizeof letters - 1)], 0 };
    put(b, one_in(2) ? "t" : "T");
    put(b, letter);
}

static void put_letter(struct buffer *b, uint8_t kind)
{
    static const char *const integer[] = { "d", "d", "x", "X", "o", "s", "S", "c", "C" };
    static const char *const any[] = { "b", "h", "H", "e", "E", "f", "g", "G", "a", "A", "tH", "Tq", "t", "q", "$", "%", "n", "\303\251" };
    static const char *const other[][2] = { { "a", "A" }, { "b", "B" }, { "s", "S" } };
    if (one_in(25))
        put(b, any[below(sizeof any / sizeof any[0])]);
    else if ((kind & 127) <= 4)
        put(b, integer[below(sizeof integer / sizeof integer[0])]);
    else if (kind == 8)
        put_time_letter(b);
    else
        put(b, other[(kind & 127) - 5][one_in(2)]);
}

/* Flags, width and precision, some or none of them. */
static void put_shape(struct buffer *b)
{
    static const char *const flags[] = { "#", "0", "-", " ", "+", ",", "(" };
    int flags_put = 0;
    while (one_in(3))
        put(b, flags[flags_put++ < 1 || one_in(4) ? below(7) : 0]);
    if (one_in(3))
        put_count(b, one_in(300) ? 2147483640 + below(16) : 1 + below(one_in(10) ? 2000 : 20));
    if (one_in(4)) {
        put(b, one_in(5) ? ".0" : ".");
        if (!one_in(10))
            put_count(b, one_in(300) ? 2147483640 + below(16) : below(one_in(10) ? 200 : 18));
    }
}

size_t random_format(uint8_t *format, const struct row *row)
{
    static const char *const plain[] = { "gate ", "x", " ", "\303\251", "\346\227\245\346\234\254", "\360\237\214\212", "%%", "%n", "12$", "\n" };
    struct buffer b = { format, 0, MOST_FORMAT };
    size_t pieces = one_in(50) ? 400 + below(200) : below(12), count = 0, last = 0;
    for (size_t i = 0; i < pieces; i++) {
        if (row->count == 0 || one_in(3)) {
            put(&b, plain[below(sizeof plain / sizeof plain[0])]);
            continue;
        }
        put(&b, "%");
        if (last > 0 && (one_in(4) || count == row->count)) {
            put(&b, "<");
        } else if (one_in(4) || count == row->count) {
            last = 1 + below(row->count + one_in(40));
            put_count(&b, last);
            put(&b, "$");
        } else {
            last = ++count;
        }
        put_shape(&b);
        put_letter(&b, last <= row->count ? row->kind[last - 1] : 3);
    }
    return b.length;
}

/* ---- Rows ---- */

static uint64_t random_integer(int bits)
{
    uint64_t value = draw();
    value >>= below(64);
    if (one_in(2))
        value = 0 - value;
    if (one_in(8))
        value = one_in(2) ? UINT64_C(1) << 63 >> below(64) : 0x30 + below(0x120000);
    /* Sign-extended from the kind's width. */
    uint64_t sign = UINT64_C(1) << (bits - 1), rest = value & (sign - 1);
    return value & sign ? rest | (0 - sign) : rest;
}

static uint64_t random_float(void)
{
    static const uint64_t special[] = { 0, 1, 0x000FFFFFFFFFFFFF, 0x0010000000000000, 0x3FF0000000000000, 0x3FFFFFFFFFFFFFFF,
                                        0x7FEFFFFFFFFFFFFF, 0x7FF0000000000000, 0x7FF8000000000000 };
    uint64_t bits = one_in(3) ? special[below(9)] : draw();
    if (one_in(4))
        bits &= ~(UINT64_C(0xFFFFFFFFFFFF) >> below(40));
    if (one_in(6))
        bits &= UINT64_C(0x800FFFFFFFFFFFFF);
    return one_in(3) ? bits ^ UINT64_C(1) << 63 : bits;
}

/* Puts a text into the area. */
static uint64_t random_text(struct buffer *area)
{
    static const char *const parts[] = { "", "a", "north weir", "\303\251", "Vejle \303\245", "\346\227\245\346\234\254\350\252\236",
                                         "\360\237\214\212\360\237\214\212", "zZ09 %d" };
    size_t start = area->length;
    while (one_in(2) || (one_in(3) && start < 100))
        put(area, parts[below(sizeof parts / sizeof parts[0])]);
    return (uint64_t)(area->length - start) << 32 | start;
}

/* A moment; half of them whole seconds, since the others are refused before 1970. */
static uint64_t random_time(void)
{
    int64_t nanoseconds = (int64_t)random_integer(64);
    return (uint64_t)(one_in(2) ? nanoseconds / 1000000000 * 1000000000 : nanoseconds);
}

static uint64_t random_value(uint8_t kind, struct buffer *area)
{
    if (kind <= 4)
        return random_integer(4 << kind);
    if (kind == 5)
        return random_float();
    if (kind == 6)
        return below(2);
    if (kind == 8)
        return random_time();
    return random_text(area);
}

void add_random(struct row *row, uint8_t kind)
{
    struct buffer area = { row->area, row->area_length, 4096 };
    size_t i = row->count++;
    row->kind[i] = kind;
    row->value[i] = random_value(kind, &area);
    if (kind != 5 && kind < 7 && one_in(8)) {
        row->kind[i] |= 128;
        row->value[i] = 0;
    }
    row->area_length = area.length;
}

void random_row(struct row *row)
{
    size_t count = one_in(20) ? below(MOST_KINDS + 1) : below(8);
    row->count = row->area_length = 0;
    while (row->count < count)
        add_random(row, (uint8_t)(1 + below(8)));
    if (one_in(10)) {
        struct buffer area = { row->area, row->area_length, 4096 };
        put(&area, "\377\300 named by no value");
        row->area_length = area.length;
    }
}

/* ---- Damage ---- */

size_t damage(uint8_t *at, size_t length, size_t most)
{
    static const uint8_t telling[] = { '%', '$', '<', '-', '0', '+', ' ', '.', '9', 't', 'd', 'a', 0x80, 0xC3, 0xFF, 0, 1, 128 };
    for (size_t i = 1 + below(3); i > 0; i--) {
        uint8_t byte = one_in(2) ? telling[below(sizeof telling)] : (uint8_t)draw();
        size_t place = below(length + 1);
        switch (below(4)) {
        case 0:
            if (length < most) {
                memmove(at + place + 1, at + place, length - place);
                at[place] = byte;
                length++;
            }
            break;
        case 1:
            if (place < length) {
                memmove(at + place, at + place + 1, length - place - 1);
                length--;
            }
            break;
        case 2:
            if (one_in(4)) {
                length = place;
                break;
            }
            /* fall through */
        default:
            if (place < length)
                at[place] = byte;
        }
    }
    return length;
}
