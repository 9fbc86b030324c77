// A plain arithmetic coder in C, timed beside the proved one. It reads the lines that `tool_time bins` reads and prints the line that it
// prints.
//
// usage: cabac bytes|bits TIMES <BINS
// `bytes` writes whole bytes and counts the bytes of 255 that a carry may still reach; `bits` writes bit by bit with outstanding bits,
// as figures 9-7 to 9-12 of ITU-T H.264 do. The program that is built defines TABLES as the file of the tables 9-44 and 9-45 and of
// the start states.
#include <stdint.h>
#include <stdio.h>
#include <stdlib.h>
#include <string.h>

typedef struct {
    uint8_t state, mps;
} Context;

#include TABLES // range_lps[64][4], next_lps[64], start[436]

enum { BY_CONTEXT, BYPASS, GOES_ON };

typedef struct {
    uint8_t kind, bit;
    uint16_t index;
} Line;

static uint8_t out[10000000];
static size_t size;

static inline uint32_t lps_size(Context c, uint32_t range) {
    return range_lps[c.state][(range >> 6) & 3];
}

static inline void follow(Context *c, int bit) {
    if (bit == c->mps) {
        if (c->state < 62)
            c->state++;
    } else {
        if (c->state == 0)
            c->mps = !c->mps;
        c->state = next_lps[c->state];
    }
}

// Whole bytes.
typedef struct {
    uint32_t low, range, queued, outstanding;
    int held; // the last byte below 255, or -1
} Bytes;

static void put_byte(Bytes *c) {
    uint32_t digit = c->low >> (c->queued + 1);
    if (digit == 511)
        digit = 510;
    c->low -= digit << (c->queued + 1);
    c->queued -= 8;
    if (digit == 255) {
        c->outstanding++;
        return;
    }
    uint32_t carry = digit >> 8;
    if (c->held >= 0)
        out[size++] = c->held + carry;
    for (; c->outstanding > 0; c->outstanding--)
        out[size++] = carry ? 0 : 255;
    c->held = digit & 255;
}

static inline void narrow_bytes(Bytes *c, uint32_t add, uint32_t range) {
    uint32_t more = __builtin_clz(range) - 23;
    c->low = (c->low + add) << more;
    c->range = range << more;
    c->queued += more;
    if (c->queued >= 8)
        put_byte(c);
}

static void code_bytes(const Line *lines, size_t count) {
    Context contexts[436];
    memcpy(contexts, start, sizeof start);
    Bytes c = {0, 510, 0, 0, -1};
    for (size_t i = 0; i < count; i++) {
        Line line = lines[i];
        if (line.kind == BY_CONTEXT) {
            Context *context = &contexts[line.index];
            uint32_t lps = lps_size(*context, c.range);
            if (line.bit == context->mps)
                narrow_bytes(&c, 0, c.range - lps);
            else
                narrow_bytes(&c, c.range - lps, lps);
            follow(context, line.bit);
        } else if (line.kind == BYPASS) {
            c.low = 2 * c.low + (line.bit ? c.range : 0);
            c.queued++;
            if (c.queued >= 8)
                put_byte(&c);
        } else {
            narrow_bytes(&c, 0, c.range - 2);
        }
    }
    // The end: 9 + queued digits of the number, the last of them 1, and zeros to the byte.
    c.low += c.range - 2;
    uint32_t digits = 9 + c.queued, last = c.low | 1;
    uint32_t carry = last >> digits;
    last &= (1u << digits) - 1;
    if (c.held >= 0)
        out[size++] = c.held + carry;
    for (; c.outstanding > 0; c.outstanding--)
        out[size++] = carry ? 0 : 255;
    uint32_t whole = (digits + 7) / 8 * 8;
    last <<= whole - digits;
    for (; whole > 0; whole -= 8)
        out[size++] = last >> (whole - 8);
}

// Bit by bit.
typedef struct {
    uint32_t low, range, outstanding, first, begun, used;
} Bits;

static void write_bit(Bits *c, int bit) {
    c->begun = 2 * c->begun + bit;
    if (++c->used == 8) {
        out[size++] = c->begun;
        c->begun = c->used = 0;
    }
}

static void put_bit(Bits *c, int bit) {
    if (c->first)
        c->first = 0;
    else
        write_bit(c, bit);
    for (; c->outstanding > 0; c->outstanding--)
        write_bit(c, !bit);
}

static void renormalise(Bits *c) {
    while (c->range < 256) {
        if (c->low < 256) {
            put_bit(c, 0);
        } else if (c->low >= 512) {
            c->low -= 512;
            put_bit(c, 1);
        } else {
            c->low -= 256;
            c->outstanding++;
        }
        c->range *= 2;
        c->low *= 2;
    }
}

static void code_bits(const Line *lines, size_t count) {
    Context contexts[436];
    memcpy(contexts, start, sizeof start);
    Bits c = {0, 510, 0, 1, 0, 0};
    for (size_t i = 0; i < count; i++) {
        Line line = lines[i];
        if (line.kind == BY_CONTEXT) {
            Context *context = &contexts[line.index];
            uint32_t lps = lps_size(*context, c.range);
            c.range -= lps;
            if (line.bit != context->mps) {
                c.low += c.range;
                c.range = lps;
            }
            follow(context, line.bit);
            renormalise(&c);
        } else if (line.kind == BYPASS) {
            c.low *= 2;
            if (line.bit)
                c.low += c.range;
            if (c.low >= 1024) {
                put_bit(&c, 1);
                c.low -= 1024;
            } else if (c.low < 512) {
                put_bit(&c, 0);
            } else {
                c.low -= 512;
                c.outstanding++;
            }
        } else {
            c.range -= 2;
            renormalise(&c);
        }
    }
    c.range -= 2;
    c.low += c.range;
    c.range = 2;
    renormalise(&c);
    put_bit(&c, (c.low >> 9) & 1);
    write_bit(&c, (c.low >> 8) & 1);
    write_bit(&c, 1);
    while (c.used > 0)
        write_bit(&c, 0);
}

int main(int words, char **word) {
    if (words != 3)
        return 2;
    int bits = strcmp(word[1], "bits") == 0;
    long times = atol(word[2]);
    size_t count = 0, room = 1 << 16;
    Line *lines = malloc(room * sizeof *lines);
    char text[64];
    while (fgets(text, sizeof text, stdin)) {
        if (count == room)
            lines = realloc(lines, (room *= 2) * sizeof *lines);
        Line *line = &lines[count++];
        line->kind = text[0] == 'c' ? BY_CONTEXT : text[0] == 'b' ? BYPASS : GOES_ON;
        line->index = text[0] == 'c' ? atoi(text + 2) : 0;
        line->bit = text[text[0] == 'c' ? 6 : 2] == '1';
    }
    uint32_t sum = 0;
    for (long i = 0; i < times; i++) {
        size = 0;
        if (bits)
            code_bits(lines, count);
        else
            code_bytes(lines, count);
        for (size_t k = 0; k < size; k++)
            sum = sum * 31 + out[k];
    }
    printf("%zu bins in %zu bytes, sum %u\n", count, size, sum);
    return 0;
}
