// Plain transforms in C, timed beside the proved ones: the same random blocks, and the same sum printed as by `tool_time blocks`.
//
// usage: transforms 4x4|8x8 TIMES
#include <stdint.h>
#include <stdio.h>
#include <stdlib.h>
#include <string.h>

enum { BLOCKS = 1024, QP = 26 };

static const uint8_t class4[16] = {0, 2, 0, 2, 2, 1, 2, 1, 0, 2, 0, 2, 2, 1, 2, 1};
static const uint8_t class8[16] = {0, 3, 4, 3, 3, 1, 5, 1, 4, 5, 2, 5, 3, 1, 5, 1};
static const uint16_t multiplier4[6][3] = {{13107, 5243, 8066}, {11916, 4660, 7490}, {10082, 4194, 6554},
                                           {9362, 3647, 5825},  {8192, 3355, 5243},  {7282, 2893, 4559}};
static const uint16_t multiplier8[6][6] = {
    {13107, 11428, 20972, 12222, 16777, 15481}, {11916, 10826, 19174, 11058, 14980, 14290}, {10082, 8943, 15978, 9675, 12710, 11985},
    {9362, 8228, 14913, 8931, 11984, 11259},    {8192, 7346, 13159, 7740, 10486, 9777},     {7282, 6428, 11570, 6830, 9118, 8640}};
static const uint8_t scaling4[6][3] = {{10, 16, 13}, {11, 18, 14}, {13, 20, 16}, {14, 23, 18}, {16, 25, 20}, {18, 29, 23}};
static const uint8_t scaling8[6][6] = {{20, 18, 32, 19, 25, 24}, {22, 19, 35, 21, 28, 26}, {26, 23, 42, 24, 33, 31},
                                       {28, 25, 45, 26, 35, 33}, {32, 28, 51, 30, 40, 38}, {36, 32, 58, 34, 46, 43}};

// A pass reads row i and writes column i.
static inline void forward4_pass(const int32_t *x, int32_t *out) {
    for (int i = 0; i < 4; i++, x += 4) {
        int32_t outer = x[0] + x[3], inner = x[1] + x[2], far = x[0] - x[3], near = x[1] - x[2];
        out[i] = outer + inner;
        out[4 + i] = 2 * far + near;
        out[8 + i] = outer - inner;
        out[12 + i] = far - 2 * near;
    }
}

static inline void inverse4_pass(const int32_t *x, int32_t *out) {
    for (int i = 0; i < 4; i++, x += 4) {
        int32_t e0 = x[0] + x[2], e1 = x[0] - x[2], e2 = (x[1] >> 1) - x[3], e3 = x[1] + (x[3] >> 1);
        out[i] = e0 + e3;
        out[4 + i] = e1 + e2;
        out[8 + i] = e1 - e2;
        out[12 + i] = e0 - e3;
    }
}

static inline void forward8_pass(const int32_t *x, int32_t *out) {
    for (int i = 0; i < 8; i++, x += 8) {
        int32_t s07 = x[0] + x[7], s16 = x[1] + x[6], s25 = x[2] + x[5], s34 = x[3] + x[4];
        int32_t d07 = x[0] - x[7], d16 = x[1] - x[6], d25 = x[2] - x[5], d34 = x[3] - x[4];
        int32_t a0 = s07 + s34, a1 = s16 + s25, a2 = s07 - s34, a3 = s16 - s25;
        out[i] = 8 * (a0 + a1);
        out[8 + i] = 12 * d07 + 10 * d16 + 6 * d25 + 3 * d34;
        out[16 + i] = 8 * a2 + 4 * a3;
        out[24 + i] = 10 * d07 - 3 * d16 - 12 * d25 - 6 * d34;
        out[32 + i] = 8 * (a0 - a1);
        out[40 + i] = 6 * d07 - 12 * d16 + 3 * d25 + 10 * d34;
        out[48 + i] = 4 * a2 - 8 * a3;
        out[56 + i] = 3 * d07 - 6 * d16 + 10 * d25 - 12 * d34;
    }
}

static inline void inverse8_pass(const int32_t *x, int32_t *out) {
    for (int i = 0; i < 8; i++, x += 8) {
        int32_t e0 = x[0] + x[4], e2 = x[0] - x[4], e4 = (x[2] >> 1) - x[6], e6 = x[2] + (x[6] >> 1);
        int32_t e1 = -x[3] + x[5] - x[7] - (x[7] >> 1), e3 = x[1] + x[7] - x[3] - (x[3] >> 1);
        int32_t e5 = -x[1] + x[7] + x[5] + (x[5] >> 1), e7 = x[3] + x[5] + x[1] + (x[1] >> 1);
        int32_t f0 = e0 + e6, f2 = e2 + e4, f4 = e2 - e4, f6 = e0 - e6;
        int32_t f1 = e1 + (e7 >> 2), f3 = e3 + (e5 >> 2), f5 = (e3 >> 2) - e5, f7 = e7 - (e1 >> 2);
        out[i] = f0 + f7;
        out[8 + i] = f2 + f5;
        out[16 + i] = f4 + f3;
        out[24 + i] = f6 + f1;
        out[32 + i] = f6 - f1;
        out[40 + i] = f4 - f3;
        out[48 + i] = f2 - f5;
        out[56 + i] = f0 - f7;
    }
}

static inline int32_t level(int32_t c, uint32_t multiplier, uint32_t rounding, uint32_t shift) {
    int32_t size = (abs(c) * multiplier + rounding) >> shift;
    return (int16_t)(c < 0 ? -size : size);
}

__attribute__((noinline)) static void through4(int intra, int qp, const int16_t *r, int32_t *out) {
    int32_t a[16], b[16];
    for (int p = 0; p < 16; p++)
        b[p] = r[p];
    forward4_pass(b, a);
    forward4_pass(a, b);
    uint32_t shift = 15 + qp / 6, step = 1u << shift, rounding = intra ? step / 3 : step / 6;
    for (int p = 0; p < 16; p++) {
        int32_t l = level(b[p], multiplier4[qp % 6][class4[p]], rounding, shift);
        a[p] = l * (scaling4[qp % 6][class4[p]] << qp / 6);
    }
    inverse4_pass(a, b);
    inverse4_pass(b, a);
    for (int p = 0; p < 16; p++)
        out[p] = (a[p] + 32) >> 6;
}

__attribute__((noinline)) static void through8(int intra, int qp, const int16_t *r, int32_t *out) {
    int32_t a[64], b[64];
    for (int p = 0; p < 64; p++)
        b[p] = r[p];
    forward8_pass(b, a);
    forward8_pass(a, b);
    uint32_t shift = 16 + qp / 6, step = 1u << shift, rounding = intra ? step / 3 : step / 6;
    for (int p = 0; p < 64; p++) {
        int class = class8[p / 8 % 4 * 4 + p % 4];
        int32_t l = level((b[p] + 32) >> 6, multiplier8[qp % 6][class], rounding, shift);
        int32_t x = l * scaling8[qp % 6][class];
        a[p] = qp >= 12 ? x << (qp / 6 - 2) : (x + (1 << (1 - qp / 6))) >> (2 - qp / 6);
    }
    inverse8_pass(a, b);
    inverse8_pass(b, a);
    for (int p = 0; p < 64; p++)
        out[p] = (a[p] + 32) >> 6;
}

static uint32_t state = 1;

static int16_t difference(void) {
    state = state * 1664525 + 1013904223;
    return state / 65536 % 511 - 255;
}

int main(int words, char **word) {
    if (words != 3)
        return 2;
    int n = strcmp(word[1], "8x8") == 0 ? 64 : 16;
    long times = atol(word[2]);
    int16_t *blocks = malloc(BLOCKS * n * sizeof *blocks);
    for (int i = 0; i < BLOCKS * n; i++)
        blocks[i] = difference();
    uint32_t sum = 0;
    int32_t out[64];
    for (long t = 0; t < times; t++)
        for (int i = 0; i < BLOCKS; i++) {
            if (n == 64)
                through8(1, QP, blocks + i * n, out);
            else
                through4(1, QP, blocks + i * n, out);
            uint32_t added = 0;
            for (int p = 0; p < n; p++)
                added += out[p];
            sum = sum * 31 + added;
        }
    printf("sum %d\n", (int32_t)sum);
    return 0;
}
