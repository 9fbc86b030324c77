// Plain prediction of 16x16 luma blocks in C, timed beside the proved one: the same random plane and places, and the same sum
// printed as by `tool_time motion`.
//
// usage: motion copy|b|h|j TIMES
#include <stdint.h>
#include <stdio.h>
#include <stdlib.h>
#include <string.h>

enum { WIDTH = 512, HEIGHT = 272, PAD = 40, STRIDE = WIDTH + 2 * PAD };

static uint8_t plane[(HEIGHT + 2 * PAD) * STRIDE];

static inline int taps(int a, int b, int c, int d, int e, int f) { return a - 5 * b + 20 * c + 20 * d - 5 * e + f; }

static inline uint8_t clip(int v) { return v < 0 ? 0 : v > 255 ? 255 : v; }

__attribute__((noinline)) static void copy(const uint8_t *p, uint8_t *out) {
    for (int j = 0; j < 16; j++)
        memcpy(out + 16 * j, p + STRIDE * j, 16);
}

__attribute__((noinline)) static void across(const uint8_t *p, uint8_t *restrict out) {
    for (int j = 0; j < 16; j++, p += STRIDE, out += 16)
        for (int i = 0; i < 16; i++)
            out[i] = clip((taps(p[i - 2], p[i - 1], p[i], p[i + 1], p[i + 2], p[i + 3]) + 16) >> 5);
}

__attribute__((noinline)) static void down(const uint8_t *p, uint8_t *restrict out) {
    const int s = STRIDE;
    for (int j = 0; j < 16; j++, p += STRIDE, out += 16)
        for (int i = 0; i < 16; i++)
            out[i] = clip((taps(p[i - 2 * s], p[i - s], p[i], p[i + s], p[i + 2 * s], p[i + 3 * s]) + 16) >> 5);
}

__attribute__((noinline)) static void middle(const uint8_t *p, uint8_t *restrict out) {
    int16_t raw[21][16];
    p -= 2 * STRIDE;
    for (int j = 0; j < 21; j++, p += STRIDE)
        for (int i = 0; i < 16; i++)
            raw[j][i] = taps(p[i - 2], p[i - 1], p[i], p[i + 1], p[i + 2], p[i + 3]);
    for (int j = 0; j < 16; j++, out += 16)
        for (int i = 0; i < 16; i++)
            out[i] = clip((taps(raw[j][i], raw[j + 1][i], raw[j + 2][i], raw[j + 3][i], raw[j + 4][i], raw[j + 5][i]) + 512) >> 10);
}

int main(int count, char **words) {
    if (count != 3)
        return 2;
    uint32_t state = 1, sum = 0;
    for (int y = 0; y < HEIGHT; y++)
        for (int x = 0; x < WIDTH; x++) {
            state = state * 1664525 + 1013904223;
            plane[(y + PAD) * STRIDE + x + PAD] = state / 65536 % 256;
        }
    for (int y = 0; y < HEIGHT; y++) {
        uint8_t *row = plane + (y + PAD) * STRIDE;
        memset(row, row[PAD], PAD);
        memset(row + PAD + WIDTH, row[PAD + WIDTH - 1], PAD);
    }
    for (int y = 0; y < PAD; y++) {
        memcpy(plane + y * STRIDE, plane + PAD * STRIDE, STRIDE);
        memcpy(plane + (PAD + HEIGHT + y) * STRIDE, plane + (PAD + HEIGHT - 1) * STRIDE, STRIDE);
    }
    void (*predict)(const uint8_t *, uint8_t *) = !strcmp(words[1], "copy") ? copy : !strcmp(words[1], "b") ? across : !strcmp(words[1], "h") ? down : middle;
    for (long n = atol(words[2]); n > 0; n--)
        for (uint32_t k = 0; k < 1024; k++) {
            uint8_t out[256];
            predict(plane + (PAD + k / 32 * 8 - 2) * STRIDE + PAD + k % 32 * 16 + 1, out);
            sum = sum * 31 + out[k % 256];
        }
    printf("sum %u\n", sum);
}
