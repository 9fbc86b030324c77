// A plain full search in C, timed beside the proved one: every vector of the window of each macroblock is compared, and the same sum
// is printed as by `tool_time search`. Standard input has the luma samples of the picture and of its reference.
//
// usage: search WIDTH HEIGHT RANGE TIMES
#include <stdint.h>
#include <stdio.h>
#include <stdlib.h>
#include <string.h>

enum { PAD = 40 };

__attribute__((noinline)) static unsigned difference(const uint8_t *a, int a_stride, const uint8_t *b, int b_stride) {
    unsigned sum = 0;
    for (int j = 0; j < 16; j++, a += a_stride, b += b_stride)
        for (int i = 0; i < 16; i++)
            sum += abs(a[i] - b[i]);
    return sum;
}

int main(int count, char **words) {
    if (count != 5)
        return 2;
    int width = atoi(words[1]), height = atoi(words[2]), range = atoi(words[3]), stride = width + 2 * PAD, candidates = 0;
    uint8_t *source = malloc(width * height), *reference = malloc(stride * (height + 2 * PAD)), *inside = reference + PAD * stride + PAD;
    if (fread(source, width, height, stdin) != height)
        return 2;
    for (int y = 0; y < height; y++) {
        uint8_t *row = inside + y * stride;
        if (fread(row, 1, width, stdin) != width)
            return 2;
        memset(row - PAD, row[0], PAD);
        memset(row + width, row[width - 1], PAD);
    }
    for (int y = 0; y < PAD; y++) {
        memcpy(reference + y * stride, reference + PAD * stride, stride);
        memcpy(reference + (PAD + height + y) * stride, reference + (PAD + height - 1) * stride, stride);
    }
    // The vectors by the greater size, then from above to below, then from left to right.
    struct { int dx, dy; } vectors[65 * 65];
    for (int ring = 0; ring <= range; ring++)
        for (int dy = -ring; dy <= ring; dy++)
            for (int dx = -ring; dx <= ring; dx++)
                if (abs(dx) == ring || abs(dy) == ring) {
                    vectors[candidates].dx = dx;
                    vectors[candidates++].dy = dy;
                }
    uint32_t sum = 0;
    for (int turn = atoi(words[4]); turn > 0; turn--)
        for (int y = 0; y + 16 <= height; y += 16)
            for (int x = 0; x + 16 <= width; x += 16) {
                unsigned least = -1, best = 0;
                for (int k = 0; k < candidates; k++) {
                    const uint8_t *moved = inside + (y + vectors[k].dy) * stride + x + vectors[k].dx;
                    unsigned cost = difference(source + y * width + x, width, moved, stride);
                    if (cost < least) {
                        least = cost;
                        best = k;
                    }
                }
                sum = sum * 31 + least;
                sum = sum * 31 + (uint32_t)(vectors[best].dx + 32768);
                sum = sum * 31 + (uint32_t)(vectors[best].dy + 32768);
            }
    printf("sum %u\n", sum);
}
