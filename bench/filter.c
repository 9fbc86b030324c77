// The deblocking filter in plain C, on the same picture as `tool_time filter`: intra macroblocks, QP 30.
#include <stdint.h>
#include <stdio.h>
#include <stdlib.h>
#include <string.h>

enum { WIDTH = 640, HEIGHT = 352 };

static const uint8_t ALPHA[52] = {0, 0, 0, 0, 0, 0, 0, 0, 0, 0, 0, 0, 0, 0, 0, 0, 4, 4, 5, 6, 7, 8, 9, 10, 12, 13, 15, 17, 20, 22, 25, 28, 32, 36, 40, 45, 50, 56, 63, 71, 80, 90, 101, 113, 127, 144, 162, 182, 203, 226, 255, 255};
static const uint8_t BETA[52] = {0, 0, 0, 0, 0, 0, 0, 0, 0, 0, 0, 0, 0, 0, 0, 0, 2, 2, 2, 3, 3, 3, 3, 4, 4, 4, 6, 6, 7, 7, 8, 8, 9, 9, 10, 10, 11, 11, 12, 12, 13, 13, 14, 14, 15, 15, 16, 16, 17, 17, 18, 18};
static const uint8_t TC0[52][3] = {{0, 0, 0}, {0, 0, 0}, {0, 0, 0}, {0, 0, 0}, {0, 0, 0}, {0, 0, 0}, {0, 0, 0}, {0, 0, 0}, {0, 0, 0}, {0, 0, 0}, {0, 0, 0}, {0, 0, 0}, {0, 0, 0}, {0, 0, 0}, {0, 0, 0}, {0, 0, 0}, {0, 0, 0}, {0, 0, 1}, {0, 0, 1}, {0, 0, 1}, {0, 0, 1}, {0, 1, 1}, {0, 1, 1}, {1, 1, 1}, {1, 1, 1}, {1, 1, 1}, {1, 1, 1}, {1, 1, 2}, {1, 1, 2}, {1, 1, 2}, {1, 1, 2}, {1, 2, 3}, {1, 2, 3}, {2, 2, 3}, {2, 2, 4}, {2, 3, 4}, {2, 3, 4}, {3, 3, 5}, {3, 4, 6}, {3, 4, 6}, {4, 5, 7}, {4, 5, 8}, {4, 6, 9}, {5, 7, 10}, {6, 8, 11}, {6, 8, 13}, {7, 10, 14}, {8, 11, 16}, {9, 12, 18}, {10, 13, 20}, {11, 15, 23}, {13, 17, 25}};
static const uint8_t CHROMA_QP[52] = {0, 1, 2, 3, 4, 5, 6, 7, 8, 9, 10, 11, 12, 13, 14, 15, 16, 17, 18, 19, 20, 21, 22, 23, 24, 25, 26, 27, 28, 29, 29, 30, 31, 32, 32, 33, 34, 34, 35, 35, 36, 36, 37, 37, 37, 38, 38, 38, 39, 39, 39, 39};

typedef struct { uint8_t intra, transform8, pcm, qp; int16_t levels[256]; int8_t refs[4][2]; int16_t vectors[4][2][2]; } Mb;
typedef struct { uint8_t *data; int width, height, stride; } Plane;

static inline int clip3(int low, int high, int v) { return v < low ? low : v > high ? high : v; }
static inline uint8_t clip1(int v) { return v < 0 ? 0 : v > 255 ? 255 : v; }

static void line(uint8_t *q, long step, int chroma, int bs, int alpha, int beta, int tc0)
{
    int p0 = q[-step], p1 = q[-2 * step], q0 = q[0], q1 = q[step];
    if (abs(p0 - q0) >= alpha || abs(p1 - p0) >= beta || abs(q1 - q0) >= beta)
        return;
    int p2 = 0, q2 = 0;
    if (!chroma) {
        p2 = q[-3 * step];
        q2 = q[2 * step];
    }
    int near_p = !chroma && abs(p2 - p0) < beta, near_q = !chroma && abs(q2 - q0) < beta;
    if (bs < 4) {
        int tc = chroma ? tc0 + 1 : tc0 + near_p + near_q;
        int delta = clip3(-tc, tc, (4 * (q0 - p0) + p1 - q1 + 4) >> 3);
        if (near_p)
            q[-2 * step] = p1 + clip3(-tc0, tc0, (p2 + ((p0 + q0 + 1) >> 1) - 2 * p1) >> 1);
        if (near_q)
            q[step] = q1 + clip3(-tc0, tc0, (q2 + ((p0 + q0 + 1) >> 1) - 2 * q1) >> 1);
        q[-step] = clip1(p0 + delta);
        q[0] = clip1(q0 - delta);
        return;
    }
    int small = abs(p0 - q0) < (alpha >> 2) + 2;
    if (near_p && small) {
        int p3 = q[-4 * step];
        q[-step] = (p2 + 2 * p1 + 2 * p0 + 2 * q0 + q1 + 4) >> 3;
        q[-2 * step] = (p2 + p1 + p0 + q0 + 2) >> 2;
        q[-3 * step] = (2 * p3 + 3 * p2 + p1 + p0 + q0 + 4) >> 3;
    } else
        q[-step] = (2 * p1 + p0 + q1 + 2) >> 2;
    if (near_q && small) {
        int q3 = q[3 * step];
        q[0] = (p1 + 2 * p0 + 2 * q0 + 2 * q1 + q2 + 4) >> 3;
        q[step] = (p0 + q0 + q1 + q2 + 2) >> 2;
        q[2 * step] = (2 * q3 + 3 * q2 + q1 + q0 + p0 + 4) >> 3;
    } else
        q[0] = (2 * q1 + q0 + p1 + 2) >> 2;
}

// An edge of four parts, each with its strength.
static void edge(uint8_t *q, long step, long across, int chroma, const uint8_t *bs, int index)
{
    int lines = chroma ? 2 : 4, alpha = ALPHA[index], beta = BETA[index];
    for (int g = 0; g < 4; g++) {
        if (!bs[g])
            continue;
        int tc0 = bs[g] < 4 ? TC0[index][bs[g] - 1] : 0;
        for (int j = 0; j < lines; j++)
            line(q + (lines * g + j) * across, step, chroma, bs[g], alpha, beta, tc0);
    }
}

static int block4(int row, int column) { return 8 * (row / 2) + 4 * (column / 2) + 2 * (row % 2) + column % 2; }

static int coded(const Mb *mb, int b)
{
    const int16_t *l = mb->transform8 ? mb->levels + 64 * (b / 4) : mb->levels + 16 * b;
    for (int i = 0; i < (mb->transform8 ? 64 : 16); i++)
        if (l[i])
            return 1;
    return 0;
}

static int near(const int16_t *v, const int16_t *w) { return abs(v[0] - w[0]) < 4 && abs(v[1] - w[1]) < 4; }

static int strength(int outer, const Mb *p, int pb, const Mb *q, int qb)
{
    if (p->intra || q->intra)
        return outer ? 4 : 3;
    if (coded(p, pb) || coded(q, qb))
        return 2;
    pb /= 4, qb /= 4;
    return !(p->refs[pb][0] == q->refs[qb][0] && near(p->vectors[pb][0], q->vectors[qb][0]));
}

static int filter_qp(const Mb *mb, int chroma)
{
    int qp = mb->pcm ? 0 : mb->qp;
    return chroma ? CHROMA_QP[qp] : qp;
}

static void deblock(Plane *planes, const Mb *mbs)
{
    int width = planes[0].width / 16, height = planes[0].height / 16;
    for (int y = 0; y < height; y++)
        for (int x = 0; x < width; x++) {
            const Mb *mb = mbs + y * width + x;
            for (int d = 0; d < 2; d++)
                for (int k = 0; k < 4; k++) {
                    if (!k && !(d ? y : x))
                        continue;
                    const Mb *p = k ? mb : d ? mb - width : mb - 1;
                    uint8_t bs[4];
                    for (int g = 0; g < 4; g++)
                        bs[g] = d ? strength(!k, p, block4((k + 3) % 4, g), mb, block4(k, g)) : strength(!k, p, block4(g, (k + 3) % 4), mb, block4(g, k));
                    for (int c = 0; c < 3; c++) {
                        int shift = c ? 8 : 16, at = c ? k / 2 * 4 : 4 * k;
                        if (c ? k % 2 : k % 2 && mb->transform8)
                            continue;
                        Plane *plane = planes + c;
                        long s = plane->stride;
                        uint8_t *start = plane->data + shift * y * s + shift * x + (d ? at * s : at);
                        edge(start, d ? s : 1, d ? 1 : s, c > 0, bs, (filter_qp(p, c > 0) + filter_qp(mb, c > 0) + 1) / 2);
                    }
                }
        }
}

int main(int argc, char **argv)
{
    int times = atoi(argv[1]);
    Plane planes[3];
    uint8_t *first[3];
    for (int c = 0; c < 3; c++) {
        int w = c ? WIDTH / 2 : WIDTH, h = c ? HEIGHT / 2 : HEIGHT, pad = c ? 20 : 40;
        planes[c] = (Plane){(uint8_t *)calloc((w + 2 * pad) * (h + 2 * pad), 1) + pad * (w + 2 * pad) + pad, w, h, w + 2 * pad};
        first[c] = malloc(w * h);
        for (int y = 0; y < h; y++)
            for (int x = 0; x < w; x++)
                first[c][y * w + x] = 90 + (x / 8 * 7 + y / 8 * 5) % 12 + (x * 31 + y * 17) % 4;
    }
    int count = WIDTH / 16 * (HEIGHT / 16);
    Mb *mbs = calloc(count, sizeof(Mb));
    for (int m = 0; m < count; m++)
        mbs[m].intra = 1, mbs[m].qp = 30;
    for (int t = 0; t < times; t++) {
        for (int c = 0; c < 3; c++)
            for (int y = 0; y < planes[c].height; y++)
                memcpy(planes[c].data + y * planes[c].stride, first[c] + y * planes[c].width, planes[c].width);
        if (argc == 2)
            deblock(planes, mbs);
    }
    uint32_t sums[3] = {0, 0, 0};
    for (int c = 0; c < 3; c++)
        for (int y = 0; y < planes[c].height; y++)
            for (int x = 0; x < planes[c].width; x++)
                sums[c] = sums[c] * 31 + planes[c].data[y * planes[c].stride + x];
    printf("%u %u %u\n", sums[0], sums[1], sums[2]);
    return 0;
}
