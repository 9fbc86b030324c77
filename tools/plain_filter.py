# The deblocking filter of ITU-T H.264, clause 8.7, written plainly: sample by sample, for progressive 4:2:0 pictures with filter
# offsets 0. A record is a dict: intra, pcm, transform8, qp, levels (the places of luma levels that aren't 0) and motion (four 8x8
# blocks, each two pairs of a reference index and a vector).

ALPHA = [0] * 16 + [4, 4, 5, 6, 7, 8, 9, 10, 12, 13, 15, 17, 20, 22, 25, 28, 32, 36, 40, 45, 50, 56, 63, 71, 80, 90, 101, 113, 127, 144, 162, 182, 203, 226, 255, 255]
BETA = [0] * 16 + [2, 2, 2, 3, 3, 3, 3, 4, 4, 4, 6, 6, 7, 7, 8, 8, 9, 9, 10, 10, 11, 11, 12, 12, 13, 13, 14, 14, 15, 15, 16, 16, 17, 17, 18, 18]
TC0 = [(0, 0, 0)] * 17 + [(0, 0, 1)] * 4 + [(0, 1, 1)] * 2 + [(1, 1, 1)] * 4 + [(1, 1, 2)] * 4 + [(1, 2, 3)] * 2 + [
    (2, 2, 3), (2, 2, 4), (2, 3, 4), (2, 3, 4), (3, 3, 5), (3, 4, 6), (3, 4, 6), (4, 5, 7), (4, 5, 8), (4, 6, 9), (5, 7, 10),
    (6, 8, 11), (6, 8, 13), (7, 10, 14), (8, 11, 16), (9, 12, 18), (10, 13, 20), (11, 15, 23), (13, 17, 25)]
CHROMA = [29, 30, 31, 32, 32, 33, 34, 34, 35, 35, 36, 36, 37, 37, 37, 38, 38, 38, 39, 39, 39, 39]


def clip3(low, high, value):
    return max(low, min(high, value))


def block_of(x, y):  # the 4x4 block with this luma sample (6.4.13.1)
    x, y = x // 4, y // 4
    return 8 * (y // 2) + 4 * (x // 2) + 2 * (y % 2) + x % 2


def has_level(mb, block):
    first, last = (block // 4 * 64, block // 4 * 64 + 64) if mb["transform8"] else (16 * block, 16 * block + 16)
    return any(first <= place < last for place in mb["levels"])


def vectors_of(mb, block, lists):
    out = []
    for entries, (reference, vector) in zip(lists, mb["motion"][block // 4]):
        if reference >= 0:
            out.append((entries[reference], vector))
    return out


def far(v, w):
    return abs(v[0] - w[0]) >= 4 or abs(v[1] - w[1]) >= 4


def strength(p, pb, q, qb, outer, lists):  # 8.7.2.1
    if p["intra"] or q["intra"]:
        return 4 if outer else 3
    if has_level(p, pb) or has_level(q, qb):
        return 2
    vp, vq = vectors_of(p, pb, lists), vectors_of(q, qb, lists)
    if sorted(picture for picture, _ in vp) != sorted(picture for picture, _ in vq):
        return 1
    if len(vp) == 1:
        return int(far(vp[0][1], vq[0][1]))
    if vp[0][0] != vp[1][0]:
        if vp[0][0] != vq[0][0]:
            vq.reverse()
        return int(far(vp[0][1], vq[0][1]) or far(vp[1][1], vq[1][1]))
    straight = far(vp[0][1], vq[0][1]) or far(vp[1][1], vq[1][1])
    crossed = far(vp[0][1], vq[1][1]) or far(vp[1][1], vq[0][1])
    return int(straight and crossed)


def filter_line(p, q, bs, index, chroma):  # 8.7.2.2 to 8.7.2.4; p and q from the edge outwards
    alpha, beta = ALPHA[index], BETA[index]
    if not (bs and abs(p[0] - q[0]) < alpha and abs(p[1] - p[0]) < beta and abs(q[1] - q[0]) < beta):
        return p, q
    ap, aq = abs(p[2] - p[0]), abs(q[2] - q[0])
    if bs < 4:
        tc0 = TC0[index][bs - 1]
        tc = tc0 + 1 if chroma else tc0 + (ap < beta) + (aq < beta)
        delta = clip3(-tc, tc, (((q[0] - p[0]) << 2) + (p[1] - q[1]) + 4) >> 3)
        new_p, new_q = list(p), list(q)
        new_p[0], new_q[0] = clip3(0, 255, p[0] + delta), clip3(0, 255, q[0] - delta)
        if not chroma and ap < beta:
            new_p[1] = p[1] + clip3(-tc0, tc0, (p[2] + ((p[0] + q[0] + 1) >> 1) - (p[1] << 1)) >> 1)
        if not chroma and aq < beta:
            new_q[1] = q[1] + clip3(-tc0, tc0, (q[2] + ((p[0] + q[0] + 1) >> 1) - (q[1] << 1)) >> 1)
        return new_p, new_q
    sides = []
    for a, b, distance in ((p, q, ap), (q, p, aq)):
        new = list(a)
        if not chroma and distance < beta and abs(p[0] - q[0]) < (alpha >> 2) + 2:
            new[0] = (a[2] + 2 * a[1] + 2 * a[0] + 2 * b[0] + b[1] + 4) >> 3
            new[1] = (a[2] + a[1] + a[0] + b[0] + 2) >> 2
            new[2] = (2 * a[3] + 3 * a[2] + a[1] + a[0] + b[0] + 4) >> 3
        else:
            new[0] = (2 * a[1] + a[0] + b[1] + 2) >> 2
        sides.append(new)
    return sides


def qp_of(mb, chroma):
    qp = 0 if mb["pcm"] else mb["qp"]
    return CHROMA[qp - 30] if chroma and qp >= 30 else qp


def deblock(planes, records, lists, width, height):
    """Filters three planes (lists of rows) in place; width and height count macroblocks."""
    for address in range(width * height):
        mx, my = address % width, address // width
        q_mb = records[address]
        for component, plane in enumerate(planes):
            chroma = component > 0
            scale = 2 if chroma else 1
            for vertical in (True, False):
                for edge in range(0, 16, 8 if chroma else 4):
                    outer = edge == 0
                    if outer and (mx if vertical else my) == 0:
                        continue
                    if not chroma and q_mb["transform8"] and edge % 8:
                        continue
                    p_mb = q_mb if not outer else records[address - (1 if vertical else width)]
                    index = (qp_of(p_mb, chroma) + qp_of(q_mb, chroma) + 1) >> 1
                    for along in range(16 // scale):
                        lx, ly = (edge, along * scale) if vertical else (along * scale, edge)
                        qb = block_of(lx, ly)
                        pb = block_of((lx - 1) % 16, ly) if vertical else block_of(lx, (ly - 1) % 16)
                        bs = strength(p_mb, pb, q_mb, qb, outer, lists)
                        x, y = mx * 16 // scale, my * 16 // scale
                        if vertical:
                            places = [(y + along, x + edge // scale + i) for i in range(-4, 4)]
                        else:
                            places = [(y + edge // scale + i, x + along) for i in range(-4, 4)]
                        line = [plane[r][c] for r, c in places]
                        p, q = filter_line(line[3::-1], line[4:], bs, index, chroma)
                        for (r, c), value in zip(places, list(p)[::-1] + list(q)):
                            plane[r][c] = value
