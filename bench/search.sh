#!/bin/bash
# Times the search for the best whole-sample vector of 16x16 blocks in windows of range 16 beside a plain full search in C at -O3, all in
# this run: microseconds for a window, once with no vector excluded (every block's sums are equal in the whole window), and once on two
# pictures of a film with moving texture and noise. All sums have to agree.
#
# usage: bench/search.sh [FILM]
# With FILM, a YUV4MPEG2 film in 4:2:0 whose width and height are multiples of 16, also on eight pairs of its pictures, each picture
# searched in the one before it.
. "$(dirname "$0")/../tools/common.sh"
build tool_time
cc -O3 -o "$folder/o3" bench/search.c
cc -O3 -march=x86-64-v2 -o "$folder/o3v2" bench/search.c
python3 - "$folder" "$program" ${1:+"$1"} <<'PY'
import os, random, resource, subprocess, sys

folder, program = sys.argv[1:3]
programs = {"rambovitu": [program, "search"], "C, -O3": [os.path.join(folder, "o3")], "C, -O3, SSE4": [os.path.join(folder, "o3v2")]}
width, height, span, turns = 640, 352, 16, 4
vectors = (2 * span + 1) ** 2
random.seed(1)


def smooth(size):
    """Random texture without edges that noise alone would make: means of 3x3 random numbers, scaled up."""
    noise = [[random.randint(0, 255) for _ in range(size)] for _ in range(size)]
    return [
        [sum(noise[(y + j) % size][(x + i) % size] for j in range(3) for i in range(3)) // 9 for x in range(size)]
        for y in range(size)
    ]


ground, figure = smooth(256), smooth(64)


def picture(t):
    """The ground moves 3 to the left and 1 down for each picture; three squares with a texture of their own move over it."""
    places = [(60 + 7 * t, 40 + 2 * t), (400 - 5 * t, 150 - 6 * t), (250 + 2 * t, 230 + 4 * t)]
    out = bytearray()
    for y in range(height):
        for x in range(width):
            sample = ground[(y - t) % 256][(x + 3 * t) % 256]
            for left, top in places:
                if left <= x < left + 64 and top <= y < top + 64:
                    sample = figure[y - top][x - left]
            out.append(min(255, max(0, sample + random.randint(-2, 2))))
    return bytes(out)


# Each 8x8 block of rows of 100 and 156 in turn has the sum of a grey one, and no vector costs nothing.
stripes = b"".join(bytes([156 if y % 2 else 100]) * width for y in range(height))
films = {
    "nothing excluded": (width, height, [stripes + bytes([128]) * (width * height)]),
    "moving film": (width, height, [picture(1) + picture(0)]),
}


def pairs(name, count):
    """Luma samples of pictures of a film, each behind those of the picture after it, from places all over the film."""
    with open(name, "rb") as f:
        head = f.readline().split()
        across, down = (next(int(word[1:]) for word in head[1:] if word[:1] == letter) for letter in (b"W", b"H"))
        lumas = []
        while f.readline():
            samples = f.read(across * down * 3 // 2)
            lumas.append(samples[:across * down])
    places = [(2 * k + 1) * (len(lumas) - 1) // (2 * count) for k in range(count)]
    return across, down, [lumas[t + 1] + lumas[t] for t in places]


if len(sys.argv) > 3:
    films[os.path.basename(sys.argv[3])] = pairs(sys.argv[3], 8)


def run(words, samples):
    before = resource.getrusage(resource.RUSAGE_CHILDREN)
    done = subprocess.run(words, input=samples, capture_output=True, check=True)
    after = resource.getrusage(resource.RUSAGE_CHILDREN)
    return after.ru_utime - before.ru_utime, done.stdout.decode().split()


for name, (width, height, all_samples) in films.items():
    windows = width // 16 * (height // 16)
    total, compared = dict.fromkeys(programs, 0), 0
    for samples in all_samples:
        best, told = {}, set()
        for _ in range(5):
            for who, program in programs.items():
                words = [*program, str(width), str(height), str(span)]
                alone, line = run([*words, "1"], samples)
                if len(line) > 3:
                    compared_here = int(line[3])
                taken, line = run([*words, str(turns + 1)], samples)
                told.add(line[1])
                best[who] = min(best.get(who, 1e9), taken - alone)
        if len(told) > 1:
            sys.exit(f"the sums differ: {told}")
        compared += compared_here
        for who in programs:
            total[who] += best[who]
    searched = windows * len(all_samples)
    print(f"{name}: {100 - 100 * compared / (searched * vectors):.1f} % of the vectors are excluded")
    for who in programs:
        print(f"{name}  {who:12} {total[who] / turns / searched * 1e6:7.2f} us a window")
    for who in list(programs)[1:]:
        print(f"{name}  time against {who}: {total['rambovitu'] / total[who]:.2f}")
PY
