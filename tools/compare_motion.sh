#!/bin/bash
# Compares derived motion with that of another encoder: it codes films that are made here, with P and B slices, and says which motion and
# which vector differences each macroblock has. Predicted vectors are the vectors less the differences; P_Skip and direct macroblocks
# have derived motion alone. Which blocks are neighbours is worked out here (ITU-T H.264, clause 6.4.11).
#
# usage: tools/compare_motion.sh
. "$(dirname "$0")/common.sh"
need_reference
build tool_compare

python3 - "$folder" "$reference" "$program" <<'PY'
import os, random, re, subprocess, sys
from common import Counts

folder, reference, program = sys.argv[1:]
ABSENT = "0 -1 0 0 -1 0 0"
# The partitions of each shape in 8x8 blocks: left, top, width and the blocks.
SHAPES = {"16": (0, [(0, 0, 2, 0)]), "16x8": (1, [(0, 0, 2, 0), (0, 1, 2, 2)]), "8x16": (2, [(0, 0, 1, 0), (1, 0, 1, 1)]),
          "8x8": (3, [(0, 0, 1, 0), (1, 0, 1, 1), (0, 1, 1, 2), (1, 1, 1, 3)])}
motion_line = re.compile(r"\s+motion (\d) \[(-?\d+) \((-?\d+),(-?\d+)\) \| (-?\d+) \((-?\d+),(-?\d+)\)\] mvd \((-?\d+),(-?\d+)\) \((-?\d+),(-?\d+)\)")

class Picture:
    def __init__(self, display, kind):
        self.display, self.kind, self.macroblocks, self.slices = display, kind, [], 0

class Macroblock:
    def __init__(self, number, column, row, kind):
        self.slice, self.column, self.row, self.kind = number, column, row, kind
        self.motion, self.mvd = [[-1, 0, 0, -1, 0, 0]] * 4, [[0] * 4] * 4

def pictures(text):
    for line in text.splitlines():
        words = line.split()
        if words[0] == "picture":
            picture = Picture(int(words[4]), words[6])
            yield picture
        elif words[0] == "slice":
            picture.slices += 1
        elif words[0] == "mb":
            column, row = map(int, words[2][1:-1].split(","))
            picture.macroblocks.append(Macroblock(picture.slices, column, row, words[3]))
        elif words[0] == "motion":
            mb, numbers = picture.macroblocks[-1], [int(n) for n in motion_line.match(line).groups()]
            mb.motion, mb.mvd = list(mb.motion), list(mb.mvd)
            mb.motion[numbers[0]], mb.mvd[numbers[0]] = numbers[1:7], numbers[7:]

def block(motion):
    return " ".join(map(str, [1] + motion))

# The field of a partition of macroblock `mb`, of which the first `done` 8x8 blocks are decoded.
def field(places, mb, left, top, width, done):
    def at(x, y):
        place = places.get((x // 2, y // 2))
        k = y % 2 * 2 + x % 2
        if place is None or place.slice != mb.slice or place is mb and k not in done:
            return None
        return block(place.motion[k])
    x, y = 2 * mb.column + left, 2 * mb.row + top
    a, b, c, d = at(x - 1, y), at(x, y - 1), at(x + width, y - 1), at(x - 1, y - 1)
    return [a or ABSENT, b or ABSENT, c or d or ABSENT]

def film(width, height, pictures, noise, pan):
    rows = lambda w, h, f: bytes(min(255, max(0, f(x, y) + random.randint(-noise, noise))) for y in range(h) for x in range(w))
    out = b"YUV4MPEG2 W%d H%d\n" % (width, height)
    for t in range(pictures):
        move = lambda x, y: pan * t if (x // 24 + y // 24) % 3 else 0
        out += b"FRAME\n" + rows(width, height, lambda x, y: 60 + 2 * (x - move(x, y)) % 90 + y + 40 * (((x - move(x, y)) // 8 + (y - t) // 8) % 2))
        out += rows(width // 2, height // 2, lambda x, y: 128 + (x - t) // 2) + rows(width // 2, height // 2, lambda x, y: 120 + y)
    return out

# Each question with the numbers that the other encoder has for it.
def asked(pictures):
    first_of_list_1 = None
    for picture in pictures:
        places = {}
        for mb in picture.macroblocks:
            places[mb.column, mb.row] = mb
            if mb.kind in ("PSkip", "BSkip", "BDirect"):
                beside = field(places, mb, 0, 0, 2, [])
                if mb.kind == "PSkip":
                    yield mb.kind, " ".join(["1 0 0 0 0", *beside, *[ABSENT] * 4]), mb.motion[0]
                else:
                    near = [block(m) for m in first_of_list_1[mb.column, mb.row].motion]
                    yield mb.kind, " ".join(["2 0 0 0 0", *beside, *near]), sum(mb.motion, [])
            elif mb.kind[0] in "PB" and mb.kind != "Pcm":
                shape, parts = SHAPES[mb.kind[1:]]
                for part, (left, top, width, k) in enumerate(parts):
                    done = {0: [], 1: [[], [0, 1]], 2: [[], [0, 2]], 3: [[], [0], [0, 1], [0, 1, 2]]}[shape]
                    beside = field(places, mb, left, top, width, done[part] if shape else [])
                    for l in (0, 1):
                        r, x, y = mb.motion[k][3 * l:3 * l + 3]
                        if r >= 0:
                            dx, dy = mb.mvd[k][2 * l:2 * l + 2]
                            yield mb.kind, " ".join([f"0 {shape} {part} {l} {r}", *beside, *[ABSENT] * 4]), [x - dx, y - dy]
        if picture.kind != "B":
            first_of_list_1 = places

random.seed(1)
counts = Counts()
for noise, pan in ((0, 0), (0, 1), (2, 0), (6, 3), (20, -2)):
    source = os.path.join(folder, "film")
    open(source, "wb").write(film(96, 80, 8, noise, pan))
    for words in (["--qp", "28"], ["--qp", "16", "--slices", "2", "--refs", "3"], ["--qp", "38", "--refs", "4", "--bframes", "3"]):
        paths = {name: os.path.join(folder, name) for name in ("dump", "stream", "recon")}
        subprocess.run([reference, "--stage", "9", "--dump", paths["dump"], "encode", "--in", source, "--out", paths["stream"],
                        "--recon", paths["recon"]] + words, check=True)
        rows = list(asked(list(pictures(open(paths["dump"]).read()))))
        run = subprocess.run([program, "motion"], input="".join(line + "\n" for _, line, _ in rows).encode(), capture_output=True, check=True)
        for (kind, line, wanted), told in zip(rows, run.stdout.decode().splitlines(), strict=True):
            if list(map(int, told.split())) == wanted:
                counts.agree(kind)
            else:
                counts.differ(f"{kind} {' '.join(words)} noise {noise}: {line}: {told}, not {wanted}")
counts.finish("derivations")
PY
