#!/bin/bash
# Plans pictures by the built planner and compares each macroblock's plan and kind with those of a reference encoder, which
# codes films that are made here in I slices and says what it plans.
#
# usage: tools/compare_plans.sh
. "$(dirname "$0")/common.sh"
need_reference
build tool_compare

python3 - "$folder" "$reference" "$program" <<'PY'
import random, re, subprocess, sys
from common import Counts

folder, reference, program = sys.argv[1:]
random.seed(5)


def plane(width, height, sort):
    """Samples of one sort: noise, slopes with a little noise, squares, flat, black and white."""
    noise = random.choice([0, 1, 4, 30])
    a, b, c = random.randint(-6, 6), random.randint(-6, 6), random.randint(0, 255)
    size = random.choice([4, 8, 16])

    def at(x, y):
        if sort == 0:
            return random.randint(0, 255)
        if sort == 1:
            return a * x + b * y + c
        if sort == 2:
            return a * x if (x // size + y // size) % 2 else b * y + c
        if sort == 3:
            return c
        return random.choice([0, 255])

    return bytes(
        min(255, max(0, at(x, y) + random.randint(-noise, noise))) for y in range(height) for x in range(width)
    )


def plans_of(text):
    found = []
    for line in text.splitlines():
        kind = re.match(r" *mb \d+ \(\d+,\d+\) (\w+)", line)
        if kind:
            found.append({"kind": kind[1]})
        plan = re.match(
            r" *plan mode16 (\d+) modes8 \[(.*?)\] modes4 \[(.*?)\] chroma_mode (\d+) activity \d+ intra \[(.*?)\]", line
        )
        if plan:
            found[-1]["line"] = "mode16 %s modes8 %s modes4 %s chroma_mode %s intra %s kind %s" % (
                plan[1],
                plan[2].replace(",", ""),
                plan[3].replace(",", ""),
                plan[4],
                plan[5].replace(",", ""),
                found[-1]["kind"],
            )
    return [macroblock["line"] for macroblock in found]


counts = Counts()
for film in range(40):
    width, height = random.choice([(16, 16), (16, 48), (48, 16), (32, 32), (64, 48), (80, 64)])
    pictures = random.randint(1, 3)
    t8x8 = random.choice(["on", "off"])
    qp = random.randint(2, 51)
    slices = random.randint(1, min(3, height // 16))
    samples = []
    for picture in range(pictures):
        samples.append(
            plane(width, height, random.randint(0, 4))
            + plane(width // 2, height // 2, random.randint(0, 4))
            + plane(width // 2, height // 2, random.randint(0, 4))
        )
    with open(f"{folder}/film.y4m", "wb") as out:
        out.write(b"YUV4MPEG2 W%d H%d\n" % (width, height))
        for picture in samples:
            out.write(b"FRAME\n" + picture)
    words = ["--in", f"{folder}/film.y4m", "--out", f"{folder}/out.264", "--recon", f"{folder}/recon.y4m"]
    words += ["--qp", str(qp), "--slices", str(slices), "--t8x8", t8x8]
    subprocess.check_call([reference, "--stage", "5", "--dump", f"{folder}/dump", "encode"] + words)
    dump = open(f"{folder}/dump").read()
    first_rows = sorted({int(row) for row in re.findall(r"slice \d+ rows (\d+)", dump)})
    coded_qp = int(re.search(r" qp (\d+) coarsest", dump)[1])
    numbers = [width, height, pictures, int(t8x8 == "on"), coded_qp] + first_rows
    lines = "".join(" ".join(map(str, picture)) + "\n" for picture in samples)
    told = subprocess.run([program, "plans", *map(str, numbers)], input=lines, capture_output=True, text=True, check=True)
    planned, expected = told.stdout.splitlines(), plans_of(dump)
    if len(planned) != len(expected):
        counts.differ(f"film {film} has {len(planned)} plans, not {len(expected)}")
    for ours, theirs in zip(planned, expected):
        if ours == theirs:
            counts.agree(theirs.split()[-1])
        else:
            counts.differ(f"film {film}, {numbers}: {ours}, not {theirs}")
counts.finish("macroblocks' plans")
PY
