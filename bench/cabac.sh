#!/bin/bash
# Times the arithmetic coder on 50 million bins of a real stream beside two plain coders in C and beside the coder of a reference encoder,
# all in this run, and prints bins per second and the ratios. The reference says which bins a film that is made here has; its own coder
# is timed inside its runs, by valgrind and perf, and left out where these aren't installed.
#
# usage: bench/cabac.sh
. "$(dirname "$0")/../tools/common.sh"
need_reference
build tool_time
python3 - "$folder" "$reference" "$program" "$PWD" <<'PY'
import os, random, re, resource, subprocess, sys

folder, reference, program, top = sys.argv[1:]
path = lambda name: os.path.join(folder, name)
sys.path.insert(0, os.path.join(top, "bench"))
import reference_coder

# The tables of the plain coders: the ranges from the encoder's own source, the rest from the text of the standard's tables.
source = open(os.path.join(top, "crates/enc_tables/src/arithmetic.rt")).read()
ranges = [int(word) for word in re.findall(r"\d+", source.split("RANGE_LPS: [u8; 256] = [")[1].split("]")[0])]
assert len(ranges) == 256
pairs, next_lps = {}, []
for line in open(os.path.join(top, "tools/context_states.txt")):
    words = line.split()
    if not words or words[0] == "#":
        continue
    if words[0] == "lps":
        next_lps = [int(word) for word in words[1:]]
    elif words[0] in ("all", "P"):
        first, last = map(int, words[1].split("-"))
        pairs.update(zip(range(first, last + 1), (tuple(map(int, word.split(","))) for word in words[2:])))

def start_state(index):  # clause 9.3.1.1, at 26
    m, n = pairs.get(index, (0, 0))
    pre = min(126, max(1, (m * 26 >> 4) + n))
    return (63 - pre, 0) if pre <= 63 else (pre - 64, 1)

with open(path("tables.h"), "w") as f:
    rows = (",".join(map(str, ranges[4 * s:4 * s + 4])) for s in range(64))
    f.write("static const uint8_t range_lps[64][4] = {%s};\n" % ",".join("{%s}" % row for row in rows))
    f.write("static const uint8_t next_lps[64] = {%s};\n" % ",".join(map(str, next_lps)))
    f.write("static const Context start[436] = {%s};\n" % ",".join("{%d,%d}" % start_state(c) for c in range(436)))
subprocess.run(["cc", "-O2", "-DTABLES=\"%s\"" % path("tables.h"), "-o", path("cabac"), os.path.join(top, "bench/cabac.c")], check=True)

random.seed(1)
def film(width, height, pictures, noise):
    rows = lambda w, h, f: bytes(min(255, max(0, f(x, y) + random.randint(-noise, noise))) for y in range(h) for x in range(w))
    out = b"YUV4MPEG2 W%d H%d\n" % (width, height)
    for t in range(pictures):
        out += b"FRAME\n" + rows(width, height, lambda x, y: 60 + 2 * x + y + 40 * (((x - 3 * t) // 8 + (y - t) // 8) % 2))
        out += rows(width // 2, height // 2, lambda x, y: 128 + (x - t) // 2) + rows(width // 2, height // 2, lambda x, y: 120 + y)
    return out

open(path("film"), "wb").write(film(352, 288, 8, 10))
encode = ["encode", "--in", path("film"), "--out", path("stream"), "--recon", path("recon"), "--qp", "26"]
subprocess.run([reference, "--stage", "9", "--bins", path("told"), *encode], check=True)
count = 0
with open(path("bins"), "w") as f:
    for line in open(path("told")):
        words = line.split()
        if words[0] != "mb":
            continue
        for word in words[2:]:
            count += 1
            if word[0] == "b":
                f.write(f"b {word[1]}\n")
            elif word[0] == "t":
                f.write("t 0\n")
            else:
                index, bit = word.split(":")
                f.write(f"c {int(index):03} {bit}\n")
times = -(-50_000_000 // count)

def run(program, words, times):
    before = resource.getrusage(resource.RUSAGE_CHILDREN)
    done = subprocess.run([program, *words, str(times)], stdin=open(path("bins")), capture_output=True, text=True, check=True)
    after = resource.getrusage(resource.RUSAGE_CHILDREN)
    return after.ru_utime - before.ru_utime, done.stdout

programs = {
    "rambovitu": (program, ["bins"]),
    "C, bytes": (path("cabac"), ["bytes"]),
    "C, bits": (path("cabac"), ["bits"]),
}
best, told = {}, set()
for _ in range(3):
    for name, (program, words) in programs.items():
        alone, _ = run(program, words, 1)
        taken, line = run(program, words, times + 1)
        told.add(line)
        best[name] = min(best.get(name, 1e9), taken - alone)
print(told.pop().strip(), f"for {times + 1} codes")
if told:
    sys.exit(f"the sums differ: {told}")
if reference_coder.is_possible():
    best["reference"] = reference_coder.seconds([reference, "--stage", "9", *encode], times, count, folder)
else:
    print("the reference's coder isn't timed: valgrind or perf isn't installed")
for name in best:
    print(f"{name:10} {best[name]:6.3f} s  {times * count / best[name] / 1e6:6.1f} million bins a second")
for name in list(best)[1:]:
    print(f"speed against {name}: {best[name] / best['rambovitu']:.2f}")
PY
