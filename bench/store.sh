#!/bin/bash
# Times `store` on a film against a reference encoder's `store` and against `cat`, all in this run, and prints the ratios and the peak memory.
#
# usage: bench/store.sh [FILM]
# Without FILM a film of 1920x1088 with 80 pictures (250 MB) is made.
. "$(dirname "$0")/../tools/common.sh"
need_reference
build encode_cli
film=${1:-$folder/film.y4m}
if [ $# -lt 1 ]; then
    python3 - "$film" <<'PY'
import random, sys
random.seed(7)
n = 1920 * 1088 * 3 // 2
base = random.randbytes(n)
with open(sys.argv[1], "wb") as f:
    f.write(b"YUV4MPEG2 W1920 H1088\n")
    for t in range(80):
        k = 4099 * t % n
        f.write(b"FRAME\n" + base[k:] + base[:k])
PY
fi
python3 - "$film" "$folder" "$reference" "$program" <<'PY'
import os, resource, subprocess, sys, time
film, folder, reference, program = sys.argv[1:]
out = os.path.join(folder, "out")
runs = {
    "rambovitu": [program, "store", "--in", film, "--out", out],
    "reference": [reference, "--stage", "1", "store", "--in", film, "--out", out],
    "cat": ["sh", "-c", f"cat {film} > {out}"],
}
best, peak = {}, {}
for _ in range(3):
    for name, words in runs.items():
        start = time.perf_counter()
        process = subprocess.Popen(words)
        _, status, usage = os.wait4(process.pid, 0)
        taken = time.perf_counter() - start
        if status != 0:
            sys.exit(f"{name} failed")
        best[name] = min(best.get(name, taken), taken)
        peak[name] = max(peak.get(name, 0), usage.ru_maxrss)
        os.remove(out)
size = os.path.getsize(film)
for name in runs:
    print(f"{name:10} {best[name]:7.3f} s  {size / best[name] / 1e6:8.0f} MB/s  peak {peak[name] / 1024:7.1f} MiB")
print(f"speed against the reference: {best['reference'] / best['rambovitu']:.2f}")
print(f"speed against cat:           {best['cat'] / best['rambovitu']:.2f}")
PY
