#!/bin/bash
# Times the search of all nine partitions of each macroblock of a film in windows of range 16, without and with refinement: microseconds
# for a macroblock and reference, over pictures from all over the film, each searched in the one before it, and the share of vectors that
# aren't compared.
#
# usage: bench/nine.sh FILM [CPU]
# FILM is anything that ffmpeg reads; it is scaled to 352x288. With CPU, as x86-64-v3, the program is built for that processor.
. "$(dirname "$0")/../tools/common.sh"
film=${1:?usage: bench/nine.sh FILM [CPU]}
build tool_time
if [ $# -gt 1 ]; then
    (cd crates/tool_time && rt run --cpu "$2" -- no such words) >"$folder/log" 2>&1 </dev/null || true
fi
ffmpeg -loglevel error -i "$film" -frames:v 200 -vf scale=352:288 -pix_fmt gray -f rawvideo "$folder/luma"
python3 - "$folder" "$program" <<'PY'
import os, resource, subprocess, sys

folder, program = sys.argv[1:]
width, height, span, turns, pairs = 352, 288, 16, 4, 8
size, blocks = width * height, width // 16 * (height // 16)
luma = open(os.path.join(folder, "luma"), "rb").read()
pictures = len(luma) // size
if pictures < 2:
    sys.exit("the film has less than two pictures")
chosen = sorted({1 + k * (pictures - 2) // max(pairs - 1, 1) for k in range(pairs)})


def run(times, refined, samples):
    before = resource.getrusage(resource.RUSAGE_CHILDREN)
    words = [program, "nine", str(width), str(height), str(span), str(times), refined]
    done = subprocess.run(words, input=samples, capture_output=True, check=True)
    after = resource.getrusage(resource.RUSAGE_CHILDREN)
    return after.ru_utime - before.ru_utime, done.stdout.split()


for refined, name in (("0", "search"), ("1", "search and refinement")):
    total, compared = 0, 0
    for k in chosen:
        samples = luma[k * size : (k + 1) * size] + luma[(k - 1) * size : k * size]
        best = 1e9
        for _ in range(5):
            alone, line = run(1, refined, samples)
            best = min(best, run(turns + 1, refined, samples)[0] - alone)
        total += best
        compared += int(line[3])
    windows = blocks * len(chosen)
    print(f"{name}: {total / turns / windows * 1e6:.2f} us a macroblock and reference")
share = 1 - compared / (windows * 9 * (2 * span + 1) ** 2)
print(f"{100 * share:.1f} % of the partitions' vectors are excluded")
PY
