#!/bin/bash
# Times the deblocking filter on intra macroblocks of QP 30 beside the same filter in plain C at -O2, in this run, and prints
# nanoseconds per macroblock. Both print a sum over the filtered samples, which must be the same.
#
# usage: bench/filter.sh
. "$(dirname "$0")/../tools/common.sh"
build tool_time
${CC:-clang} -O2 -o "$folder/filter" bench/filter.c
python3 - "$folder/filter" "$program" <<'PY'
import subprocess, sys, time

programs = {"plain C": [sys.argv[1]], "proved": [sys.argv[2], "filter"]}
times, macroblocks = 300, 40 * 22

def run(program, *words):
    start = time.perf_counter()
    out = subprocess.run([*program, str(times), *words], check=True, capture_output=True, text=True).stdout
    return time.perf_counter() - start, out

best, sums = {}, {}
for _ in range(5):
    for name, program in programs.items():
        filtered, sums[name] = run(program)
        plain, _ = run(program, "off")
        taken = (filtered - plain) / times / macroblocks * 1e9
        best[name] = min(best.get(name, taken), taken)
for name in programs:
    print(f"{name:8} {best[name]:7.0f} ns a macroblock")
print(f"ratio {best['proved'] / best['plain C']:.2f}")
if sums["plain C"] != sums["proved"]:
    sys.exit("the filtered samples differ")
PY
