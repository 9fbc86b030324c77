#!/bin/bash
# Times the prediction of 16x16 luma blocks beside plain C at -O3, all in this run: nanoseconds for a block that is copied, and for one
# at the half sample positions that the standard names b (across), h (down) and j (both). All sums have to agree.
#
# usage: bench/motion.sh
. "$(dirname "$0")/../tools/common.sh"
build tool_time
cc -O3 -o "$folder/o3" bench/motion.c
cc -O3 -march=x86-64-v2 -o "$folder/o3v2" bench/motion.c
python3 - "$folder" "$program" <<'PY'
import os, resource, subprocess, sys

folder, program = sys.argv[1:]
programs = {"rambovitu": [program, "motion"], "C, -O3": [os.path.join(folder, "o3")], "C, -O3, SSE4": [os.path.join(folder, "o3v2")]}
blocks = 1024  # of one turn

def run(program, position, times):
    before = resource.getrusage(resource.RUSAGE_CHILDREN)
    done = subprocess.run([*program, position, str(times)], capture_output=True, text=True, check=True)
    after = resource.getrusage(resource.RUSAGE_CHILDREN)
    return after.ru_utime - before.ru_utime, done.stdout

for position, times in (("copy", 20000), ("b", 2000), ("h", 2000), ("j", 1000)):
    best, told = {}, set()
    for _ in range(5):
        for name, program in programs.items():
            alone, _ = run(program, position, 1)
            taken, line = run(program, position, times + 1)
            told.add(line)
            best[name] = min(best.get(name, 1e9), taken - alone)
    if len(told) > 1:
        sys.exit(f"the sums differ: {told}")
    for name in programs:
        print(f"{position:4}  {name:12} {best[name] / times / blocks * 1e9:7.1f} ns a block")
    for name in list(programs)[1:]:
        print(f"{position:4}  time against {name}: {best['rambovitu'] / best[name]:.2f}")
PY
