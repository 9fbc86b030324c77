#!/bin/bash
# Times the transforms and the quantiser beside plain C at -O2 and at -O3, all in this run: nanoseconds for a 4x4 and for an 8x8 block
# that is transformed, quantised, rescaled and transformed back. All sums have to agree.
#
# usage: bench/transforms.sh
. "$(dirname "$0")/../tools/common.sh"
build tool_time
cc -O2 -o "$folder/o2" bench/transforms.c
cc -O3 -o "$folder/o3" bench/transforms.c
python3 - "$folder" "$program" <<'PY'
import os, resource, subprocess, sys

folder, program = sys.argv[1:]
programs = {"rambovitu": [program, "blocks"], "C, -O2": [os.path.join(folder, "o2")], "C, -O3": [os.path.join(folder, "o3")]}
blocks = 1024  # of one turn

def run(program, size, times):
    before = resource.getrusage(resource.RUSAGE_CHILDREN)
    done = subprocess.run([*program, size, str(times)], capture_output=True, text=True, check=True)
    after = resource.getrusage(resource.RUSAGE_CHILDREN)
    return after.ru_utime - before.ru_utime, done.stdout

for size, times in (("4x4", 8000), ("8x8", 2000)):
    best, told = {}, set()
    for _ in range(5):
        for name, program in programs.items():
            alone, _ = run(program, size, 1)
            taken, line = run(program, size, times + 1)
            told.add(line)
            best[name] = min(best.get(name, 1e9), taken - alone)
    if len(told) > 1:
        sys.exit(f"the sums differ: {told}")
    for name in programs:
        print(f"{size}  {name:10} {best[name] / times / blocks * 1e9:7.1f} ns a block")
    for name in ("C, -O2", "C, -O3"):
        print(f"{size}  speed against {name}: {best[name] / best['rambovitu']:.2f}")
PY
