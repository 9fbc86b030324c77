"""How long the arithmetic coder of a reference encoder takes, inside its whole runs.

The reference is a stripped program that can't be asked to code bins alone, so its coder is found by what it does, and then sampled:

- valgrind counts how often each instruction runs while a film is encoded. The function that is called exactly once for each bin divides
  the interval; around its call stands the loop that adds to the code and writes bytes, which is taken as far as its caller's
  instructions run at least once for a hundred bins.
- perf samples runs of the program, and the time of the samples in these two stretches is the coder's.

What the coder asks other functions for (more memory for its bytes, say) isn't counted, nor is the making of bins: both favour the
reference. It runs among the other work of an encoder, though, with colder caches and branch predictions than a coder that runs alone,
which doesn't favour it; how much that is isn't known.
"""
import re
import shutil
import subprocess


def is_possible():
    return bool(shutil.which("valgrind") and shutil.which("perf"))


def counted(path):
    """From callgrind's file: how often each instruction of each function ran, and how often each function was called from where."""
    ran, called, names = {}, {}, {}
    function = callee = None
    place, calls = 0, 0
    with open(path) as file:
        for line in file:
            if named := re.match(r"(fn|cfn)=\((\d+)\)(?: (.*))?$", line):
                kind, number, name = named.groups()
                if name:
                    names[number] = name
                if kind == "fn":
                    function = names[number]
                else:
                    callee = names[number]
            elif told := re.match(r"calls=(\d+) ", line):
                calls = int(told[1])
            elif told := re.match(r"(0x[0-9a-f]+|[+-]\d+|\*) \S+ (\d+)$", line):
                word = told[1]
                if word.startswith("0x"):
                    place = int(word, 16)
                elif word != "*":
                    place += int(word)
                if calls:
                    # the line behind `calls=` has what the callee took
                    places = called.setdefault(callee, {})
                    places[function] = places.get(function, 0) + calls
                    calls = 0
                else:
                    instructions = ran.setdefault(function, {})
                    instructions[place] = instructions.get(place, 0) + int(told[2])
    return ran, called


def stretches(command, bins, folder):
    """The stretches of the program, as addresses of its file, that are its arithmetic coder."""
    path = f"{folder}/counted"
    subprocess.run(
        ["valgrind", "-q", "--tool=callgrind", "--dump-instr=yes", f"--callgrind-out-file={path}", *command],
        check=True, capture_output=True)
    ran, called = counted(path)
    steps = [name for name, callers in called.items() if sum(callers.values()) == bins]
    if len(steps) != 1:
        raise SystemExit(f"no single function of the reference is called once for each of the {bins} bins: {steps}")
    step = steps[0]
    caller = max(called[step], key=called[step].get)
    often = [place for place, times in ran[caller].items() if 100 * times >= bins]
    return [(min(ran[step]), max(ran[step])), (min(often), max(often))]


def seconds(command, runs, bins, folder):
    """The seconds that the coder takes in so many runs of this command, each of which codes so many bins."""
    found = stretches(command, bins, folder)
    program = command[0]
    segments = []
    for line in subprocess.run(["readelf", "-lW", program], check=True, capture_output=True, text=True).stdout.splitlines():
        words = line.split()
        if words[:1] == ["LOAD"]:
            segments.append((int(words[1], 16), int(words[2], 16), int(words[4], 16)))
    path = f"{folder}/sampled"
    turns = ["sh", "-c", 'n=$1; shift; while [ "$n" -gt 0 ]; do "$@" >/dev/null; n=$((n - 1)); done', "sh", str(runs), *command]
    subprocess.run(["perf", "record", "-q", "-e", "cpu-clock:u", "-F", "5000", "-o", path, *turns], check=True, capture_output=True)
    told = subprocess.run(
        ["perf", "script", "-i", path, "-F", "pid,period,ip", "--show-mmap-events"], check=True, capture_output=True, text=True).stdout
    start, taken = {}, 0
    for line in told.splitlines():
        if mapped := re.match(r".*PERF_RECORD_MMAP2 (\d+)/\d+: \[(0x[0-9a-f]+)\(0x[0-9a-f]+\) @ (0x[0-9a-f]+|0) .*\]: r-xp (.*)$", line):
            if mapped[4] == program:
                start[mapped[1]] = int(mapped[2], 16) - int(mapped[3], 16)
        elif sampled := re.match(r"\s*(\d+)\s+(\d+)\s+([0-9a-f]+)\s*$", line):
            if sampled[1] not in start:
                continue
            offset = int(sampled[3], 16) - start[sampled[1]]
            for file_start, address, length in segments:
                if file_start <= offset < file_start + length:
                    place = offset - file_start + address
                    if any(low <= place <= high for low, high in found):
                        taken += int(sampled[2])
    return taken / 1e9
