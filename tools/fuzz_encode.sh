#!/bin/bash
# Gives the built program words, films and settings that are broken at random, and compares what it answers and writes with a reference
# encoder: status, printed line and all outputs. Films are small ones and, where ffmpeg and a film are given, parts of a real one; they are
# cut, changed and lengthened at random, and two of them are cut at every byte of their heads and first pictures. Then outputs that can't be
# written: full disks, closed pipes, folders, missing folders, the input's own name, limits on the size of files and on memory. Exit status 1
# on any difference, where a run doesn't end, and where it ends by a signal.
#
# usage: tools/fuzz_encode.sh [RUNS [SEED [FILM]]]
# RUNS is how many random runs there are, 1000 where it isn't given; SEED is their seed, which is printed.
. "$(dirname "$0")/common.sh"
need_reference
build encode_cli
python3 tools/fuzz_encode.py "$folder" "$reference" "$program" "${1:-1000}" "${2:-$RANDOM}" "${3:-}"
