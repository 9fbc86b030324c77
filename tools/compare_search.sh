#!/bin/bash
# Compares the built search for motion with that of another encoder, which codes films that are made here in P pictures and says what its
# search found: the refined vector and the cost of each of the nine partitions of each macroblock, and how many vectors it compared in each
# picture. Both search in the pictures that the other encoder builds. Best whole-sample vectors and refined vectors are also compared with
# those of a plain full search in Python, on some macroblocks. Exit status 1 on any difference.
#
# usage: tools/compare_search.sh
. "$(dirname "$0")/common.sh"
need_reference
build tool_compare
python3 tools/compare_search.py "$folder" "$reference" "$program"
