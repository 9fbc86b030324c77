#!/bin/bash
# Plans P and B pictures by the built planner and compares, with another encoder, the motion and the cost of each of the nine partitions of
# each macroblock, and how many vectors were compared in each picture. The other encoder codes films that are made here, and further films
# whose names are given (in YUV4MPEG2, of sizes in whole macroblocks; their first four pictures are taken); both plan over the pictures that
# it builds. Exit status 1 on any difference.
#
# usage: tools/compare_row_plans.sh [FILM..]
. "$(dirname "$0")/common.sh"
need_reference
build tool_compare
python3 tools/compare_row_plans.py "$folder" "$reference" "$program" "$@"
