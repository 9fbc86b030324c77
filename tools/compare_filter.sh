#!/bin/bash
# Compares the built filter with a reference encoder's, on IDR pictures that it codes without the filter and with it, and with a plain
# filter in Python, on random pictures with inter macroblocks too. Exit status 1 on any difference.
#
# usage: tools/compare_filter.sh
. "$(dirname "$0")/common.sh"
need_reference
build tool_compare
python3 tools/compare_filter.py "$folder" "$reference" "$program"
