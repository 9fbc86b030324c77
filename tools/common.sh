# What the scripts of tools/ and bench/ begin with; it is sourced, not run. It goes to the top of the repository, and makes a temporary folder,
# `$folder`, which is removed at the end.
set -eu
cd "$(dirname "${BASH_SOURCE[0]}")/.."
folder=$(mktemp -d)
trap 'rm -rf "$folder"' EXIT
# Scripts in Python find tools/common.py, and leave nothing beside it.
export PYTHONPATH=$PWD/tools PYTHONDONTWRITEBYTECODE=1

# Sets `$reference` to the reference encoder: RAMBOVITU_REFERENCE says where it is, otherwise it lies beside the repository. Where there is
# none, the script ends with one line and status 0.
need_reference() {
    reference=${RAMBOVITU_REFERENCE:-../shared/oracle/oracle}
    if [ ! -x "$reference" ]; then
        echo "$0 is skipped: there is no reference encoder at $reference (RAMBOVITU_REFERENCE says where)"
        exit 0
    fi
    reference=$(realpath "$reference")
}

# build CRATE: proves and builds a program, and sets `$program` to it.
build() {
    program=$PWD/crates/$1/out/$1
    # The build ends with a run whose words the program refuses.
    (cd "crates/$1" && rt run -- no such words) >"$folder/log" 2>&1 </dev/null || true
    if ! grep -q "^rt: running " "$folder/log" || [ ! -x "$program" ]; then
        cat "$folder/log" >&2
        echo "$0: $1 wasn't built" >&2
        exit 1
    fi
}
