#!/usr/bin/env bash
# memory.sh [PROGRAM]: the memory that `run` takes for a set at the default sizes, in KB: private pages of a run with 201 sets less those of one with 1, over 200. From the
# start; with each set's connection at rest behind two exchanges with answers of 2 bytes, and of 204800; of a browser's request with six rules and an `acl` line, with a rule that has a
# pattern and without it. Behind these what a connection takes whose client has sent nothing. PROGRAM is the built program, as `rt ci` leaves it: an unproved build takes more.
set -u
here="$(cd "$(dirname "$0")/.." && pwd)"
program="$(realpath "${1:-$here/crates/htx_proxy/out/htx_proxy}")"
[ -x "$program" ] || { echo "memory: no program $program: run \`rt ci\`, or name a built one" >&2; exit 70; }
ulimit -n 4096 2>/dev/null || { echo "memory: it needs 4096 open files" >&2; exit 70; }
work="$(mktemp -d)"
trap 'rm -rf "$work"' EXIT
export PYTHONDONTWRITEBYTECODE=1
python3 "$here/tools/pricing/memory.py" "$program" "$work"
