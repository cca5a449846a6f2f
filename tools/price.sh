#!/usr/bin/env bash
# price.sh [PROGRAM [FOLDER]]: the instructions that `serve` takes for a request, by valgrind's callgrind: a browser's request with six rules and an `acl` line, answers of 2
# and of 204800 bytes, one request a connection and 100 requests on one. Each figure is the difference of two runs, so that what a start costs
# isn't in it. A last column has the same exchanges of one connection by `replay`, whose links are in memory: what is left is the core, and what a record
# and a report cost. Behind it, `weave` beside `replay` of 64 connections, and `explain` beside `replay` of one exchange. PROGRAM is the built program, as `rt ci` leaves it. The dearest functions of each case go to the folder that a second word names.
set -u
here="$(cd "$(dirname "$0")/.." && pwd)"
program="$(realpath "${1:-$here/crates/htx_proxy/out/htx_proxy}")"
[ -x "$program" ] || { echo "price: no program $program: run \`rt ci\`, or name a built one" >&2; exit 70; }
command -v valgrind >/dev/null || { echo "price: no valgrind" >&2; exit 70; }
work="$(mktemp -d)"
trap 'rm -rf "$work"' EXIT
export PYTHONDONTWRITEBYTECODE=1
python3 "$here/tools/pricing/instructions.py" "$program" "$work" "${2:-}"
