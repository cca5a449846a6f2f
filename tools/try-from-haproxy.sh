#!/usr/bin/env bash
# try-from-haproxy.sh [PROGRAM]: the configurations of tools/from-haproxy.d/ through tools/from-haproxy. What it writes has to be NAME.expected, what it lists as
# lost NAME.lost, line by line, the status 1 where something is lost and else 0, and PROGRAM has to load the result. It prints a line for each, `ok NAME` or
# `FAILED NAME: WHY`, and ends with 0 where all are ok. Without PROGRAM it is ./htx-proxy of this repository. Files that are given behind PROGRAM are tried
# too: their results have to load. Where HAProxy is installed it gets the same requests as `serve` (from-haproxy.d/beside.py), and the answers have to agree.
# It is no part of the gate.
set -u
here="$(cd "$(dirname "$0")/.." && pwd)"
program="$(realpath "${1:-$here/htx-proxy}")"
[ -x "$program" ] || { echo "try-from-haproxy: no program $program" >&2; exit 70; }
work="$(mktemp -d)"
trap 'rm -rf "$work"' EXIT
failed=0
tell() { if [ -z "$2" ]; then echo "ok $1"; else echo "FAILED $1: $2"; failed=1; fi; }

# why the result in $work does not load, with the status that came and that is wanted
loads() {
  [ "$1" = "$2" ] || { echo "the status is $1, and $2 is wanted"; return; }
  "$program" check "$work/made" >"$work/checked" 2>/dev/null || echo "the result does not load: $(cat "$work/checked")"
}

cd "$here/tools/from-haproxy.d" || exit 70
for file in *.cfg; do
  name="${file%.cfg}"
  "$here/tools/from-haproxy" --program "$program" "$file" >"$work/made" 2>"$work/lost"
  status=$?
  grep -v '^htx-proxy: ' "$work/lost" >"$work/listed"
  wanted=0; [ -s "$name.lost" ] && wanted=1
  why="$(loads "$status" "$wanted")"
  [ -n "$why" ] || { diff "$name.expected" "$work/made" >"$work/diff" && diff "$name.lost" "$work/listed" >"$work/diff"; } || why="$(cat "$work/diff")"
  tell "$name" "$why"
done
haproxy="$(PATH="$PATH:/usr/sbin" command -v haproxy)"
if [ -n "$haproxy" ]; then
  why="$(PYTHONDONTWRITEBYTECODE=1 python3 beside.py "$program" "$haproxy" 2>&1)" && { echo "beside HAProxy: $why"; why=; }
  tell "the answers beside HAProxy" "$why"
else
  echo "no HAProxy (Debian's package haproxy): its answers are not compared"
fi
[ "$#" -gt 0 ] && shift
cd - >/dev/null || exit 70
for file; do
  "$here/tools/from-haproxy" --program "$program" "$file" >"$work/made" 2>"$work/lost"
  status=$?
  case "$status" in 0 | 1) why="$(loads "$status" "$status")" ;; *) why="$(tail -1 "$work/lost")" ;; esac
  tell "$file" "$why"
done
exit "$failed"
