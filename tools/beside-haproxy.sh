#!/usr/bin/env bash
# beside-haproxy.sh [PROGRAM]: processor time that `serve` and HAProxy take for an exchange, beside each other: a browser's request with the same rules, answers
# of 2 and of 204800 bytes, all on one connection and a connection each. HAProxy has one thread and `option http-server-close`, so that both open a connection
# to the server for each exchange. A first exchange is not counted. PROGRAM is the built program, as `rt ci` leaves it. What else runs on the machine makes
# each figure larger. Behind it stand requests a second, and processor time a request, of `run` and HAProxy with 1, 64 and 256 connections at once, kept and for
# one request each, by wrk (Debian's package of this name), and ours as a share of HAProxy's time: both are loaded in turns, TURNS (5) of SECONDS_OF_WRK (2) seconds each, and
# the median counts, so that a machine that gets faster or slower meanwhile changes both. With ONLY_AT_ONCE=1 these alone.
set -u
here="$(cd "$(dirname "$0")/.." && pwd)"
program="$(realpath "${1:-$here/crates/htx_proxy/out/htx_proxy}")"
[ -x "$program" ] || { echo "beside-haproxy: no program $program: run \`rt ci\`, or name a built one" >&2; exit 70; }
haproxy="$(command -v haproxy || echo /usr/sbin/haproxy)"
command -v wrk >/dev/null || { echo "beside-haproxy: no wrk (Debian's package of this name)" >&2; exit 70; }
[ -x "$haproxy" ] || { echo "beside-haproxy: no haproxy (Debian's package of this name)" >&2; exit 70; }
work="$(mktemp -d)"
trap 'rm -rf "$work"' EXIT
export PYTHONDONTWRITEBYTECODE=1
"$haproxy" -v | head -1
[ -n "${ONLY_AT_ONCE:-}" ] || python3 "$here/tools/pricing/beside_haproxy.py" "$program" "$haproxy" "$work"
python3 "$here/tools/pricing/beside_at_once.py" "$program" "$haproxy" "$work"
