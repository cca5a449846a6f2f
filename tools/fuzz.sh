#!/usr/bin/env bash
# fuzz.sh [PROGRAM [SECONDS [SEED]]]: sessions at random through `check`, `check --record` and `replay`: the named ones of htx_cases with bytes, lines and
# streams changed, and others made of pieces. Each answer has to be one that the product names; a record has to be read, or refused, as a reader in Python does;
# a refused configuration or record has to be refused alike by `replay`; each report has to be well formed: what servers and the client were sent is read back,
# goes with the ends, the cut and the closes, and under filters alone is what a model in Python makes of the session; and the same session under other turns, or beside itself as a second connection, has to give the same report
# but for the free parts: cuts into chunks, interim heads in front of a refusal, whether a cut was met before the answer had begun, how much a server took that
# stopped. What isn't so is kept in a folder that the last line names, and the status is 1. It is no part of the gate.
set -u
here="$(cd "$(dirname "$0")/.." && pwd)"
program="$(realpath "${1:-$here/crates/htx_proxy/out/htx_proxy}")"
[ -x "$program" ] || { echo "fuzz: no program $program: run \`rt ci\`, or name a built one" >&2; exit 70; }
export PYTHONDONTWRITEBYTECODE=1
exec python3 "$here/tools/fuzzing/fuzz.py" "$program" "$here/crates/htx_cases/data/sessions" "${2:-600}" "${3:-1}"
