#!/usr/bin/env bash
# try-run.sh [PROGRAM]: real clients and servers through `run`, over loopback: curl, wrk, ab and raw sockets in front, nginx, HAProxy, php, node, python and servers that
# misbehave behind. It prints a line for each check, `ok NAME` or `FAILED NAME: WHY`, and ends with 0 where all are ok. PROGRAM is a built program; without it
# the checks are of what ./htx-proxy starts, which is the proved program where one stands, and else an unproved build. SECONDS_OF_WRK (10) is how long wrk runs, and
# REQUESTS (100000) is how many requests ab makes, and MEGABYTES (100) how large the large bodies are. What isn't there is installed from Debian, which wants root. It is no part of the gate.
set -u
here="$(cd "$(dirname "$0")/.." && pwd)"
program="${1:+$(realpath "$1")}"
program="${program:-$here/htx-proxy}"
[ -x "$program" ] || { echo "try-run: no program $program" >&2; exit 70; }
for_wrk="${SECONDS_OF_WRK:-10}" requests="${REQUESTS:-100000}" megabytes="${MEGABYTES:-100}"
PATH="$PATH:/usr/sbin"

# ---- what it needs

declare -A packages=([curl]=curl [wrk]=wrk [ab]=apache2-utils [nginx]=nginx-light [haproxy]=haproxy [php]=php-cli [node]=nodejs [python3]=python3)
missing=()
for tool in "${!packages[@]}"; do command -v "$tool" >/dev/null || missing+=("${packages[$tool]}"); done
if [ "${#missing[@]}" -gt 0 ]; then
  [ "$(id -u)" = 0 ] || { echo "try-run: not there: ${missing[*]}; as root this script installs them" >&2; exit 70; }
  export DEBIAN_FRONTEND=noninteractive
  # nginx and haproxy are not to be started as services here
  printf '#!/bin/sh\nexit 101\n' >/tmp/try-run-policy.$$ && chmod +x /tmp/try-run-policy.$$
  [ -e /usr/sbin/policy-rc.d ] || { mv /tmp/try-run-policy.$$ /usr/sbin/policy-rc.d && policy=/usr/sbin/policy-rc.d; }
  { apt-get update && apt-get install -y --no-install-recommends "${missing[@]}"; } >/tmp/try-run-apt.log 2>&1
  got=$?
  rm -f /tmp/try-run-policy.$$ ${policy:-}
  [ "$got" = 0 ] || { echo "try-run: apt-get failed; its words are in /tmp/try-run-apt.log" >&2; exit 70; }
fi

work="$(mktemp -d)"
started=()
end_all() {
  for pid in "${started[@]}"; do kill "$pid" 2>/dev/null; done
  wait 2>/dev/null
  rm -rf "$work"
}
trap end_all EXIT

# ports that nobody listens at now, below those that the system gives to clients
listens() { grep -qi "^ *[0-9]*: [0-9A-F]*:$(printf '%04X' "$1") 00000000:0000 0A" /proc/net/tcp; }
declare -A taken=()
port=0
free_port() { # the port is in $port
  while :; do
    port=$((20000 + RANDOM % 12000))
    [ -z "${taken[$port]:-}" ] && ! listens "$port" && { taken[$port]=1; return; }
  done
}
await_listener() { # PORT: true once somebody listens there
  for _ in $(seq 3000); do listens "$1" && return 0; sleep 0.02; done
  return 1
}
peers=(python3 "$here/tools/trying/peers.py")

# ---- the servers

free_port; front=$port; free_port; origin=$port; free_port; sink=$port; free_port; silent=$port
free_port; early=$port; free_port; full=$port; free_port; php=$port; free_port; python=$port; free_port; node=$port
free_port; headed=$port; free_port; haproxy=$port
six=; [ -r /proc/net/if_inet6 ] && grep -q '^0*1 .* lo$' /proc/net/if_inet6 && six=yes # a loopback of IPv6
mkdir -p "$work/www" "$work/temp"
echo "hello" >"$work/www/small"
head -c 204800 /dev/urandom >"$work/www/middle"
head -c "$((megabytes * 1048576))" /dev/urandom >"$work/www/large"
head -c 4194304 /dev/urandom >"$work/piece"
cat >"$work/nginx.conf" <<CONF
$([ "$(id -u)" = 0 ] && echo "user root;")
daemon off;
worker_processes 1;
pid $work/nginx.pid;
error_log $work/nginx-error.log;
events { worker_connections 4096; }
http {
  access_log off;
  client_max_body_size 1g;
  client_body_temp_path $work/temp; proxy_temp_path $work/temp; fastcgi_temp_path $work/temp; uwsgi_temp_path $work/temp; scgi_temp_path $work/temp;
  server { listen 127.0.0.1:$origin backlog=4096; root $work/www; location /upload { proxy_pass http://127.0.0.1:$sink/; } }
  server { listen 127.0.0.1:$sink; location / { return 200 "taken"; } }
  server { # its connections begin with a header of the PROXY protocol
    listen 127.0.0.1:$headed proxy_protocol backlog=4096;
    ${six:+listen [::1]:$headed proxy_protocol;}
    root $work/www;
    location /small { }
    location / { return 200 "\$proxy_protocol_addr \$proxy_protocol_port \$proxy_protocol_server_addr \$proxy_protocol_server_port"; }
  }
}
CONF
cat >"$work/haproxy.cfg" <<CONF
defaults
  mode http
  timeout client 20s
  timeout server 20s
  timeout connect 5s
frontend f
  bind 127.0.0.1:$haproxy accept-proxy
  ${six:+bind [::1]:$haproxy accept-proxy}
  http-request return status 200 content-type text/plain lf-string "%[src] %[src_port] %[dst] %[dst_port]"
CONF
echo '<?php echo strlen(file_get_contents("php://input"));' >"$work/www/length.php"
cat >"$work/echo.js" <<'JS'
require('http').createServer((asked, answer) => asked.pipe(answer)).listen(Number(process.argv[2]), '127.0.0.1');
JS
cat >"$work/length.py" <<'PY'
import sys
from http.server import BaseHTTPRequestHandler, ThreadingHTTPServer
class Handler(BaseHTTPRequestHandler):
    def do_POST(self):
        length = str(len(self.rfile.read(int(self.headers["Content-Length"])))).encode()
        self.send_response(200)
        self.send_header("Content-Length", str(len(length)))
        self.end_headers()
        self.wfile.write(length)
    def log_message(self, *_): pass
ThreadingHTTPServer(("127.0.0.1", int(sys.argv[1])), Handler).serve_forever()
PY
nginx -c "$work/nginx.conf" -p "$work" 2>"$work/nginx-said" & started+=($!)
haproxy -db -f "$work/haproxy.cfg" >"$work/haproxy-said" 2>&1 & started+=($!)
php -S "127.0.0.1:$php" -t "$work/www" >/dev/null 2>&1 & started+=($!)
node "$work/echo.js" "$node" & started+=($!)
python3 "$work/length.py" "$python" & started+=($!)
"${peers[@]}" silent_server "$silent" & started+=($!)
"${peers[@]}" early_server "$early" & started+=($!)
"${peers[@]}" full_server "$full" >/dev/null & started+=($!)
for at in "$origin" "$haproxy" "$php" "$node" "$python" "$silent" "$early" "$full"; do
  await_listener "$at" || { echo "try-run: a server does not listen: $(cat "$work/nginx-said" "$work/haproxy-said")" >&2; exit 70; }
done

# ---- the program

good=0 bad=0
says() { # NAME WHY: a check is ok where WHY is empty
  if [ -z "$2" ]; then good=$((good + 1)); echo "ok $1"; else bad=$((bad + 1)); echo "FAILED $1: $2"; fi
}
configure() { # SERVER-PORT LINES..
  printf 'listen p\n  bind 127.0.0.1:%s\n  server s 127.0.0.1:%s\n' "$front" "$1" >"$work/proxy.cfg"
  shift
  for line in "$@"; do printf '  %s\n' "$line" >>"$work/proxy.cfg"; done
}
run() { # OPTIONS..: starts it, with 32 sets where no option says another number; its switch is the pipe at descriptor 7
  [[ "$*" = *--sets* ]] || set -- --sets 32 "$@"
  rm -f "$work/switch"; mkfifo "$work/switch"; : >"$work/lines"
  "$program" run "$work/proxy.cfg" --until-input-ends "$@" <"$work/switch" >"$work/lines" 2>"$work/said" 7>&- & running=$!
  started+=("$running")
  exec 7>"$work/switch"
  for _ in $(seq 3000); do grep -q '^listening ' "$work/lines" && return; sleep 0.02; done
  { echo "try-run: the program does not listen: $(cat "$work/said")" >&2; exit 70; }
}
ended() { # waits at most a minute for its end; its status is in $status
  exec 7>&-
  for _ in $(seq 3000); do kill -0 "$running" 2>/dev/null || break; sleep 0.02; done
  if kill -0 "$running" 2>/dev/null; then kill "$running"; wait "$running" 2>/dev/null; status=late; return; fi
  wait "$running"; status=$?
}
finish() { # NAME WRONG: switches it off, and ends a check in which WRONG was seen so far
  ended
  local wrong="$2"
  [ "$status" = 0 ] || wrong="$wrong status $status, $(head -c 300 "$work/said")"
  [ "$(head -1 "$work/lines")" = "listening ${host:-127.0.0.1}:$front" ] || wrong="$wrong the first line is $(head -1 "$work/lines")"
  says "$1" "$wrong"
}
fetch=(curl -sS --noproxy '*' --max-time 60)
url="http://127.0.0.1:$front"
answers() { # MOST-SECONDS URL: a request is answered 200 within so many seconds
  local got; got="$("${fetch[@]}" -o /dev/null -w '%{http_code} %{time_total}' --max-time "$1" "$2" 2>&1)"
  [ "${got%% *}" = 200 ] || echo "beside it a request gets $got "
}
behind() { # WORDS..: starts them beside the checks, without the switch, which would stay open
  (exec 7>&-; exec "$@") &
}
memory() { awk '/^VmRSS/ { print $2 }' "/proc/$running/status"; }
descriptors() { ls "/proc/$running/fd" | wc -l; }
# the least number of descriptors that is seen within five seconds: clients that have gone are given back one by one, and a slow build takes its time
descriptors_at_rest() { for _ in $(seq 10); do descriptors; sleep 0.5; done | sort -n | head -1; }
wrong_in() { grep -E 'Socket errors|Non-2xx|unable|Failed requests: *[1-9]|apr_' "$1" | tr '\n' ' '; }

# ---- the checks

configure "$origin"
run; "${fetch[@]}" "$url/small" -o "$work/got"; "${fetch[@]}" -I "$url/large" >"$work/head"
finish "GET and HEAD" "$(cmp "$work/got" "$work/www/small" 2>&1; grep -qi "^content-length: $((megabytes * 1048576))" "$work/head" || echo 'no length came')"

run
"${fetch[@]}" "$url/large" -o "$work/got"; "${fetch[@]}" "$url/upload" --data-binary "@$work/piece" -o "$work/taken"
finish "$megabytes MB down, 4 MB up" "$(cmp "$work/got" "$work/www/large" 2>&1; [ "$(cat "$work/taken")" = taken ] || echo 'the upload was not taken')"

run --sets 64
asking=()
for number in $(seq 40); do behind "${fetch[@]}" "$url/middle" -o "$work/got.$number"; asking+=($!); done
wait "${asking[@]}"
finish "40 curls at once" "$(for number in $(seq 40); do cmp "$work/got.$number" "$work/www/middle" 2>&1; done)"

run
"${fetch[@]}" -Z "$url/middle?[1-6]" -o "$work/z.#1" 2>"$work/curl"
finish "curl -Z with six URLs" "$(for number in 1 2 3 4 5 6; do cmp "$work/z.$number" "$work/www/middle" 2>&1; done)"

told() { # OPTIONS-OF-CURL..: 40 curls at once, and what is wrong with the lines of their exchanges: who asked, what, the status and the bytes
  local number asking=() line
  for number in $(seq 40); do
    behind "${fetch[@]}" "$@" -w ': %{local_ip}:%{local_port} GET /middle status %{http_code} bytes %{size_header} %{size_download} ms \n' "$url/middle" -o "$work/got.$number" >"$work/told.$number"; asking+=($!)
  done
  wait "${asking[@]}"
  for number in $(seq 40); do
    line="$(awk '{ print $1, $2, $3, $4, $5, $6, $7, $8 + $9, "ms" }' "$work/told.$number")"
    grep -q -F "$line" "$work/lines" || echo "no line has $line "
  done
}
run --log --sets 64
wrong="$(told)"
finish "a line for each exchange of 40 curls at once" "$wrong$([ "$(grep -c '^connection [0-9]* exchange 1: ' "$work/lines")" = 40 ] || echo "there are $(grep -c ' exchange ' "$work/lines") lines")"

run --log
"${fetch[@]}" "$url/small" -o /dev/null "$url/none?a=b" -o /dev/null -H 'Cookie: secret' "$url/middle" -o /dev/null
"${fetch[@]}" -I "$url/large" -o /dev/null
"${fetch[@]}" --limit-rate 1M --max-time 1 "$url/large" -o /dev/null 2>/dev/null
for _ in $(seq 100); do grep -q 'connection 3' "$work/lines" && break; sleep 0.1; done
large_bytes=$((megabytes * 1048576))
finish "lines of exchanges, and of one that is broken off" "$(for line in 'connection 1 exchange 1: 127.0.0.1:[0-9]* GET /small status 200 bytes [0-9]* ms [0-9]*' \
    'connection 1 exchange 2: 127.0.0.1:[0-9]* GET /none?a=b status 404 bytes [0-9]* ms [0-9]*' 'connection 1 exchange 3: 127.0.0.1:[0-9]* GET /middle status 200 bytes [0-9]* ms [0-9]*' \
    'connection 1: end done exchanges 3' 'connection 2 exchange 1: 127.0.0.1:[0-9]* HEAD /large status 200 bytes [0-9]* ms [0-9]*' \
    'connection 3 exchange 1: 127.0.0.1:[0-9]* GET /large status 200 bytes [0-9]* ms [0-9]*'; do
    grep -q "^$line$" "$work/lines" || echo "no line is $line "; done
  # what the system takes of a smaller body before its client reads may be all of it
  [ "$megabytes" -lt 50 ] || grep -q '^connection 3: client write fault$' "$work/lines" || echo 'it was not broken off '
  awk -v most="$large_bytes" '/^connection 3 exchange/ && most >= 52428800 && $11 + 0 >= most { print "it tells " $11 " bytes" }' "$work/lines")"

run --log --sets 64
ab -q -k -c 64 -n "$((requests / 5))" "$url/small" >"$work/got" 2>&1
finish "$((requests / 5)) requests of ab on 64 kept connections with a log, $(sed -n 's/^Requests per second: *\([0-9.]*\).*/\1/p' "$work/got") a second" \
  "$(wrong_in "$work/got"; [ "$(grep -c ' GET /small status 200 bytes ' "$work/lines")" -ge "$((requests / 5))" ] || echo "$(grep -c ' exchange ' "$work/lines") lines came")"

run --sets 256
wrk -t1 -c200 -d1s "$url/small" >/dev/null 2>&1
before="$(descriptors_at_rest)" least="$(memory)"
wrk -t2 -c200 --timeout 30s "-d${for_wrk}s" "$url/small" >"$work/got" 2>&1
rate="$(sed -n 's/^Requests\/sec: *//p' "$work/got")"
after="$(descriptors_at_rest)" most="$(memory)"
finish "wrk with 200 connections for $for_wrk seconds, $rate requests a second, $before and $after descriptors, $least and $most KB" \
  "$(wrong_in "$work/got"; [ "$after" -le $((before + 2)) ] || echo 'descriptors are lost '; [ "$most" -le $((least + least / 5 + 2000)) ] || echo 'memory grows ')"

run --sets 64
ab -q -k -c 64 -n "$requests" "$url/small" >"$work/got" 2>&1
finish "$requests requests of ab on 64 kept connections, $(sed -n 's/^Requests per second: *\([0-9.]*\).*/\1/p' "$work/got") a second" \
  "$(wrong_in "$work/got"; grep -q "^Complete requests: *$requests" "$work/got" || tail -2 "$work/got")"

run --sets 64
ab -q -c 64 -n "$((requests / 5))" "$url/small" >"$work/got" 2>&1; least="$(memory)"
wrong="$(wrong_in "$work/got"; grep -q "^Complete requests: *$((requests / 5))$" "$work/got" || tail -2 "$work/got")"
ab -q -c 64 -n "$((requests * 3 / 5))" "$url/small" >"$work/got" 2>&1; most="$(memory)"
finish "$((requests / 5)) connections of ab, 64 at once, and $((requests * 3 / 5)) more, $least and $most KB" \
  "$wrong$(wrong_in "$work/got"; grep -q "^Complete requests: *$((requests * 3 / 5))$" "$work/got" || tail -2 "$work/got"; [ "$most" -le $((least + 100 + requests * 3 / 5 / 128)) ] || echo 'memory grows ')"

run --sets 256
behind "${peers[@]}" idle_clients "$front" 500 60 >"$work/idle"; idle=$!; started+=("$idle")
for _ in $(seq 500); do grep -q idle "$work/idle" && break; sleep 0.02; done
wrong="$(grep -q idle "$work/idle" || echo 'they do not connect '; answers 1 "$url/small")"
kill "$idle"; wait "$idle" 2>/dev/null
finish "500 clients that say nothing" "$wrong"

configure "$origin" "timeout client 2s"
run
behind "${peers[@]}" silent_reader "$front" /large 60 >"$work/asked"; reader=$!; started+=("$reader")
for _ in $(seq 500); do grep -q asked "$work/asked" && break; sleep 0.02; done
wrong="$(answers 1 "$url/small")"
for _ in $(seq 150); do grep -q 'connection 1: client write fault' "$work/lines" && break; sleep 0.1; done
wrong="$wrong$(grep -q 'connection 1: client write fault' "$work/lines" || echo 'it was not given up')"
kill "$reader"; wait "$reader" 2>/dev/null
finish "a client that doesn't read" "$wrong"

configure "$origin" "http-request deny if { method POST }"
run
behind "${peers[@]}" dripping_client "$front" /small 10 >"$work/dripped"; dripping=$!; started+=("$dripping")
sleep 0.3; wrong="$(answers 1 "$url/small")"
wait "$dripping"
finish "a client that drips behind a deny, $(cat "$work/dripped") seconds" "$wrong$(awk '$1 == "ever" || $1 > 4 { print "it was let" }' "$work/dripped")"

configure "$php"
run; "${fetch[@]}" "$url/length.php" --data-binary "@$work/piece" -H 'Expect: 100-continue' -o "$work/got"
finish "Expect, and a server (php) that sends no 100" "$([ "$(cat "$work/got")" = 4194304 ] || echo "the answer is $(head -c 100 "$work/got")")"

configure "$python"
run; "${fetch[@]}" "$url/" --data-binary "@$work/piece" -H 'Expect: 100-continue' -o "$work/got"
finish "Expect, and a server (python)" "$([ "$(cat "$work/got")" = 4194304 ] || echo "the answer is $(head -c 100 "$work/got")")"

configure "$node"
run; "${peers[@]}" echo_client "$front" /echo "$megabytes" >"$work/got" 2>&1
finish "an echo of $megabytes MB (node)" "$([ "$(cat "$work/got")" = "200 same" ] || head -c 200 "$work/got")"

configure "$early"
run
"${fetch[@]}" "$url/" --data-binary "@$work/www/large" -H 'Expect:' -o /dev/null -w '%{http_code} %{time_total}' >"$work/got" 2>/dev/null
finish "an early 413, $(cat "$work/got")" "$(awk '$1 != 413 || $2 > 3 { print "it comes late or not at all" }' "$work/got")"

configure "$silent" "timeout server 1s"
run
"${fetch[@]}" "$url/" -o /dev/null -w '%{http_code} %{time_total}' >"$work/got"
finish "a server that is silent past timeout server, $(cat "$work/got")" "$(awk '$1 != 502 || $2 < 0.9 || $2 > 2 { print "another answer, or at another time" }' "$work/got")"

configure "$full" "timeout connect 1s"
run
"${fetch[@]}" "$url/" -o /dev/null -w '%{http_code} %{time_total}' >"$work/got"
finish "a full backlog past timeout connect, $(cat "$work/got")" "$(awk '$1 != 503 || $2 < 0.9 || $2 > 2 { print "another answer, or at another time" }' "$work/got")"

configure "$origin" "timeout http-request 1s" "timeout http-keep-alive 1s"
run; "${peers[@]}" slow_head "$front" 10 >"$work/got"
finish "a head by drips past timeout http-request, $(cat "$work/got")" "$(awk '$1 < 0.9 || $1 > 2 || $3 != 400 { print "another end, or at another time" }' "$work/got")"

run; "${peers[@]}" kept_client "$front" /small 10 >"$work/got"
finish "a kept connection past timeout http-keep-alive, $(cat "$work/got") seconds" "$(awk '$1 < 0.9 || $1 > 2 { print "at another time" }' "$work/got")"

configure "$origin" "timeout http-request 2s"
sed -i "s/^  bind .*/& accept-proxy/" "$work/proxy.cfg"
run --sets 64
behind "${peers[@]}" header_by_drips "$front" 20 >"$work/dripped"; dripping=$!; started+=("$dripping")
behind "${peers[@]}" idle_clients "$front" 100 60 >"$work/idle"; idle=$!; started+=("$idle")
for _ in $(seq 500); do grep -q idle "$work/idle" && break; sleep 0.02; done
asking=()
for number in $(seq 40); do behind "${fetch[@]}" --haproxy-protocol "$url/middle" -o "$work/got.$number"; asking+=($!); done
wait "${asking[@]}"
wrong="$(for number in $(seq 40); do cmp "$work/got.$number" "$work/www/middle" 2>&1; done)"
wait "$dripping"; kill "$idle"; wait "$idle" 2>/dev/null
finish "40 curls with headers of the PROXY protocol, beside silent ones and one that drips, $(cat "$work/dripped") seconds" \
  "$wrong$(awk '$1 == "ever" || $1 > 8 { print "it was let" }' "$work/dripped")"

# servers that are told who asks, by a header of the PROXY protocol in front of each connection

sends() { # OPTION SERVER-ADDRESS BIND..
  printf 'listen p\n  bind %s\n  server s %s %s\n' "${*:3}" "$2" "$1" >"$work/proxy.cfg"
}
all_ends() { # CLIENTS COUNT URL CURL-WORDS..: so many clients at once, each with so many exchanges on one connection; what is wrong with the ends that the server has seen in its headers
  local number urls=() asking=()
  for number in $(seq "$2"); do urls+=("$3"); done
  for number in $(seq "$1"); do
    behind "${fetch[@]}" -g "${@:4}" -w '\n%{local_ip} %{local_port} %{remote_ip} %{remote_port}\n' "${urls[@]}" >"$work/ends.$number"; asking+=($!)
  done
  wait "${asking[@]}"
  for number in $(seq "$1"); do echo "$work/ends.$number"; done | xargs python3 "$here/tools/trying/ends.py" "$2"
}
for option in send-proxy send-proxy-v2; do
  for server in "nginx:$headed" "HAProxy:$haproxy"; do
    of="$option to ${server%:*}" port="${server#*:}"
    sends "$option" "127.0.0.1:$port" "127.0.0.1:$front"
    run --sets 64
    finish "$of, of 40 clients at once with 10 exchanges each" "$(all_ends 40 10 "$url/ends")"
    sends "$option" "127.0.0.1:$port" "127.0.0.1:$front accept-proxy"
    run --sets 64
    finish "$of, of 40 clients behind headers" "$(all_ends 40 10 "$url/ends" --haproxy-protocol)"
    [ -n "$six" ] || continue
    sends "$option" "[::1]:$port" "[::1]:$front"
    host=::1
    run --sets 64
    finish "$of, IPv6 on both sides" "$(all_ends 10 5 "http://[::1]:$front/ends")"
    host=
  done
done

sends send-proxy-v2 "127.0.0.1:$headed" "127.0.0.1:$front"
run --sets 64
ab -q -k -c 64 -n "$((requests / 5))" "$url/small" >"$work/got" 2>&1
finish "$((requests / 5)) requests of ab on 64 kept connections with send-proxy-v2, $(sed -n 's/^Requests per second: *\([0-9.]*\).*/\1/p' "$work/got") a second" \
  "$(wrong_in "$work/got"; grep -q "^Complete requests: *$((requests / 5))$" "$work/got" || tail -2 "$work/got")"

configure "$origin"
run --sets 2 --connections 3
for _ in 1 2 3; do "${fetch[@]}" "$url/small" -o /dev/null; done
for _ in $(seq 300); do kill -0 "$running" 2>/dev/null || break; sleep 0.01; done
kill -0 "$running" 2>/dev/null && wrong="it goes on " || wrong=""
finish "--connections 3" "$wrong$([ "$(grep -c '^connection ' "$work/lines")" = 3 ] || echo "the lines are $(tr '\n' '/' <"$work/lines")")"

run --sets 2
wrong="$("${peers[@]}" kept_in_turn "$front" /small 7 5 | grep -vx 35)"
finish "two sets, seven kept connections, and five requests on each in turn" "${wrong:+$wrong of 35 were answered }"

run --sets 2
for _ in 1 2 3 4 5 6 7 8; do behind "${peers[@]}" kept_client "$front" /small 30 >/dev/null; started+=("$!"); done
kept=("${started[@]: -8}")
sleep 0.5
wrong="$(answers 2 "$url/small")"
sleep 0.2
# one may end where all places are taken, before it is known that nobody waits, and one for the ninth
left=0
for it in "${kept[@]}"; do kill "$it" 2>/dev/null && left=$((left + 1)); done
wait "${kept[@]}" 2>/dev/null
[ "$left" -ge 6 ] || wrong+="$left of eight are still kept "
finish "two sets, all of their eight places taken by kept connections, and a ninth" "$wrong"

configure "$origin" 'http-request set-var(sess.kept) int(1)'
run --sets 2
behind "${peers[@]}" kept_client "$front" /small 30 >/dev/null; first=$!
behind "${peers[@]}" kept_client "$front" /small 30 >/dev/null; second=$!
started+=("$first" "$second")
sleep 0.5
wrong="$(answers 2 "$url/small")"
kill "$first" "$second"; wait "$first" "$second" 2>/dev/null
finish "two sets, two kept connections that hold them for their variables, and a third" "$wrong"
configure "$origin"

run
behind "${fetch[@]}" --limit-rate 10M "$url/large" -o "$work/got"; slow=$!
sleep 0.5; exec 7>&-; sleep 0.3
wrong="$("${fetch[@]}" -o /dev/null "$url/small" 2>/dev/null && echo 'it still accepts ')"
wait "$slow"
finish "its input ends: what is in hand is finished" "$wrong$(cmp "$work/got" "$work/www/large" 2>&1)"

run
"$program" run "$work/proxy.cfg" </dev/null >"$work/second" 2>"$work/why"; status_of_second=$?
wrong="$([ "$status_of_second" = 6 ] || echo "status $status_of_second "; grep -q "127.0.0.1:$front: " "$work/why" || echo "it says $(head -c 200 "$work/why")")"
finish "an address that is taken: $(head -c 200 "$work/why")" "$wrong"

rm -f "$work/switch"; mkfifo "$work/switch"
{ "$program" run "$work/proxy.cfg" --until-input-ends <"$work/switch" 2>"$work/said" 7>&-; echo "$?" >"$work/status"; } | head -1 >"$work/lines" & running=$!
exec 7>"$work/switch"
await_listener "$front"; sleep 0.2
# it listens before it has made its cores, and says so once it has: an unproved build takes seconds
for _ in $(seq 100); do [ -s "$work/lines" ] && break; sleep 0.1; done
wrong="$(answers 1 "$url/small"; answers 1 "$url/small")"
exec 7>&-
wait "$running" 2>/dev/null
says "an output that is gone" "$wrong$([ "$(cat "$work/status")" = 0 ] || echo "status $(cat "$work/status"), $(head -c 200 "$work/said")")"

configure "$origin"
: >"$work/lines"
"$program" run "$work/proxy.cfg" --sets 32 --workers 3 </dev/null >"$work/lines" 2>"$work/said" & running=$!
started+=("$running")
for _ in $(seq 3000); do grep -q '^listening ' "$work/lines" && break; sleep 0.02; done
for number in $(seq 60); do "${fetch[@]}" "$url/small" -o "$work/got.$number"; done
for _ in $(seq 150); do [ "$(grep -c '^connection ' "$work/lines")" = 60 ] && break; sleep 0.02; done
says "three workers answer 60 clients" "$(for number in $(seq 60); do cmp "$work/got.$number" "$work/www/small" 2>&1; done
  [ "$(pgrep -c -P "$running")" = 3 ] || echo "there are $(pgrep -c -P "$running") workers "
  [ "$(grep -c '^listening ' "$work/lines")" = 1 ] || echo 'it does not say once that it listens '
  [ "$(grep -c '^connection [0-9]*: end done exchanges 1$' "$work/lines")" = 60 ] || echo "$(wc -l <"$work/lines") lines came")"

kill -9 "$(pgrep -P "$running" | head -1)"
for _ in $(seq 150); do grep -q 'worker [123] ended by signal 9' "$work/said" && [ "$(pgrep -c -P "$running")" = 3 ] && break; sleep 0.02; done
says "a worker that is killed, and another in its place: $(head -c 200 "$work/said")" "$(grep -q 'worker [123] ended by signal 9' "$work/said" || echo 'it is not said '
  [ "$(pgrep -c -P "$running")" = 3 ] || echo "there are $(pgrep -c -P "$running") workers "; answers 2 "$url/small")"

workers=($(pgrep -P "$running"))
behind "${fetch[@]}" --limit-rate 10M "$url/large" -o "$work/got"; slow=$!
sleep 0.5; kill -TERM "$running"; wait "$running" 2>/dev/null
for _ in $(seq 50); do listens "$front" || break; sleep 0.02; done
wrong="$(listens "$front" && echo 'the port is taken '; kill -0 "$slow" 2>/dev/null || echo 'the answer was over before ')"
wait "$slow"
for _ in $(seq 300); do kill -0 "${workers[@]}" 2>/dev/null || break; sleep 0.02; done
says "the end of the first process: workers finish what is in hand" "$wrong$(cmp "$work/got" "$work/www/large" 2>&1
  for pid in "${workers[@]}"; do kill -0 "$pid" 2>/dev/null && echo 'a worker goes on '; done)"

sends send-proxy-v2 "127.0.0.1:$headed" "127.0.0.1:$front"
: >"$work/lines"
"$program" run "$work/proxy.cfg" --sets 32 --workers 3 </dev/null >"$work/lines" 2>"$work/said" & running=$!
started+=("$running")
for _ in $(seq 3000); do grep -q '^listening ' "$work/lines" && break; sleep 0.02; done
says "three workers with send-proxy-v2" "$(all_ends 40 5 "$url/ends")"
kill -TERM "$running"; wait "$running" 2>/dev/null

echo "$good ok, $bad failed"
[ "$bad" = 0 ]
