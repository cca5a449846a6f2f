#!/usr/bin/env bash
# try-serve.sh [PROGRAM]: real clients and servers through `serve`, over loopback, that of IPv6 too where there is one: curl, wrk and raw sockets in front, nginx, HAProxy and a server
# that breaks off behind. It prints a line for each check, `ok NAME` or `FAILED NAME: WHY`, and ends with 0 where all are ok. PROGRAM is the built
# program, as `rt ci` leaves it. Where curl, nginx, haproxy or wrk is missing it is installed from Debian, which wants root. It is no part of the gate.
set -u
here="$(cd "$(dirname "$0")/.." && pwd)"
program="$(realpath "${1:-$here/crates/htx_proxy/out/htx_proxy}")"
[ -x "$program" ] || { echo "try-serve: no program $program: run \`rt ci\`, or name a built one" >&2; exit 70; }

# ---- what it needs

missing=()
for tool in curl nginx haproxy wrk; do
  PATH="$PATH:/usr/sbin" command -v "$tool" >/dev/null || missing+=("$tool")
done
if [ "${#missing[@]}" -gt 0 ]; then
  [ "$(id -u)" = 0 ] || { echo "try-serve: not there: ${missing[*]}; as root this script installs them" >&2; exit 70; }
  export DEBIAN_FRONTEND=noninteractive
  # nginx and haproxy are not to be started as services here
  printf '#!/bin/sh\nexit 101\n' >/tmp/try-serve-policy.$$ && chmod +x /tmp/try-serve-policy.$$
  [ -e /usr/sbin/policy-rc.d ] || { mv /tmp/try-serve-policy.$$ /usr/sbin/policy-rc.d && policy=/usr/sbin/policy-rc.d; }
  { apt-get update && apt-get install -y --no-install-recommends "${missing[@]}"; } >/tmp/try-serve-apt.log 2>&1
  got=$?
  rm -f /tmp/try-serve-policy.$$ ${policy:-}
  [ "$got" = 0 ] || { echo "try-serve: apt-get failed; its words are in /tmp/try-serve-apt.log" >&2; exit 70; }
fi
PATH="$PATH:/usr/sbin"

work="$(mktemp -d)"
started=()
end_all() {
  for pid in "${started[@]}"; do kill "$pid" 2>/dev/null; done
  wait 2>/dev/null
  rm -rf "$work"
}
trap end_all EXIT

# ports that nobody listens at now, below those that the system gives to clients
listens() { cat /proc/net/tcp /proc/net/tcp6 2>/dev/null | grep -qi "^ *[0-9]*: [0-9A-F]*:$(printf '%04X' "$1") 0*:0000 0A"; }
free_port() {
  local port
  while :; do
    port=$((20000 + RANDOM % 12000))
    listens "$port" || { echo "$port"; return; }
  done
}
await_listener() { # PORT: true once somebody listens there; no connection is made, since `serve` would count it
  for _ in $(seq 500); do listens "$1" && return 0; sleep 0.01; done
  return 1
}
six=; [ -r /proc/net/if_inet6 ] && grep -q '^0*1 .* lo$' /proc/net/if_inet6 && six=yes # a loopback of IPv6
front="$(free_port)"; origin="$(free_port)"; sink="$(free_port)"; breaking="$(free_port)"; headed="$(free_port)"; behind="$(free_port)"

# ---- nginx as the origin

mkdir -p "$work/www" "$work/kept" "$work/temp"
echo "hello" >"$work/www/small"
head -c 1048576 /dev/urandom >"$work/www/large"
head -c 1048576 /dev/urandom >"$work/piece"
cat >"$work/nginx.conf" <<CONF
$([ "$(id -u)" = 0 ] && echo "user root;")
daemon off;
worker_processes 1;
pid $work/nginx.pid;
error_log $work/nginx-error.log;
events { worker_connections 256; }
http {
  access_log off;
  client_max_body_size 16m;
  client_body_temp_path $work/kept;
  proxy_temp_path $work/temp; fastcgi_temp_path $work/temp; uwsgi_temp_path $work/temp; scgi_temp_path $work/temp;
  server {
    listen 127.0.0.1:$origin;
    ${six:+listen [::1]:$origin;}
    root $work/www;
    location /upload {
      client_body_in_file_only on;
      add_header x-kept \$request_body_file always;
      proxy_pass http://127.0.0.1:$sink/;
    }
    location /who { return 200 "\$http_x_for"; }
  }
  server { # its connections begin with a header of the PROXY protocol
    listen 127.0.0.1:$headed proxy_protocol;
    ${six:+listen [::1]:$headed proxy_protocol;}
    root $work/www;
    location /upload {
      client_body_in_file_only on;
      add_header x-kept \$request_body_file always;
      proxy_pass http://127.0.0.1:$sink/;
    }
    location /large { }
    location / { return 200 "\$proxy_protocol_addr \$proxy_protocol_port \$proxy_protocol_server_addr \$proxy_protocol_server_port"; }
  }
  server { listen 127.0.0.1:$sink; location / { return 200 "taken"; } }
}
CONF
nginx -c "$work/nginx.conf" -p "$work" 2>"$work/nginx-said" & started+=($!)
await_listener "$origin" || { echo "try-serve: nginx does not listen: $(cat "$work/nginx-said")" >&2; exit 70; }

# HAProxy as a server whose connections begin with such a header too
cat >"$work/haproxy.cfg" <<CONF
defaults
  mode http
  timeout client 20s
  timeout server 20s
  timeout connect 5s
frontend f
  bind 127.0.0.1:$behind accept-proxy
  ${six:+bind [::1]:$behind accept-proxy}
  http-request return status 200 content-type text/plain lf-string "%[src] %[src_port] %[dst] %[dst_port]"
CONF
haproxy -db -f "$work/haproxy.cfg" >"$work/haproxy-said" 2>&1 & started+=($!)
await_listener "$behind" || { echo "try-serve: HAProxy does not listen: $(cat "$work/haproxy-said")" >&2; exit 70; }

# a server that breaks off in the middle of each body
python3 - "$breaking" <<'PY' & started+=($!)
import socket, sys
at = socket.create_server(("127.0.0.1", int(sys.argv[1])))
while True:
    peer, _ = at.accept()
    seen = b""
    while b"\r\n\r\n" not in seen:
        more = peer.recv(4096)
        if not more:
            break
        seen += more
    peer.sendall(b"HTTP/1.1 200 OK\r\nContent-Length: 1000\r\n\r\nonly this")
    peer.close()
PY
await_listener "$breaking" || { echo "try-serve: the breaking server does not listen" >&2; exit 70; }

configure() { # SERVER-PORT
  printf 'listen p\n  bind 127.0.0.1:%s\n  server s 127.0.0.1:%s\n' "$front" "$1" >"$work/proxy.cfg"
}

# ---- the checks

good=0 bad=0
says() { # NAME WHY: a check is ok where WHY is empty
  if [ -z "$2" ]; then good=$((good + 1)); echo "ok $1"; else bad=$((bad + 1)); echo "FAILED $1: $2"; fi
}
serve() { # COUNT
  "$program" serve "$work/proxy.cfg" "$1" >"$work/lines" 2>"$work/said" & serving=$!
  started+=("$serving")
  await_listener "$front"
}
ended() { # waits for the program at most 20 seconds; its status is in $status
  for _ in $(seq 2000); do kill -0 "$serving" 2>/dev/null || break; sleep 0.01; done
  if kill -0 "$serving" 2>/dev/null; then kill "$serving"; wait "$serving" 2>/dev/null; status=late; return; fi
  wait "$serving"; status=$?
}
fetch() { curl -sS --noproxy '*' --max-time 20 "$@"; }
url="http://127.0.0.1:$front"

why() { # LINE-PATTERNS..: what is wrong with the program's status and lines
  [ "$status" = 0 ] || { echo "status $status; $(head -c 300 "$work/said")"; return; }
  [ "$(wc -l <"$work/lines")" = "$#" ] || { echo "the lines are: $(head -c 300 "$work/lines" | tr '\n' '/')"; return; }
  local number=1 pattern line
  for pattern in "$@"; do
    line="$(sed -n "${number}p" "$work/lines")"
    [[ "$line" =~ ^connection\ $number:\ $pattern$ ]] || { echo "line $number is: $line"; return; }
    number=$((number + 1))
  done
}
finish() { # NAME WRONG LINE-PATTERNS..: ends a check in which WRONG was seen so far
  ended
  says "$1" "$2$(why "${@:3}")"
}
one() { finish "$1" "$2" 'end done exchanges 1'; }
told() { # WHAT: what is wrong with what was told on standard error, which is one line with a reason
  [ "$(wc -l <"$work/said")" = 1 ] && grep -qF "htx-proxy: $1: " "$work/said" || echo " standard error has: $(head -c 300 "$work/said")"
}

configure "$origin"

serve 1; fetch "$url/small" -o "$work/got"
one "GET" "$(cmp "$work/got" "$work/www/small" 2>&1)"

serve 1; fetch -I "$url/large" >"$work/got"
one "HEAD" "$(grep -qi '^content-length: 1048576' "$work/got" || echo "no length: $(head -c 200 "$work/got") ")"

kept() { # HEADERS: what is wrong with the body that nginx kept
  local file; file="$(sed -n 's/^[Xx]-[Kk]ept: *\([^\r]*\).*/\1/p' "$1" | tail -1)"
  [ -n "$file" ] && cmp "$file" "$work/piece" 2>&1 || echo "the body isn't what was sent "
}
upload() { fetch "$url/upload" --data-binary "@$work/piece" -D "$work/heads" -o /dev/null "$@"; }

serve 1; upload -H 'Expect:'
one "POST of 1 MB by length" "$(kept "$work/heads")"

serve 1; upload -H 'Expect:' -H 'Transfer-Encoding: chunked'
one "POST of 1 MB by chunks" "$(kept "$work/heads")"

serve 1; fetch "$url/large" -o "$work/got"
one "download of 1 MB" "$(cmp "$work/got" "$work/www/large" 2>&1)"

# a request with an `expect` field and one of HTTP/1.0 aren't kept: their answers say so, and the session is over with `closed`
closes() { grep -qi '^connection: close' "$work/heads" || echo 'no connection: close came '; }

serve 1; upload -H 'Expect: 100-continue' --expect100-timeout 10
finish "Expect: 100-continue" "$(grep -q '^HTTP/1.1 100' "$work/heads" || echo 'no 100 came '; closes; kept "$work/heads")" 'end closed exchanges 1'

serve 1; fetch -0 "$url/small" -o "$work/got" -D "$work/heads"
finish "HTTP/1.0" "$(closes; cmp "$work/got" "$work/www/small" 2>&1)" 'end closed exchanges 1'

serve 1; fetch "$url/small?[1-100]" -o /dev/null -w '%{num_connects} %{http_code}\n' >"$work/got"
finish "100 requests on one connection" "$(awk '{ made += $1; if ($2 == 200) good++ } END { if (made != 1 || good != 100) printf "connections %d, answers 200 %d ", made, good }' "$work/got")" 'end done exchanges 100'

half() { # sends the head and a part of a body, and closes; with the word reset it resets, with the word end it sends its end and prints what comes
  python3 - "$front" "$1" <<'PY'
import socket, struct, sys
peer = socket.create_connection(("127.0.0.1", int(sys.argv[1])))
peer.sendall(b"POST /upload HTTP/1.1\r\nHost: h\r\nContent-Length: 1000\r\n\r\nonly this")
if sys.argv[2] == "reset":
    peer.setsockopt(socket.SOL_SOCKET, socket.SO_LINGER, struct.pack("ii", 1, 0))
if sys.argv[2] == "end":
    peer.shutdown(socket.SHUT_WR)
    peer.settimeout(20)
    while more := peer.recv(4096):
        sys.stdout.buffer.write(more)
peer.close()
PY
}
# a client that is gone may be found out when the refusal is written to it
over='(end closed exchanges 1|client write fault)'

serve 1; half end >"$work/got"
finish "a client that sends its end in mid-body" "$(head -1 "$work/got" | grep -q '^HTTP/1.1 400 ' || echo "the answer is $(head -c 100 "$work/got") ")" 'end closed exchanges 1'

serve 2; half close; fetch "$url/small" -o "$work/got"
finish "a client that closes in mid-body, and the next one" "$(cmp "$work/got" "$work/www/small" 2>&1)" "$over" 'end done exchanges 1'

serve 2; half reset; fetch "$url/small" -o "$work/got"
finish "a client that resets in mid-body, and the next one" "$(cmp "$work/got" "$work/www/small" 2>&1)" "$over" 'end done exchanges 1'

configure "$breaking"
serve 1; fetch "$url/any" -o "$work/got" 2>/dev/null; left=$?
finish "a server that closes in mid-body" "$([ "$left" = 18 ] && [ "$(cat "$work/got")" = "only this" ] || echo "curl ended with $left ")" 'end cut exchanges 1'

configure 1
serve 1; fetch "$url/any" -o /dev/null -w '%{http_code}' >"$work/got"
finish "a server that isn't there" "$([ "$(cat "$work/got")" = 503 ] || echo "the answer is $(cat "$work/got") ")" 'end closed exchanges 1'
says "what is told of it" "$(told 'cannot connect to 127.0.0.1:1')"

serve 1; fetch "$url/any" --data-binary "@$work/piece" -H 'Expect:' -o /dev/null -w '%{http_code}' >"$work/got"; left=$?
finish "a refusal to a client that sends 1 MB" "$([ "$left $(cat "$work/got")" = "0 503" ] || echo "curl ended with $left, the answer is $(cat "$work/got") ")" 'end closed exchanges 1'

printf 'listen p\n  bind 127.0.0.1:%s\n  server s 127.0.0.1:%s\n' "$origin" "$sink" >"$work/proxy.cfg"
"$program" serve "$work/proxy.cfg" 1 >"$work/lines" 2>"$work/said"; status=$?
says "an address that is taken" "$([ "$status" = 6 ] && [ "$(cat "$work/lines")" = net ] || echo "status $status, lines $(tr '\n' '/' <"$work/lines")")$(told "cannot listen at 127.0.0.1:$origin")"

if [ -n "$six" ]; then
  printf 'listen p\n  bind [::1]:%s\n  server s [::1]:%s\n' "$front" "$origin" >"$work/proxy.cfg"
  serve 1; fetch -g "http://[::1]:$front/large" -o "$work/got"
  one "IPv6 on both sides" "$(cmp "$work/got" "$work/www/large" 2>&1)"

  printf 'listen p\n  bind [::1]:%s\n  server s 127.0.0.1:%s\n' "$origin" "$sink" >"$work/proxy.cfg"
  "$program" serve "$work/proxy.cfg" 1 >"$work/lines" 2>"$work/said"; status=$?
  says "an IPv6 address that is taken" "$([ "$status" = 6 ] && [ "$(cat "$work/lines")" = net ] || echo "status $status, lines $(tr '\n' '/' <"$work/lines")")$(told "cannot listen at [::1]:$origin")"
fi

# ---- clients whose streams begin with a header of the PROXY protocol

headed() { # LINE: nginx answers who asks, as the proxy's rule tells it
  printf 'listen p\n  bind 127.0.0.1:%s accept-proxy\n  server s 127.0.0.1:%s\n  http-request set-header x-for %%[src],%%[src_port]\n' "$front" "$origin" >"$work/proxy.cfg"
}
ask() { # HEADER [PAUSE]: sends these bytes, given in hexadecimal digits, byte by byte where a pause is given, and then a request; prints what the answer ends with
  python3 - "$front" "$@" <<'PY'
import socket, sys, time
header = bytes.fromhex(sys.argv[2])
pause = float(sys.argv[3]) if len(sys.argv) > 3 else 0
peer = socket.create_connection(("127.0.0.1", int(sys.argv[1])))
peer.setsockopt(socket.IPPROTO_TCP, socket.TCP_NODELAY, 1)
peer.settimeout(20)
got = b""
try:
    for piece in [header[at:at + 1] for at in range(len(header))] if pause else [header]:
        peer.sendall(piece)
        time.sleep(pause)
    peer.sendall(b"GET /who HTTP/1.1\r\nHost: h\r\nConnection: close\r\n\r\n")
    while more := peer.recv(4096):
        got += more
except OSError:
    pass
print(got.split(b"\r\n\r\n", 1)[-1].decode("latin-1") if got else "nothing")
PY
}
hex() { printf '%b' "$1" | od -An -v -tx1 | tr -d ' \n'; }
asked() { # NAME WANTED HEADER [PAUSE]: who asks is told so
  local got; serve 1; got="$(ask "${@:3}")"
  finish "$1" "$([ "$got" = "$2" ] || echo "the answer is $got ")" 'end closed exchanges 1'
}
headed
signature=0d0a0d0a000d0a515549540a

serve 1; fetch --haproxy-protocol "$url/who" -w ' %{local_port}' >"$work/got"
finish "curl --haproxy-protocol" "$(read -r who port <"$work/got"; [ "$who" = "127.0.0.1,$port" ] || echo "the answer is $(cat "$work/got") ")" 'end done exchanges 1'
asked "a header in text" "1.2.3.4,1000" "$(hex 'PROXY TCP4 1.2.3.4 5.6.7.8 1000 80\r\n')"
asked "a header in text of IPv6, byte by byte" "2001:db8:0:0:0:0:0:7,1000" "$(hex 'PROXY TCP6 2001:db8::7 ::1 1000 80\r\n')" 0.005
asked "a header in bytes" "1.2.3.4,1000" "${signature}2111000c0102030405060708""03e80050"
asked "a header in bytes with more behind the addresses, byte by byte" "1.2.3.4,1000" "${signature}211100130102030405060708""03e80050""04000461626364" 0.005
asked "a header that tells nobody" "," "$(hex 'PROXY UNKNOWN\r\n')"
serve 2; got="$(ask "$(hex 'PROXY TCP4 1.2.3.04 5.6.7.8 1000 80\r\n')")"; fetch --haproxy-protocol "$url/small" -o "$work/got"
finish "a header that is none, and the next client" "$([ "$got" = nothing ] || echo "the answer is $got "; cmp "$work/got" "$work/www/small" 2>&1)" 'end closed exchanges 0' 'end done exchanges 1'
serve 2; got="$(ask '')"; fetch --haproxy-protocol "$url/small" -o "$work/got"
finish "no header, and the next client" "$([ "$got" = nothing ] || echo "the answer is $got "; cmp "$work/got" "$work/www/small" 2>&1)" 'end closed exchanges 0' 'end done exchanges 1'

# ---- servers that are told who asks, by a header of the PROXY protocol in front of each connection

sends() { # OPTION SERVER BIND..
  printf 'listen p\n  bind %s\n  server s %s %s\n' "${*:3}" "$2" "$1" >"$work/proxy.cfg"
}
ends=(-w '\n%{local_ip} %{local_port} %{remote_ip} %{remote_port}\n') # behind each answer, both ends of curl's connection as curl sees them
apart() { python3 "$here/tools/trying/ends.py" "$1" "$work/got"; } # COUNT: what is wrong with so many answers in $work/got
says_ends() { # NAME WANTED HEADER: behind this header in front of the client's stream these ends are told
  serve 1; { ask "$3"; echo "$2"; } >"$work/got"
  finish "$1" "$(apart 1)" 'end closed exchanges 1'
}
for option in send-proxy send-proxy-v2; do
  for server in "nginx:$headed" "HAProxy:$behind"; do
    of="$option to ${server%:*}" port="${server#*:}"
    sends "$option" "127.0.0.1:$port" "127.0.0.1:$front"
    serve 1; fetch "$url/ends" "${ends[@]}" >"$work/got"
    one "$of" "$(apart 1)"
    serve 2; fetch "$url/ends?[1-20]" "${ends[@]}" >"$work/got"; fetch "$url/ends" "${ends[@]}" >>"$work/got"
    finish "$of, 20 exchanges on one connection, and another" "$(apart 21)" 'end done exchanges 20' 'end done exchanges 1'

    sends "$option" "127.0.0.1:$port" "127.0.0.1:$front accept-proxy"
    serve 1; fetch --haproxy-protocol "$url/ends?[1-5]" "${ends[@]}" >"$work/got"
    finish "$of, of curl --haproxy-protocol" "$(apart 5)" 'end done exchanges 5'
    says_ends "$of, of a client behind a header" '1.2.3.4 1000 5.6.7.8 80' "$(hex 'PROXY TCP4 1.2.3.4 5.6.7.8 1000 80\r\n')"
    says_ends "$of, of a client of IPv6 behind a header" '2001:db8::7 1000 ::1 80' \
      "${signature}21210024""20010db8000000000000000000000007""00000000000000000000000000000001""03e80050"
    # nginx tells nobody then, and HAProxy the ends of the proxy's own connection
    serve 1; got="$(ask "$(hex 'PROXY UNKNOWN\r\n')")"
    finish "$of, of a client of whom nothing is told" "$([[ "$got" =~ ^$([ "$port" = "$headed" ] && echo ' *' || echo "127\.0\.0\.1 [0-9]+ 127\.0\.0\.1 $port")$ ]] || echo "the answer is $got ")" 'end closed exchanges 1'

    [ -n "$six" ] || continue
    sends "$option" "[::1]:$port" "[::1]:$front"
    serve 1; fetch -g "http://[::1]:$front/ends" "${ends[@]}" >"$work/got"
    one "$of, IPv6 on both sides" "$(apart 1)"
    sends "$option" "127.0.0.1:$port" "[::]:$front"
    serve 1; fetch "$url/ends" "${ends[@]}" >"$work/got"
    one "$of, a client of IPv4 where IPv6 is listened at" "$(apart 1)"
  done
  sends "$option" "127.0.0.1:$headed" "127.0.0.1:$front"
  serve 1; upload -H 'Expect:'
  one "$option, POST of 1 MB" "$(kept "$work/heads")"
  serve 1; fetch "$url/large" -o "$work/got"
  one "$option, download of 1 MB" "$(cmp "$work/got" "$work/www/large" 2>&1)"
  sends "$option" 127.0.0.1:1 "127.0.0.1:$front"
  serve 1; fetch "$url/any" -o /dev/null -w '%{http_code}' >"$work/got"
  finish "$option, a server that isn't there" "$([ "$(cat "$work/got")" = 503 ] || echo "the answer is $(cat "$work/got") ")" 'end closed exchanges 1'
done

# wrk opens a connection that it closes at once, and then one that it keeps; how its last request ends is not said
configure "$origin"
serve 2; wrk -t1 -c1 -d2s "$url/small" >"$work/got" 2>&1
kill "$serving" 2>/dev/null; wait "$serving" 2>/dev/null
says "wrk for 2 seconds, $(sed -n 's/^Requests\/sec: *//p' "$work/got") requests a second" "$(grep -E 'Socket errors|Non-2xx|unable' "$work/got"; grep -q '^Requests/sec: *[1-9]' "$work/got" || echo 'nothing was answered')"

echo "$good ok, $bad failed"
[ "$bad" = 0 ]
