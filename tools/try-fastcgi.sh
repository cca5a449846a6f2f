#!/usr/bin/env bash
# try-fastcgi.sh [PROGRAM]: php-fpm as the server behind `serve` and behind `run`, over loopback, and curl in front of it. It prints a line for each check, `ok NAME` or `FAILED NAME: WHY`, and ends with
# 0 where all are ok. PROGRAM is the built program, as `rt ci` leaves it. EXCHANGES (10000) is how many requests one connection has in the check of memory. Where curl or php-fpm is missing it is installed from Debian, which wants root. It is no part of the gate.
set -u
here="$(cd "$(dirname "$0")/.." && pwd)"
program="$(realpath "${1:-$here/crates/htx_proxy/out/htx_proxy}")"
exchanges="${EXCHANGES:-10000}"
[ -x "$program" ] || { echo "try-fastcgi: no program $program: run \`rt ci\`, or name a built one" >&2; exit 70; }

# ---- what it needs

fpm() { PATH="$PATH:/usr/sbin" compgen -c php-fpm | sort | tail -1; }
missing=()
command -v curl >/dev/null || missing+=(curl)
[ -n "$(fpm)" ] || missing+=(php-fpm)
if [ "${#missing[@]}" -gt 0 ]; then
  [ "$(id -u)" = 0 ] || { echo "try-fastcgi: not there: ${missing[*]}; as root this script installs them" >&2; exit 70; }
  export DEBIAN_FRONTEND=noninteractive
  # php-fpm is not to be started as a service here
  printf '#!/bin/sh\nexit 101\n' >/tmp/try-fastcgi-policy.$$ && chmod +x /tmp/try-fastcgi-policy.$$
  [ -e /usr/sbin/policy-rc.d ] || { mv /tmp/try-fastcgi-policy.$$ /usr/sbin/policy-rc.d && policy=/usr/sbin/policy-rc.d; }
  { apt-get update && apt-get install -y --no-install-recommends "${missing[@]}"; } >/tmp/try-fastcgi-apt.log 2>&1
  got=$?
  rm -f /tmp/try-fastcgi-policy.$$ ${policy:-}
  [ "$got" = 0 ] || { echo "try-fastcgi: apt-get failed; its words are in /tmp/try-fastcgi-apt.log" >&2; exit 70; }
fi
PATH="$PATH:/usr/sbin"

work="$(mktemp -d)"
started=()
end_all() {
  for pid in "${started[@]}"; do kill "$pid" 2>/dev/null; done
  wait 2>/dev/null
  rm -rf "$work"
}
trap end_all EXIT
chmod 755 "$work"

listens() { cat /proc/net/tcp /proc/net/tcp6 2>/dev/null | grep -qi "^ *[0-9]*: [0-9A-F]*:$(printf '%04X' "$1") 0*:0000 0A"; }
free_port() {
  local port
  while :; do
    port=$((20000 + RANDOM % 12000))
    listens "$port" || { echo "$port"; return; }
  done
}
await_listener() { # PORT: true once somebody listens there; no connection is made, since the program would count it
  for _ in $(seq 500); do listens "$1" && return 0; sleep 0.01; done
  return 1
}
front="$(free_port)"; application="$(free_port)"

# ---- the application

mkdir -p "$work/srv/shop"
cat >"$work/srv/server.php" <<'PHP'
<?php header('content-type: text/plain'); ksort($_SERVER);
foreach ($_SERVER as $name => $value) if (is_string($value)) echo "$name=$value\n";
PHP
cat >"$work/srv/form.php" <<'PHP'
<?php echo $_SERVER['REQUEST_METHOD'], ' ', $_POST['name'] ?? 'none', ' ', $_POST['town'] ?? 'none';
PHP
cat >"$work/srv/upload.php" <<'PHP'
<?php $all = file_get_contents('php://input'); echo strlen($all), ' ', md5($all);
PHP
cat >"$work/srv/large.php" <<'PHP'
<?php header('content-type: application/octet-stream'); readfile(__DIR__ . '/piece');
PHP
cat >"$work/srv/lost.php" <<'PHP'
<?php http_response_code(404); echo 'not here';
PHP
cat >"$work/srv/killed.php" <<'PHP'
<?php header('content-length: 1000'); echo 'only this'; flush(); posix_kill(getmypid(), 9);
PHP
cat >"$work/srv/errors.php" <<'PHP'
<?php $all = fopen('php://stderr', 'w'); fwrite($all, str_repeat("a line of standard error\n", 100)); error_log('and one more'); echo 'said';
PHP
cat >"$work/srv/cookie.php" <<'PHP'
<?php echo strlen($_SERVER['HTTP_COOKIE'] ?? ''), ' ', md5($_SERVER['HTTP_COOKIE'] ?? '');
PHP
cat >"$work/srv/index.php" <<'PHP'
<?php echo $_SERVER['REQUEST_URI'], ' ', $_SERVER['SCRIPT_NAME'], ' ', $_SERVER['QUERY_STRING'];
PHP
cat >"$work/srv/slow.php" <<'PHP'
<?php sleep(1); echo 'slow ', $_SERVER['QUERY_STRING'];
PHP
cat >"$work/srv/late.php" <<'PHP'
<?php sleep(4); echo 'late';
PHP
cp "$work/srv/index.php" "$work/srv/shop/index.php"
head -c 1048576 /dev/urandom >"$work/srv/piece"
chmod -R a+rX "$work/srv"

cat >"$work/fpm.conf" <<CONF
[global]
daemonize = no
error_log = $work/fpm.log
[www]
$([ "$(id -u)" = 0 ] && printf 'user = nobody\ngroup = nogroup\n')
listen = 127.0.0.1:$application
pm = static
pm.max_children = 4
CONF
"$(fpm)" -n -y "$work/fpm.conf" -d extension=posix -d post_max_size=8M >"$work/fpm-said" 2>&1 & started+=($!)
await_listener "$application" || { echo "try-fastcgi: php-fpm does not listen: $(cat "$work/fpm-said" "$work/fpm.log" 2>/dev/null)" >&2; exit 70; }

# ---- the checks

good=0 bad=0
says() { # NAME WHY: a check is ok where WHY is empty
  if [ -z "$2" ]; then good=$((good + 1)); echo "ok $1"; else bad=$((bad + 1)); echo "FAILED $1: $2"; fi
}
configure() { # LINES of `listen`
  printf 'listen app\n  bind 127.0.0.1:%s\n  server php 127.0.0.1:%s proto fcgi\n  fcgi-docroot %s\n' "$front" "$application" "$work/srv" >"$work/proxy.cfg"
  local line; for line in "$@"; do printf '  %s\n' "$line" >>"$work/proxy.cfg"; done
}
serve() { # COUNT: as $how says
  if [ "$how" = run ]; then set -- run "$work/proxy.cfg" --sets 16 --connections "$1"; else set -- serve "$work/proxy.cfg" "$1"; fi
  "$program" "$@" >"$work/lines" 2>"$work/said" & serving=$!
  started+=("$serving")
  await_listener "$front"
}
ended() { # waits for the program at most 20 seconds; its status is in $status
  for _ in $(seq 2000); do kill -0 "$serving" 2>/dev/null || break; sleep 0.01; done
  if kill -0 "$serving" 2>/dev/null; then kill "$serving"; wait "$serving" 2>/dev/null; status=late; return; fi
  wait "$serving"; status=$?
}
most_memory() { awk '/^VmHWM/ { print $2 }' "/proc/$serving/status"; }
fetch() { curl -sS --noproxy '*' --max-time 20 "$@"; }
url="http://127.0.0.1:$front"
finish() { # NAME WRONG LINE: ends a check in which WRONG was seen so far; the one line of a connection that the program is to write
  ended
  local why="$2"
  [ "$status" = 0 ] || why="$why status $status; $(head -c 300 "$work/said")"
  [ "$(grep -v '^listening ' "$work/lines")" = "connection 1: $3" ] || why="$why the lines are: $(head -c 300 "$work/lines" | tr '\n' '/')"
  says "$how: $1" "$why"
}
finish_all() { # NAME WRONG COUNT: the same of so many connections, each with one exchange, in any order
  ended
  local why="$2"
  [ "$status" = 0 ] || why="$why status $status; $(head -c 300 "$work/said")"
  [ "$(grep -c ': end done exchanges 1$' "$work/lines")" = "$3" ] || why="$why the lines are: $(head -c 300 "$work/lines" | tr '\n' '/')"
  says "$how: $1" "$why"
}
one() { finish "$1" "$2" 'end done exchanges 1'; }
is() { # FILE TEXT: what is wrong with a file that is to hold this text
  [ "$(cat "$1")" = "$2" ] || echo "got: $(head -c 300 "$1") "
}
has() { # FILE LINES..: what is wrong with a file that is to have these lines
  local line; for line in "${@:2}"; do grep -qxF "$line" "$1" || echo "no line $line; "; done
}

for how in serve run; do
  configure 'fcgi-param REMOTE_ADDR %[src]' 'fcgi-param HTTPS on if FALSE' 'fcgi-param APP_MODE try unless FALSE' 'http-request set-header x-for %[src]'
  serve 1; fetch "$url/server.php?a=b%20c" -H 'x-y: z' -H 'x_for: evil' -H 'proxy: evil' -o "$work/got"
  one "a page with \$_SERVER" "$(has "$work/got" "SCRIPT_NAME=/server.php" "SCRIPT_FILENAME=$work/srv/server.php" "DOCUMENT_ROOT=$work/srv" 'QUERY_STRING=a=b%20c' 'REQUEST_URI=/server.php?a=b%20c' \
    'REQUEST_METHOD=GET' 'SERVER_PROTOCOL=HTTP/1.1' 'GATEWAY_INTERFACE=CGI/1.1' "HTTP_HOST=127.0.0.1:$front" 'HTTP_X_Y=z' 'HTTP_X_FOR=127.0.0.1' 'REMOTE_ADDR=127.0.0.1' 'APP_MODE=try')$(grep -E '^(HTTP_PROXY|HTTPS|HTTP__)' "$work/got")$(grep evil "$work/got")"

  configure
  serve 1; fetch "$url/form.php" --data-urlencode 'name=a b' --data-urlencode 'town=c' -o "$work/got"
  one "a form by POST" "$(is "$work/got" 'POST a b c')"

  serve 1; fetch "$url/upload.php" --data-binary "@$work/srv/piece" -H 'Expect:' -H 'content-type: application/octet-stream' -o "$work/got"
  one "an upload of 1 MB" "$(is "$work/got" "1048576 $(md5sum <"$work/srv/piece" | cut -d' ' -f1)")"

  serve 1; fetch "$url/large.php" -o "$work/got"
  one "an answer of 1 MB" "$(cmp "$work/got" "$work/srv/piece" 2>&1)"

  serve 1; fetch "$url/lost.php" -D "$work/heads" -o "$work/got"
  one "a status of 404" "$(is "$work/got" 'not here')$(grep -q '^HTTP/1.1 404 Not Found' "$work/heads" || head -1 "$work/heads")"

  serve 1; fetch "$url/none.php" -D "$work/heads" -o /dev/null
  one "a script that isn't there" "$(grep -q '^HTTP/1.1 404 ' "$work/heads" || head -1 "$work/heads")"

  serve 1; fetch "$url/killed.php" -o "$work/got" 2>"$work/curl-said" && cut='curl saw no cut ' || cut=''
  finish "a script that is killed in mid-body" "$cut$(is "$work/got" 'only this')" 'end cut exchanges 1'

  serve 1; fetch "$url/errors.php" -o "$work/got"
  one "standard error" "$(is "$work/got" 'said')"

  cookie="a=$(head -c 9000 /dev/zero | tr '\0' 'c')"
  serve 1; fetch "$url/cookie.php" -H "cookie: $cookie" -o "$work/got"
  one "a cookie of 9 KB" "$(is "$work/got" "9002 $(printf %s "$cookie" | md5sum | cut -d' ' -f1)")"

  serve 1; fetch -I "$url/lost.php" -o "$work/got"
  one "HEAD" "$(grep -q '^HTTP/1.1 404 Not Found' "$work/got" || head -1 "$work/got")"

  configure 'fcgi-index index.php'
  serve 1; fetch "$url/shop/?x=1" -o "$work/got"
  one "a file for a path that ends in /" "$(is "$work/got" '/shop/?x=1 /shop/index.php x=1')"

  configure 'fcgi-script /index.php'
  serve 1; fetch "$url/orders/7?full" -o "$work/got"
  one "a front controller" "$(is "$work/got" '/orders/7?full /index.php full')"

  configure 'http-request deny status 411 if { req.hdr_cnt(transfer-encoding) gt 0 }'
  serve 1; fetch "$url/upload.php" --data-binary "@$work/srv/piece" -H 'Expect:' -H 'Transfer-Encoding: chunked' -D "$work/heads" -o /dev/null
  finish "a request in chunks, which the rule turns away" "$(grep -q '^HTTP/1.1 411 ' "$work/heads" || head -1 "$work/heads")" 'end closed exchanges 1'

  configure
  serve 1; fetch "$url/server.php" "$url/form.php" -o /dev/null -o "$work/got"
  finish "two requests on one connection" "$(is "$work/got" 'GET none none')" 'end done exchanges 2'

  serve 3; fetch "$url/lost.php?[1-500]" -o /dev/null; least="$(most_memory)"
  fetch --max-time 300 "$url/lost.php?[1-$exchanges]" -o /dev/null; most="$(most_memory)"
  fetch "$url/lost.php" -o "$work/got"; wrong="$(is "$work/got" 'not here')"
  ended; [ "$status" = 0 ] || wrong="$wrong status $status"
  grep -q "^connection 2: end done exchanges $exchanges$" "$work/lines" || wrong="$wrong the lines are: $(head -c 300 "$work/lines" | tr '\n' '/')"
  [ "$most" -le $((least + 40 + exchanges / 128)) ] || wrong="$wrong memory grows"
  says "$how: $exchanges requests on one connection, at most $least and $most KB" "$wrong"
done

# ---- many clients at once

how=run
millis() { echo $(($(date +%s%N) / 1000000)); }

configure
serve 8; begun="$(millis)"
clients=()
for number in $(seq 8); do fetch "$url/slow.php?$number" -o "$work/got-$number" & clients+=($!); done
wait "${clients[@]}"
took=$(($(millis) - begun))
wrong=''; for number in $(seq 8); do wrong="$wrong$(is "$work/got-$number" "slow $number")"; done
[ "$took" -lt 5000 ] || wrong="$wrong they took $took milliseconds "
finish_all "eight clients of a script of one second, over four processes of php-fpm" "$wrong" 8

serve 6; clients=()
for number in $(seq 6); do fetch "$url/upload.php" --data-binary "@$work/srv/piece" -H 'Expect:' -H 'content-type: application/octet-stream' -o "$work/got-$number" & clients+=($!); done
wait "${clients[@]}"
wrong=''; for number in $(seq 6); do wrong="$wrong$(is "$work/got-$number" "1048576 $(md5sum <"$work/srv/piece" | cut -d' ' -f1)")"; done
finish_all "six uploads of 1 MB at once" "$wrong" 6

configure 'timeout server 1s'
serve 2; begun="$(millis)"
fetch "$url/late.php" -D "$work/heads" -o /dev/null & late=$!
fetch "$url/lost.php" -o "$work/got"
behind=$(($(millis) - begun))
wait "$late"; took=$(($(millis) - begun))
wrong="$(is "$work/got" 'not here')$(grep -q '^HTTP/1.1 502 ' "$work/heads" || head -1 "$work/heads")"
[ "$behind" -lt 900 ] || wrong="$wrong the other client waited $behind milliseconds "
[ "$took" -lt 3000 ] || wrong="$wrong it was waited for $took milliseconds "
ended; [ "$status" = 0 ] || wrong="$wrong status $status"
says "run: a script that is silent past the server's time, and another client meanwhile" "$wrong"

echo "$good ok, $bad failed"
[ "$bad" = 0 ]
