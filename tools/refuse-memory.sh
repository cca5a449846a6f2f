#!/usr/bin/env bash
# refuse-memory.sh [PROGRAM]: each allocation of the program refused in turn, alone and with all that follow it. The answer has to be want of memory
# (status 7) with a front of what the whole answer writes, or the whole answer; standard error stays empty, and no signal comes. For each command it prints
# the numbers that were tried and how often each answer came, and each wrong one; the status is 1 where one was wrong. PROGRAM is the built program, as `rt ci`
# leaves it: it takes all its memory by malloc and realloc, which a library of a few lines, made here by cc, stands in front of. It is no part of the gate.
set -u
here="$(cd "$(dirname "$0")/.." && pwd)"
program="$(realpath "${1:-$here/crates/htx_proxy/out/htx_proxy}")"
[ -x "$program" ] || { echo "refuse-memory: no program $program: run \`rt ci\`, or name a built one" >&2; exit 70; }
command -v cc >/dev/null || { echo "refuse-memory: no cc" >&2; exit 70; }
work="$(mktemp -d)"
trap 'rm -rf "$work"' EXIT
cat > "$work/refuse.c" <<'C'
#define _GNU_SOURCE
#include <dlfcn.h>
#include <fcntl.h>
#include <stdlib.h>
#include <unistd.h>

/* Calls so far, the first that is refused (none: 0), and whether those behind it are refused too. */
static unsigned long calls, first, rest;
static void *(*real_malloc)(size_t), *(*real_realloc)(void *, size_t);

__attribute__((constructor)) static void begin(void) {
  real_malloc = (void *(*)(size_t))dlsym(RTLD_NEXT, "malloc");
  real_realloc = (void *(*)(void *, size_t))dlsym(RTLD_NEXT, "realloc");
  if (getenv("REFUSE_FIRST")) first = strtoul(getenv("REFUSE_FIRST"), 0, 10);
  rest = getenv("REFUSE_REST") != 0;
  calls = 0;
}

__attribute__((destructor)) static void end(void) {
  int file = getenv("REFUSE_SAID") ? open(getenv("REFUSE_SAID"), O_WRONLY | O_CREAT | O_TRUNC, 0600) : -1;
  if (file >= 0 && write(file, &calls, sizeof calls) == sizeof calls) close(file);
}

static int refused(void) {
  calls++;
  return first != 0 && (calls == first || (rest && calls > first));
}

void *malloc(size_t size) {
  if (!real_malloc) begin();
  return refused() ? 0 : real_malloc(size);
}

void *realloc(void *at, size_t size) {
  if (!real_realloc) begin();
  return refused() ? 0 : real_realloc(at, size);
}
C
cc -O1 -shared -fPIC -o "$work/refuse.so" "$work/refuse.c" -ldl || exit 70
cp "$here"/crates/htx_cases/data/sessions/two_connections.rec "$work/two.rec"
cat > "$work/plain.cfg" <<'CFG'
listen p
  bind 127.0.0.1:8080
  server s 127.0.0.1:8081
  http-request set-header x-a 1
CFG
cat > "$work/all.cfg" <<'CFG'
global
  tune.bufsize 4096
  tune.maxrewrite 512
defaults
  mode http
  timeout client 30s
listen p
  bind 127.0.0.1:8080
  server s 127.0.0.1:8081
  acl shop path_reg -i ^/shop/
  acl shop path_beg /market/
  acl api path_beg /api/
  http-request set-var(sess.seen) int(1),add(1)
  http-request set-var(txn.path) path,regsub([0-9]+,N,g)
  http-request deny status 429 if api !METH_GET
  http-request redirect prefix http://k code 301 if { path_beg /old }
  http-request return status 200 content-type text/plain lf-string "hi %[req.hdr(host),upper]" hdr x-r %[path] if { path /hi }
  http-request replace-path ^/shop/(.*) /s/\1 if shop
  http-request set-header x-path "%[var(txn.path)] %[var(sess.seen)]"
  http-request replace-value cookie a=(.*) a=<\1>
  http-request replace-header x-b ^(.)(.*)$ \2\1
  http-request del-header ^x-in- -m reg
  http-request add-header x-n %[req.hdr_cnt(cookie)]
  http-response replace-header server ^(.).* \1
  http-response set-header x-s %[status] unless { status 404 }
  http-after-response strict-mode off
  http-after-response set-header x-p %[status]
  http-after-response replace-header content-type text/(.*) \1
  filter body-limit req 4000
  filter body-deny req evil
  filter body-replace req ab X
  filter body-replace res foo barbar
CFG
exec python3 - "$program" "$work" <<'PY'
import collections, os, signal, socket, subprocess, sys, threading, time

program, work = sys.argv[1:3]
os.chdir(work)


def get(path, fields=b""):
    return b"GET %s HTTP/1.1\r\nHost: h\r\n%s\r\n" % (path, fields)


def post(path, body):
    return b"POST %s HTTP/1.1\r\nHost: h\r\nTransfer-Encoding: chunked\r\n\r\n" % path + b"".join(b"%x\r\n%s\r\n" % (len(b), b) for b in body) + b"0\r\nT: v\r\n\r\n"


def answer(status, body, fields=b""):
    return b"HTTP/1.1 %s\r\nServer: nginx\r\nContent-Type: text/html\r\n%sContent-Length: %d\r\n\r\n%s" % (status, fields, len(body), body)


def record(conns, turns):
    out = b"PXREC 2\nconnections %d\n" % len(conns)
    for client, servers in conns:
        out += b"client %d closed\n%s\n" % (len(client), client)
        for server in servers: out += b"server refused\n" if server is None else b"server %d closed all\n%s\n" % (len(server), server)
    return out + b"turns %d\n" % len(turns) + b"".join(turns) + b"end\n"


LAST = b"HTTP/1.1 103 Early Hints\r\nLink: l\r\n\r\nHTTP/1.1 200 OK\r\nTransfer-Encoding: chunked\r\n\r\n4\r\nxfoo\r\n3\r\nooo\r\n0\r\n\r\n"
SESSIONS = [
    (get(b"/shop/12?q", b"Cookie: a=1, b=2, a=3\r\nX-B: abc\r\nX-In-1: y\r\n") + post(b"/market/7", [b"xab", b"aba", b"b"]) + get(b"/old/y") + get(b"/hi") + get(b"/z"), [answer(b"200 OK", b"a foo foo"), answer(b"404 Not Found", b""), LAST]),
    (post(b"/u", [b"no ev", b"il here"]), [answer(b"200 OK", b"ok")]),
    (post(b"/api/1", [b"x"]), []),
    (get(b"/q"), [None]),
    (get(b"/q"), [b"HTTP/1.1 20"]),
    (b"GET /b ", []),
]
with open("all.rec", "wb") as it: it.write(record(SESSIONS, [b"1 c 20\n", b"1 s 5\n", b"2 c 60\n"]))
with open("wrong.cfg", "wb") as it: it.write(b"listen p\n  bind 127.0.0.1:8080\n  server s 127.0.0.1:8081\n  http-request replace-path ( /x\n")
with open("wrong.rec", "wb") as it: it.write(b"PXREC 1\nclient 60 closed\nx\nturns 0\nend\n")


def run(words, first, rest=False, beside=None):
    """The status, what was written, standard error, and how many calls for memory there were."""
    env = {"LD_PRELOAD": f"{work}/refuse.so", "REFUSE_FIRST": str(first), "REFUSE_SAID": f"{work}/said"} | ({"REFUSE_REST": "1"} if rest else {})
    going = subprocess.Popen([program, *words], stdout=subprocess.PIPE, stderr=subprocess.PIPE, env=env)
    if beside: beside(going)
    out, wrong = going.communicate(timeout=60)
    with open("said", "rb") as it: calls = int.from_bytes(it.read(), "little")
    return going.returncode, out, wrong, calls


def free_port():
    s = socket.socket(); s.bind(("127.0.0.1", 0)); port = s.getsockname()[1]; s.close(); return port


def serve_origin(listener):
    """A server that answers each connection's request, until the listener is closed."""
    while True:
        try: link, _ = listener.accept()
        except OSError: return
        try:
            while b"\r\n\r\n" not in link.recv(65536): pass
            link.sendall(answer(b"200 OK", b"a foo"))
        except OSError: pass
        link.close()


def clients(port):
    """Two clients, one after the other, for as long as the program runs."""
    def come(going):
        for _ in range(2):
            while going.poll() is None:
                try:
                    link = socket.create_connection(("127.0.0.1", port), timeout=20); break
                except OSError: time.sleep(0.002)
            else: return
            try:
                link.sendall(get(b"/shop/1")); link.shutdown(socket.SHUT_WR)
                while link.recv(65536): pass
            except OSError: pass
            link.close()
    return come


wrong = 0


def refuse_each(name, words, beside=None):
    """Refuses each allocation of a command in turn, and prints what came."""
    global wrong
    status, whole, said, calls = run(words, 0, beside=beside)
    if said: print(f"{name}: with all memory, standard error: {said[:200]!r}"); wrong += 1
    came, odd = collections.Counter(), collections.defaultdict(list)
    for rest in (False, True):
        for number in range(1, calls + 1):
            got, out, said, _ = run(words, number, rest, beside)
            if (got, out, said) == (status, whole, b""): came["the whole answer"] += 1
            elif got == 7 and whole.startswith(out) and not said: came["want of memory"] += 1
            else: odd[f"status {got}, {len(out)} bytes{'' if whole.startswith(out) else ', no front of the answer'}, {said[:80]!r}"].append(f"{number}{' and on' if rest else ''}")
    wrongs = sum(map(len, odd.values()))
    print(f"{name}: status {status}, allocations 1 to {calls}, each alone and with all that follow: " + ", ".join(f"{what} {n} times" for what, n in came.items()) + f", wrong {wrongs}", flush=True)
    for what, numbers in odd.items(): print(f"  {', '.join(numbers[:20])}: {what}")
    wrong += wrongs


refuse_each("check", ["check", "all.cfg"])
refuse_each("check, refused", ["check", "wrong.cfg"])
refuse_each("check --all", ["check", "--all", "all.cfg"])
refuse_each("check --all, refused", ["check", "--all", "wrong.cfg"])
refuse_each("check --print", ["check", "--print", "all.cfg"])
refuse_each("check --print, refused", ["check", "--print", "wrong.cfg"])
refuse_each("check --record", ["check", "--record", "all.rec"])
refuse_each("replay", ["replay", "plain.cfg", "two.rec"])
refuse_each("replay of patterns, filters and after rules", ["replay", "all.cfg", "all.rec"])
refuse_each("weave over one core", ["weave", "plain.cfg", "two.rec", "1"])
refuse_each("weave over two cores of patterns, filters and after rules", ["weave", "all.cfg", "all.rec", "2"])
refuse_each("replay, refused", ["replay", "plain.cfg", "wrong.rec"])
refuse_each("replay, no file", ["replay", "plain.cfg", "none.rec"])
refuse_each("drill", ["drill", "1", "3"])
refuse_each("no words", [])
refuse_each("--help", ["--help"])
front, back = free_port(), free_port()
with open("serve.cfg", "w") as it: it.write(open("all.cfg").read().replace("127.0.0.1:8080", f"127.0.0.1:{front}").replace("127.0.0.1:8081", f"127.0.0.1:{back}"))
listener = socket.socket(); listener.setsockopt(socket.SOL_SOCKET, socket.SO_REUSEADDR, 1); listener.bind(("127.0.0.1", back)); listener.listen(64)
threading.Thread(target=serve_origin, args=(listener,), daemon=True).start()
refuse_each("serve", ["serve", "serve.cfg", "2"], clients(front))
listener.close()
sys.exit(1 if wrong else 0)
PY
