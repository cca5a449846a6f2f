#!/usr/bin/env bash
# limits.sh [PROGRAM [WORD]]: large and slow inputs. The first table grows each kind of input to twice its size: instructions by valgrind's callgrind, the most
# memory, and, where the instructions grow by more than 2.2 times, the three dearest functions of the larger run. The second table goes to the limits that the
# product names and one step past them: seconds, memory, and the answer that must come. Both are tables of Markdown, as docs/dev/LIMITS.md has them. With WORD
# only the cases whose name holds it are run. The status is 1 where an answer isn't the one that must come. It is no part of the gate, and takes some minutes.
set -u
here="$(cd "$(dirname "$0")/.." && pwd)"
program="$(realpath "${1:-$here/crates/htx_proxy/out/htx_proxy}")"
[ -x "$program" ] || { echo "limits: no program $program: run \`rt ci\`, or name a built one" >&2; exit 70; }
command -v valgrind >/dev/null && [ -x /usr/bin/time ] || { echo "limits: no valgrind, or no /usr/bin/time" >&2; exit 70; }
work="$(mktemp -d)"
trap 'rm -rf "$work"' EXIT
python3 - "$program" "$work" "${2:-}" <<'PY'
import os, re, subprocess, sys

program, work, word = sys.argv[1:4]
os.chdir(work)
B = b"listen p\n  bind 127.0.0.1:8080\n  server s 127.0.0.1:8081\n"
LARGE = b"global\n  tune.bufsize 262144\n  tune.maxrewrite 0\n"
GET = b"GET /a HTTP/1.1\r\nHost: h\r\n\r\n"
OK = b"HTTP/1.1 200 OK\r\nContent-Length: 2\r\n\r\nok"
CHUNKED = b"POST /u HTTP/1.1\r\nHost: h\r\nTransfer-Encoding: chunked\r\n\r\n"
REPLAY = ("replay", "c", "r")


def record(client, servers, turns=()):
    return b"".join([b"PXREC 1\nclient %d closed\n" % len(client), client, b"\n"] + [part for s in servers for part in (b"server %d closed all\n" % len(s), s, b"\n")]
                    + [b"turns %d\n" % len(turns)] + [t + b"\n" for t in turns] + [b"end\n"])


def session(cfg, client, servers, turns, exchanges, sent, end=b"done", cut=b"none"):
    """Files, words, status and the front of what must be written."""
    return cfg, record(client, servers, turns), REPLAY, 0, b"PXREP 1\nexchanges %d\nend %s\ncut %s\nclient %d clean\n" % (exchanges, end, cut, sent)


def one(cfg, client, turns=()):
    return session(B + cfg, client, [OK], turns, 1, 40)


def refused(cfg, client, turns, cut=b"none"):
    return session(B + cfg, client, [OK], turns, 1, 168, b"closed", cut)


def by_length(body):
    return b"POST /u HTTP/1.1\r\nHost: h\r\nContent-Length: %d\r\n\r\n" % len(body) + body


def head(size):
    front = b"GET / HTTP/1.1\r\nHost: h\r\nX: "
    return front + b"v" * (size - len(front) - 4) + b"\r\n\r\n"


def head_of_fields(size):
    return b"GET / HTTP/1.1\r\nHost: h\r\n" + (b"X: " + b"v" * ((size - 27) // 250 - 5) + b"\r\n") * 250 + b"\r\n"


def section(size, fields=64):
    """A trailer section of so many bytes."""
    each = (size - 2) // fields
    return (b"T: " + b"v" * (each - 5) + b"\r\n") * (fields - 1) + b"T: " + b"v" * (size - 2 - each * (fields - 1) - 5) + b"\r\n\r\n"


def trailers(size, fields=64, bufsize=262144, refuse=False):
    front = CHUNKED + b"3\r\nabc\r\n0\r\n"
    text = front + section(size, fields)
    turns = [b"c %d" % len(front)] + [b"c 1"] * (len(text) - len(front))
    cfg = b"global\n  tune.bufsize %d\n  tune.maxrewrite 0\n" % bufsize
    return refused(cfg, text, turns, b"before") if refuse else one(cfg, text, turns)


def check(lines, rules=0, fault=None):
    cfg = B + b"".join(b"  " + line + b"\n" for line in lines)
    return cfg, None, ("check", "c"), 2 if fault else 0, fault or b"config ok: request rules %d, response rules 0, filters 0\n" % rules


PAD = b"w" * 250


def full(rules, acls, tests_each, lines_of_one=64, more=()):
    """A configuration of so many rules, of which each has the tests of a name of so many lines, and so many acl lines."""
    lines = [b"acl many path -m str /%d%s" % (i, PAD) for i in range(lines_of_one)] + [b"acl a%d path -m str /%d%s" % (i, i, PAD) for i in range(acls - lines_of_one)]
    return lines + [b"http-request set-header x-%d %s if many" % (i, PAD) for i in range(rules)] + list(more)


def rewritten(client, servers, turns=()):
    return None, record(client, servers, turns), ("check", "--record", "r"), 0, b"PXREC 2\nconnections 1\nclient %d closed\n" % len(client)


def record_of(size):
    """A record of exactly so many bytes."""
    spare = size - len(record(b"", [])) - len(str(size)) + 1
    while len(record(b"x" * spare, [])) > size: spare -= 1
    return b"x" * spare


def of_turns(conns, turns):
    each = b"client 28 closed\n" + GET + b"\nserver 40 closed all\n" + OK + b"\n"
    text = b"PXREC 2\nconnections %d\n" % conns + each * conns + b"turns %d\n" % turns + b"".join(b"%d c 1\n" % (i % conns + 1) for i in range(turns)) + b"end\n"
    return B, text, REPLAY, 0, b"PXREP 2\nconnections %d\nconnection 1\nexchanges 1\nend done\n" % conns


def values(rule, size, value=b"a", more=b""):
    """A request with a field of so many values, under a rule."""
    return one(b"  " + rule + b"\n" + LARGE, b"GET / HTTP/1.1\r\nHost: h\r\nX: " + (value + b",") * (size - 1) + b"a\r\n" + more + b"\r\n")


def path(rule, size):
    return one(b"  " + rule + b"\n" + LARGE, b"GET /" + b"a" * size + b" HTTP/1.1\r\nHost: h\r\n\r\n")


NEAR = b"a" * 255 + b"b"
ANSWER = lambda size: b"HTTP/1.1 200 OK\r\nContent-Length: %d\r\n\r\n" % size + b"y" * size
# name, what the size counts, the smaller size, and what is run at a size
GROWTH = [
    ("record read and written", "bytes", 4 << 20, lambda n: rewritten(record_of(n), [])),
    ("record of servers read and written", "servers", 16384, lambda n: rewritten(GET, [OK] * n)),
    ("turns that move a byte", "turns", 50000, lambda n: one(b"", by_length(b"x" * (n // 2)), [b"c 1", b"S 1"] * (n // 2))),
    ("turns that move nothing", "turns", 200000, lambda n: one(b"", GET, [b"s 1"] * n)),
    ("turns of all connections", "connections, 900 turns each", 32, lambda n: of_turns(n, 900 * n)),
    ("body by its length", "bytes", 4 << 20, lambda n: one(b"", by_length(b"x" * n))),
    ("body in chunks of a byte", "bytes", 50000, lambda n: one(b"", CHUNKED + b"1\r\nx\r\n" * n + b"0\r\n\r\n")),
    ("body in chunks of 4096 bytes", "bytes", 4 << 20, lambda n: one(b"", CHUNKED + (b"1000\r\n" + b"x" * 4096 + b"\r\n") * (n // 4096) + b"0\r\n\r\n")),
    ("fields received, transferred and written", "fields", 100, lambda n: one(LARGE, GET[:-2] + b"X: 1234567890123456789012345678901234567890\r\n" * n + b"\r\n")),
    ("answer's body", "bytes", 4 << 20, lambda n: session(B, GET, [ANSWER(n)], [], 1, len(ANSWER(n)))),
    ("answer's body, taken byte by byte", "bytes", 50000, lambda n: session(B, GET, [ANSWER(n)], [b"c 28", b"S 47"] + [b"s 1", b"C 1"] * n, 1, len(ANSWER(n)))),
    ("exchanges on a connection", "exchanges", 1000, lambda n: session(B, GET * n, [OK] * n, [], n, 40 * n)),
    ("exchanges at the largest buffers", "exchanges", 1000, lambda n: session(B + LARGE, GET * n, [OK] * n, [], n, 40 * n)),
    ("generated exchanges", "exchanges", 250, lambda n: (None, None, ("drill", "1", str(n)), 0, b"exchanges %d\n" % n)),
    ("interim heads", "heads", 10000, lambda n: session(B, GET, [b"HTTP/1.1 100 Continue\r\n\r\n" * n + OK], [], 1, 40 + 25 * n)),
    ("empty lines in front of a head, byte by byte", "bytes", 50000, lambda n: one(b"", b"\r\n" * (n // 2) + GET, [b"c 1"] * n)),
    ("head of one long field, byte by byte", "bytes", 65536, lambda n: one(LARGE, head(n), [b"c 1"] * n)),
    ("head of 250 fields, byte by byte", "bytes", 65536, lambda n: one(LARGE, head_of_fields(n), [b"c 1"] * n)),
    ("head without an end, byte by byte", "bytes", 65536, lambda n: refused(b"global\n  tune.bufsize %d\n  tune.maxrewrite 0\n" % n, head(n)[:-4] + b"vvvv", [b"c 1"] * n)),
    ("trailers of 64 fields, byte by byte", "bytes", 32768, trailers),
    ("trailers of one field, byte by byte", "bytes", 32768, lambda n: trailers(n, 1)),
    ("elements of Connection beside 250 fields", "elements", 8192, lambda n: one(LARGE, b"GET / HTTP/1.1\r\nHost: h\r\nConnection: " + b",".join([b"a"] * n) + b"\r\n" + b"X: 1\r\n" * 250 + b"\r\n")),
    ("elements of Content-Length", "elements", 32768, lambda n: one(LARGE, b"POST / HTTP/1.1\r\nHost: h\r\nContent-Length: " + b",".join([b"3"] * n) + b"\r\n\r\nabc")),
    ("values that a condition tries", "values", 32768, lambda n: values(b"http-request deny if { req.hdr(x) -m str y }", n)),
    ("values that are counted", "values", 32768, lambda n: values(b"http-request set-header y %[req.hdr_cnt(x)]", n)),
    ("last of the values", "values", 32768, lambda n: values(b"http-request set-header y %[req.hdr(x)]", n)),
    ("values replaced one by one", "values", 16384, lambda n: values(b"http-request replace-value x a b", n)),
    ("values that a pattern doesn't match", "values", 16384, lambda n: values(b"http-request replace-value x z b", n)),
    ("regsub of each letter", "bytes", 16384, lambda n: path(b"http-request set-header y %[path,regsub(a,b,g)]", n)),
    ("regsub that looks to the end for each match", "bytes", 2048, lambda n: path(b"http-request set-header y %[path,regsub(a.*z|a,b,g)]", n)),
    ("pattern over a long path", "bytes", 65536, lambda n: path(b"http-request deny if { path -m reg (a*)*b }", n)),
    ("fields set by rules, over 200 fields", "rules", 256, lambda n: one(b"".join(b"  http-request set-header y%d 1\n" % i for i in range(n)) + LARGE, b"GET / HTTP/1.1\r\nHost: h\r\n" + b"X: 1\r\n" * 200 + b"\r\n")),
    ("fields added by rules", "rules", 512, lambda n: one(b"  http-request add-header y 1\n" * n + LARGE, GET)),
    ("body-replace of what nearly matches", "bytes", 50000, lambda n: one(b"  filter body-replace req %s x\n" % NEAR, by_length(b"a" * n))),
    ("body-deny of what nearly matches", "bytes", 50000, lambda n: one(b"  filter body-deny req %s\n" % NEAR, by_length(b"a" * n))),
    ("body-replace of nothing that comes", "bytes", 1 << 20, lambda n: one(b"  filter body-replace req zz x\n", by_length(b"a" * n))),
    ("body-replace of a byte by 256", "bytes", 10000, lambda n: one(b"  filter body-replace req a %s\n" % (b"b" * 256), by_length(b"a" * n))),
    ("configuration of comments", "bytes", 524288, lambda n: check([b"#" + b"c" * 60] * ((n - 100) // 64))),
    ("rules with 64 tests each, and acl lines", "rules and lines", 512, lambda n: check(full(n, n, 64), n)),
    ("acl lines of names of their own, and rules", "rules and lines", 512, lambda n: check([b"acl a%d path /%d" % (i, i) for i in range(n)] + [b"http-request set-header x 1 if a%d" % i for i in range(n)], n)),
    ("request under rules with 64 tests each", "rules", 512, lambda n: one(b"".join(b"  " + line + b"\n" for line in full(n, 64, 64)), GET)),
    ("patterns in rules", "rules", 128, lambda n: check([b"http-request replace-path ^/a%d/(.*)$ /b/\\1" % i for i in range(n)], n)),
]
NEVER = "more than the limit"
REFUSED = lambda place, kind: (3, b"record: byte %d: %s\n" % (place, kind))


def with_answer(made, answer):
    return made[:3] + answer


# name, at the limit, one step past it
LIMITS = [
    ("record of 67108864 bytes, read and written", lambda: rewritten(record_of(1 << 26), []), lambda: with_answer(rewritten(record_of((1 << 26) + 1), []), REFUSED(1 << 26, b"Limit"))),
    ("record of 67108000 bytes, a body by its length", lambda: one(b"", by_length(b"x" * 67107800)), None),
    ("record of 67 MB, a body in chunks of a byte", lambda: one(b"", CHUNKED + b"1\r\nx\r\n" * 11184000 + b"0\r\n\r\n"), None),
    ("65536 servers, one an exchange", lambda: session(B, GET * 65536, [OK] * 65536, [], 65536, 40 * 65536), lambda: with_answer(rewritten(GET, [OK] * 65537), REFUSED(len(record(GET, [OK] * 65536)) - 12, b"Limit"))),
    ("1000000 turns that move a byte each", lambda: one(b"", by_length(b"x" * 500000), [b"c 1", b"S 1"] * 500000), lambda: with_answer(rewritten(GET, [], [b"c 1"] * 1000001), REFUSED(54, b"Limit"))),
    ("1024 connections, 1000000 turns", lambda: of_turns(1024, 1000000), lambda: with_answer((B, b"PXREC 2\nconnections 1025\n", REPLAY), REFUSED(8, b"Limit"))),
    ("head of 262090 bytes byte by byte", lambda: one(LARGE, head(262090), [b"c 1"] * 262090), lambda: refused(LARGE, head(262091)[:-4] + b"vvvv", [b"c 1"] * 262200)),
    ("head of 262144 bytes without an end, byte by byte", lambda: refused(LARGE, head(262144)[:-4] + b"vvvv", [b"c 1"] * 262144), None),
    ("trailer section of 131072 bytes in 64 fields, byte by byte", lambda: trailers(131072), lambda: trailers(131073, refuse=True)),
    ("trailer section of 131072 bytes in one field, byte by byte", lambda: trailers(131072, 1), lambda: trailers(131073, 1, refuse=True)),
    ("4000 generated exchanges on one connection", lambda: (None, None, ("drill", "1", "4000"), 0, b"exchanges 4000\n"), lambda: (None, None, ("drill", "1", "4001"), 1, b"error: ")),
    ("4000 exchanges on one connection, largest buffers", lambda: session(B + LARGE, GET * 4000, [OK] * 4000, [], 4000, 160000), None),
    ("configuration of 1048576 bytes", lambda: check([b"#" + b"c" * 59] * ((1048576 - len(B)) // 63) + [b"#" * ((1048576 - len(B)) % 63 - 3)]), lambda: check([b"#" + b"c" * 59] * 16650, fault=b"config: line 0: Limit\n")),
    ("1024 rules, 1024 acl lines, 64 lines of one name, 65536 tests", lambda: check(full(1024, 1024, 64), 1024), lambda: check(full(1023, 1024, 64, more=[b"http-request set-header x 1 if many || many"]), fault=b"config: line %d: Limit\n" % (3 + 1024 + 1023 + 1))),
    ("the same, under which a request runs", lambda: one(b"".join(b"  " + line + b"\n" for line in full(1024, 1024, 64)), GET), None),
    ("1024 rules, and 1025", lambda: check([b"http-request set-header x 1"] * 1024, 1024), lambda: check([b"http-request set-header x 1"] * 1025, fault=b"config: line 1028: Limit\n")),
    ("1024 acl lines, and 1025", lambda: check([b"acl a%d path /" % i for i in range(1024)]), lambda: check([b"acl a%d path /" % i for i in range(1025)], fault=b"config: line 1028: Limit\n")),
    ("64 lines of one name, and 65", lambda: check([b"acl a path /"] * 64), lambda: check([b"acl a path /"] * 65, fault=b"config: line 68: Limit\n")),
    ("a line of 4096 bytes, and of 4097", lambda: check([b"#" * 4094]), lambda: check([b"#" * 4095], fault=b"config: line 4: Limit\n")),
    ("a line of 64 words, and of 65", lambda: check([b"acl a path" + b" x" * 61]), lambda: check([b"acl a path" + b" x" * 62], fault=b"config: line 4: Limit\n")),
]
wrong = []


def lay(made):
    for name, data in zip("cr", made[:2]):
        if data is not None:
            with open(name, "wb") as it: it.write(data)


def ran(name, made):
    """User seconds and the most memory in megabytes; the answer is compared."""
    lay(made)
    with open("out", "wb") as out: done = subprocess.run(["/usr/bin/time", "-q", "-f", "%U %M", "-o", "used", program, *made[2]], stdout=out, stderr=subprocess.PIPE)
    with open("out", "rb") as out: said = out.read(len(made[4]))
    if done.returncode != made[3] or said != made[4] or done.stderr: wrong.append(f"{name}: status {done.returncode}, {said[:120]!r} where {made[4][:120]!r} must come, {done.stderr[:80]!r}")
    seconds, memory = open("used").read().split()
    return float(seconds), int(memory) / 1024


def counted(made):
    """Instructions, and the dearest functions."""
    lay(made)
    said = subprocess.run(["valgrind", "--tool=callgrind", "--callgrind-out-file=counts", program, *made[2]], stdout=subprocess.DEVNULL, stderr=subprocess.PIPE).stderr.decode()
    return int(re.search(r"Collected : (\d+)", said).group(1))


def dearest():
    text = subprocess.run(["callgrind_annotate", "counts"], capture_output=True, text=True).stdout
    return "; ".join(f"{name} {share}" for share, name in re.findall(r"\(\s*([0-9.]+%)\)\s+(?:\?\?\?|\S+):(.*?) \[", text)[1:4])


def with_commas(n): return f"{n:,}"


print(f"| Input | n | Instructions at n | at 2n | grows | for each more | MB at n | at 2n |\n|---|---|---|---|---|---|---|---|", flush=True)
for name, unit, size, made in GROWTH:
    if word not in name: continue
    (_, small), (_, great) = ran(name, made(size)), ran(name, made(2 * size))
    one_count, two_count = counted(made(size)), counted(made(2 * size))
    grows = two_count / one_count
    print(f"| {name} | {with_commas(size)} {unit} | {with_commas(one_count)} | {with_commas(two_count)} | {grows:.2f} | {with_commas((two_count - one_count) // size)} | {small:.0f} | {great:.0f} |" + (f" {dearest()}" if grows > 2.2 else ""), flush=True)
print("\n| At the limit | Seconds | MB | One step past it | Seconds | MB |\n|---|---|---|---|---|---|", flush=True)
for name, at, past in LIMITS:
    if word not in name: continue
    row = [f"{seconds:.2f} | {memory:.0f}" for seconds, memory in [ran(name, at())]]
    row += [(lambda said, used: f"{said} | {used[0]:.2f} | {used[1]:.0f}")(past()[4][:40].decode().replace("\n", " ").strip(), ran(name + ", past it", past()))] if past else ["| |"]
    print(f"| {name} | " + " | ".join(row) + " |", flush=True)
for it in wrong: print(it)
sys.exit(1 if wrong else 0)
PY
