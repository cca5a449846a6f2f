"""Sessions at random: the named ones changed, and others made of pieces."""
import random

from records import Refused, read_record, write_record

draw = random.Random()

PIECES = [b"\r\n", b"\n", b":", b" ", b",", b"Content-Length: 3\r\n", b"Transfer-Encoding: chunked\r\n", b"Connection: close\r\n", b"Expect: 100-continue\r\n", b"0\r\n\r\n",
          b"5\r\nabcde\r\n", b"HTTP/1.0", b"HTTP/1.1 100 Continue\r\n\r\n", b"HEAD ", b"GET /a HTTP/1.1\r\nHost: h\r\n\r\n", b"HTTP/1.1 204 No Content\r\n\r\n", b"\x00", b"\xff", b"%[path]", b"a" * 300,
          b"closed", b"broke", b"all", b"65536", b"1000001", b"0", b"-", b'"', b"'", b"\\", b"#", b"$", b"%", b"(", b")", b"[", b"]", b"{", b"}", b" if ", b" unless ", b" or ", b"!", b" -m reg ", b" -i "]
LINES = [b"http-request set-header x-a %[req.hdr(x-a),lower]", b"http-request add-header x-b %[path]:%[query]", b"http-request del-header x-a", b"http-request set-path /q", b"http-request set-query \"\"",
         b"http-request replace-path (.*)b(.*) \\2b\\1", b"http-request replace-value cookie a=(.*) a=<\\1>", b"http-request deny if { path -m beg /d }", b"http-request deny status 404 if { req.hdr_cnt(x-a) gt 1 }",
         b"http-request return status 200 content-type text/plain lf-string \"hi %[req.hdr(host)]\" if { path /r }", b"http-request redirect prefix http://k code 301 if { path_beg /old }", b"http-request set-method GET",
         b"http-request set-var(sess.n) int(1),add(1)", b"http-request set-header x-n %[var(sess.n)] if { var(sess.n) -m found }", b"http-request strict-mode off", b"http-request set-header x-l %[path,regsub(a,bb,g),upper]",
         b"http-response set-status 299", b"http-response deny if { status 404 }", b"http-response set-header x-s %[status]", b"http-response del-header server", b"http-response return status 204 if { status 500 }",
         b"http-after-response set-header x-p %[status]", b"http-after-response replace-header content-type (.*)/(.*) \\2/\\1", b"http-after-response set-status 298 if { status 502 }",
         b"filter body-limit req 4", b"filter body-limit res 40", b"filter body-deny req b", b"filter body-deny res yy", b"filter body-replace req ab X", b"filter body-replace res a xx", b"filter body-replace req aa \"\"",
         b"acl one path_reg ^/a", b"acl two req.hdr(x-a) -m str 1", b"http-request set-header x-o yes if one !two", b"mode http", b"timeout client 1s"]


def change(data):
    data = bytearray(data)
    for _ in range(draw.randint(1, 4)):
        at = draw.randint(0, len(data)); kind = draw.randint(0, 4)
        if kind == 0 and data: data[min(at, len(data) - 1)] = draw.randint(0, 255)
        elif kind == 1: data[at:at] = draw.choice(PIECES)
        elif kind == 2: del data[at:at + draw.randint(1, 40)]
        elif kind == 3: data[at:at] = data[max(0, at - draw.randint(1, 60)):at]
        elif draw.random() < 0.3: del data[at:]
    return bytes(data)


def change_lines(text, others):
    lines = text.split(b"\n"); at = draw.randrange(len(lines)); kind = draw.randint(0, 4)
    if kind == 0: lines.insert(at, draw.choice(others))
    elif kind == 1: del lines[at]
    elif kind == 2: lines[at] = change(lines[at])
    elif kind == 3: lines[at], lines[-1] = lines[-1], lines[at]
    else: lines.insert(at, draw.choice(lines))
    return b"\n".join(lines)


def some_body():
    return bytes(draw.choice(b"aabbxy") for _ in range(draw.choice([0, 1, 2, 3, 5, 8, 40, 300, 1500, 5000])))


def some_chunks(body):
    out, at = b"", 0
    while at < len(body):
        size = draw.choice([1, 2, 3, 16, 100, 1000]); piece = body[at:at + size]; at += size
        out += b"%s%s\r\n%s\r\n" % (draw.choice([b"%x", b"%X", b"0%x"]) % len(piece), draw.choice([b"", b"", b"", b";e=1", b" ", b" ;"]), piece)
    return out + draw.choice([b"0\r\n\r\n"] * 5 + [b"0\r\nT: v\r\n\r\n", b"0;x\r\nHost: h\r\nA: 1\r\n\r\n", b"0\r\n", b"", b"0\r\nbad\r\n\r\n", b"g\r\n"])


def framed(head):
    """A head without its empty line, and a body that it frames, mostly."""
    body = some_body(); kind = draw.random()
    if kind < 0.35: return head + b"\r\n"
    if kind < 0.65: return head + b"Content-Length: %d\r\n\r\n" % max(0, len(body) + draw.choice([0] * 6 + [1, -1])) + body
    if kind < 0.95: return head + b"Transfer-Encoding: chunked\r\n\r\n" + some_chunks(body)
    return head + draw.choice([b"Content-Length: 3, 3\r\n\r\nabc", b"Content-Length: 3\r\nTransfer-Encoding: chunked\r\n\r\n", b"Transfer-Encoding: gzip, chunked\r\n\r\n"])


FIELDS = [b"X-A: 1, \"2,3\"", b"Cookie: a=1, b=2, a=3", b"Connection: close", b"Connection: keep-alive, x-a", b"Expect: 100-continue", b"TE: trailers", b"Upgrade: x", b"Host: k", b"Accept: */*", b"X-L: " + b"l" * 200]


def some_long():
    """At times a field that brings a head near the limits of a small buffer."""
    return [b"X-M: " + b"m" * draw.randint(600, 1000)] if draw.random() < 0.1 else []


def some_request():
    head = b"%s %s HTTP/1.%d\r\n" % (draw.choice([b"GET", b"GET", b"POST", b"POST", b"HEAD", b"PUT", b"CONNECT", b"OPTIONS"]),
                                    draw.choice([b"/a", b"/a?b=1", b"/b/ab?x", b"*", b"http://h/p?q", b"HTTP://H:80?q", b"http://k/", b"h:1", b"a/b", b"/old/x", b"/d", b"/r", b"/"]), draw.choice([1] * 9 + [0]))
    fields = ([draw.choice([b"Host: h"] * 9 + [b"Host: H:80", b"Host: k", b"Host: h, k", b"Host:", b"Host: [::1]:1", b"Host: u@h"])] if draw.random() < 0.95 else []) + draw.sample(FIELDS, draw.choice([0, 0, 1, 2])) + some_long()
    return draw.choice([b""] * 8 + [b"\r\n", b"\n"]) + framed(head + b"".join(f + b"\r\n" for f in fields))


def some_answer():
    head = b"HTTP/1.%d %d %s\r\n" % (draw.choice([1, 1, 1, 0]), draw.choice([200] * 5 + [204, 304, 404, 500, 101, 999, 201]), draw.choice([b"OK", b"", b"Not here"]))
    fields = draw.sample([b"Server: x", b"Content-Type: text/html", b"Connection: close", b"Connection: server", b"Keep-Alive: 1", b"X-S: \t s "], draw.choice([0, 1, 2])) + some_long()
    return b"".join(draw.choice([b"HTTP/1.1 100 Continue\r\n\r\n", b"HTTP/1.1 103 Early Hints\r\nLink: l\r\n\r\n"]) for _ in range(draw.choice([0, 0, 0, 1, 2]))) + framed(head + b"".join(f + b"\r\n" for f in fields))


def ending():
    return draw.choice([b"closed", b"closed", b"broke"])


def some_connection():
    requests = draw.choice([1, 1, 2, 3, 4])
    servers = [None if draw.random() < 0.05 else (some_answer(), ending(), draw.choice([b"all"] * 5 + [b"0", b"17", b"60", b"90"])) for _ in range(requests)]
    return (b"".join(some_request() for _ in range(requests)), ending()), servers


def some_turns(conns):
    most = draw.choice([1, 1, 4096])
    return [(draw.randint(1, conns), draw.choice([b"c", b"C", b"s", b"S"]), draw.choice([1, 2, 7, 64, most])) for _ in range(draw.choice([1, 40, 200, 900]))]


def some_filters():
    """A configuration of filters alone, which the model knows."""
    kinds = [b"body-limit %s 4", b"body-limit %s 40", b"body-deny %s b", b"body-deny %s yy", b"body-replace %s ab X", b"body-replace %s a xx", b"body-replace %s aa b"]
    lines = [b"listen p", b"  bind 127.0.0.1:8080", b"  server s 127.0.0.1:8081"] + [b"  filter " + draw.choice(kinds) % draw.choice([b"req", b"res"]) for _ in range(draw.choice([0, 0, 1, 2, 3]))]
    return b"\n".join(lines + ([b"global", b"tune.bufsize 1024", b"tune.maxrewrite %d" % draw.choice([0, 256, 512])] if draw.random() < 0.5 else [])) + b"\n"


def some_config():
    lines = [b"listen p", b"  bind 127.0.0.1:8080", b"  server s 127.0.0.1:8081"] + [b"  " + draw.choice(LINES) for _ in range(draw.choice([0, 1, 2, 4, 7]))]
    return b"\n".join(lines + ([b"global", b"tune.bufsize 1024", b"tune.maxrewrite 256"] if draw.random() < 0.5 else [])) + b"\n"


def changed_stream(data):
    return change(data) if draw.random() < 0.5 else data


def changed_record(rec):
    """A record with its streams changed."""
    try:
        version, conns, turns = read_record(rec)
    except Refused:
        return change(rec)
    conns = [((changed_stream(client[0]), draw.choice([client[1], ending()])), [server and (changed_stream(server[0]), draw.choice([server[1], ending()]), draw.choice([server[2], b"all", b"17"])) for server in servers])
             for client, servers in conns]
    return write_record(version, conns, turns)


def some_session(bases):
    """A configuration and a record."""
    cfg, rec = draw.choice(bases); kind = draw.random()
    if kind < 0.4:
        conns = [some_connection() for _ in range(draw.choice([1, 1, 1, 2]))]
        rec = write_record(2 if len(conns) > 1 else draw.choice([1, 2]), conns, []); cfg = draw.choice([some_config, some_filters, some_filters, lambda: cfg])()
    elif kind < 0.6: rec = draw.choice([change, lambda text: change_lines(text, PIECES)])(rec)
    elif kind < 0.9: rec = changed_record(rec)
    else: rec = draw.choice(bases)[1]
    if draw.random() < 0.25: cfg = change_lines(cfg, [b"  " + line for line in LINES])
    return cfg, rec
