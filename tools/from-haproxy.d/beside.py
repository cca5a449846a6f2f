"""beside.py PROGRAM HAPROXY: the same requests through HAProxy, under the configurations of this folder without their lost lines, and through PROGRAM, under what
tools/from-haproxy makes of them. The origin answers with the request that it got. Statuses, fields and bodies have to agree, but for what docs/HAPROXY.md
names: the text of a refusal, framing, the fields connection, content-length and cache-control, and the ports in a header of the PROXY protocol, which are others. It prints each answer that differs, and how many were asked for."""
import os, re, socket, subprocess, sys, tempfile, threading, time

PROGRAM, HAPROXY = sys.argv[1:3]
HERE = os.path.dirname(os.path.abspath(__file__))
CLOSE = "Host: h\nConnection: close\n"
SIGNATURE = b"\r\n\r\n\0\r\nQUIT\n"


def gets(*paths):
    return [f"GET {it} HTTP/1.1\n{CLOSE}\n" for it in paths]


def with_fields(path, *fields):
    return [f"GET {path} HTTP/1.1\n{CLOSE}{it}\n" for it in fields]


def hosts(path, *names):
    return [f"GET {path} HTTP/1.1\nHost: {it}\nConnection: close\n\n" for it in names]


def posts(*sizes):
    return [f"POST /p HTTP/1.1\n{CLOSE}Content-Length: {it}\n\n{'a' * it}" for it in sizes]


REQUESTS = {
    "listen": gets("/old/a", "/IMG/x", "/Abc?d"),
    "monitor": with_fields("/alive", "", "x-dead: 1\n") + gets("/alive?x", "/down"),
    "redirects": hosts("/", "example.com", "h") + with_fields("/", "Cookie: sid=1\n") + gets("/a/x?q=1", "/w", "/there")
    + with_fields("/z", "x-proto: http\n") + [f"TRACE / HTTP/1.1\n{CLOSE}\n"],
    "cookies": with_fields("/", "", "Cookie: sid=abc\n", "Cookie: a=1; sid=ABC; b=2\n", "Cookie: xsid=1\n", "Cookie: a=1;sid=Q\n", "Cookie: sid=1; sid=2\n", "Cookie: sid=\n",
                           "Cookie: group=canary1\n", "Cookie: role=ADMIN\n")
    + with_fields("/admin", "", "Cookie: role=admin\n", "Cookie: role=rootxuser\n", "Cookie: role=Root.user; a=b\n", "Cookie: a=b; role=adminx\n"),
    "captured": gets("/a?b=1", "http://h/a/b") + posts(3),
    "sections": gets("/here", "/there"),
    "matches": hosts("/", "www.example.com", "example.com:80", "example.comx", "notexample.com") + with_fields("/", "x-a: 1\nx-a: 2\n", "x-a: 1\n")
    + gets("/img", "/img/a", "/a/img/b", "/aimg", "/x/pictures", "/picturesx", "/?lang=de-AT", "/?lang=en") + [f"TRACE / HTTP/1.1\n{CLOSE}\n"] + posts(3, 101),
    "denials": gets("/none", "/gone", "/echo", "/"),
    "formats": gets("/aab?x=1", "/xaby", "/B"),
    "redirector": gets("/", "/.well-known/a"),
    "headers": gets("/a", "/b"),
    "second_version": gets("/a", "/b"),
}


def free_port():
    with socket.create_server(("127.0.0.1", 0)) as it:
        return it.getsockname()[1]


def without_header(came):
    """A header of the PROXY protocol in front, as a line without its ports, and what stands behind it."""
    if came.startswith(b"PROXY TCP4 "):
        line, _, behind = came.partition(b"\r\n")
        return [b" ".join(line.split(b" ")[:4])], behind
    if came.startswith(SIGNATURE):
        end = 16 + int.from_bytes(came[14:16], "big")
        return [came[12 : end - 4].hex().encode()], came[end:]
    return [], came


def answer(client):
    """Answers with the request: the header in front of it, its line, its fields in an order of their own, its body."""
    with client:
        came = b""
        while b"\r\n\r\n" not in without_header(came)[1]:
            piece = client.recv(65536)
            if not piece:
                return
            came += piece
        header, came = without_header(came)
        head, _, body = came.partition(b"\r\n\r\n")
        length = re.search(rb"(?i)\r\ncontent-length: *(\d+)", head)
        while length and len(body) < int(length[1]):
            body += client.recv(65536)
        line, *fields = head.split(b"\r\n")
        text = b"\n".join([*header, line, *fields_of(fields), body])
        client.sendall(b"HTTP/1.1 200 OK\r\nContent-Type: text/plain\r\nServer: o\r\nContent-Length: %d\r\nConnection: close\r\n\r\n" % len(text) + text)


def fields_of(lines):
    parts = [it.partition(b":") for it in lines]
    return sorted(name.lower() + b": " + value.strip() for name, _, value in parts if name.lower() not in (b"connection", b"content-length", b"cache-control", b"transfer-encoding"))


def asked(port, request):
    for _ in range(100):
        try:
            client = socket.create_connection(("127.0.0.1", port), timeout=10)
            break
        except OSError:
            time.sleep(0.1)
    else:
        return "nobody listens"
    came = b""
    with client:
        client.sendall(request.replace("\n", "\r\n").encode())
        try:
            while piece := client.recv(65536):
                came += piece
        except OSError:
            pass
    head, _, body = came.partition(b"\r\n\r\n")
    line, *fields = head.split(b"\r\n")
    refused = re.match(rb"HTTP/1\.. [45]", line) and b"<html>" in body
    return line[9:12], fields_of(fields), b"a refusal" if refused else body


def at_ports(text, front, back):
    # (its requests begin with no header)
    text = re.sub(r"(?m)^(\s*bind) \S+( .*)?", lambda it: f"{it[1]} 127.0.0.1:{front}{(it[2] or '').replace(' accept-proxy', '')}", text)
    return re.sub(r"(?m)^(\s*server (?!none )\S+) \S+", rf"\1 127.0.0.1:{back}", text)


origin = socket.create_server(("127.0.0.1", 0))
threading.Thread(target=lambda: [threading.Thread(target=answer, args=(origin.accept()[0],), daemon=True).start() for _ in iter(int, 1)], daemon=True).start()
count = differ = 0
with tempfile.TemporaryDirectory() as work:
    for name, requests in REQUESTS.items():
        file = f"{HERE}/{name}.cfg"
        made = subprocess.run([f"{HERE}/../from-haproxy", "--program", PROGRAM, file], capture_output=True, text=True)
        lost = {int(it) for it in re.findall(r"\.cfg:(\d+):", made.stderr)}
        with open(file) as it:
            lines = [line for at, line in enumerate(it, 1) if at not in lost or re.match(r"\s*(backend|frontend|listen|bind|server)\b", line)]
        # HAProxy takes `block` no more
        kept = re.sub(r"(?m)^(\s*)block if", r"\1http-request deny if", "".join(lines))
        fronts = [free_port(), free_port()]
        with open(f"{work}/h.cfg", "w") as it:
            it.write("defaults\n  timeout client 5s\n  timeout server 5s\n  timeout connect 5s\n" + at_ports(kept, fronts[0], origin.getsockname()[1]))
        with open(f"{work}/o.cfg", "w") as it:
            it.write(at_ports(made.stdout, fronts[1], origin.getsockname()[1]))
        quiet = {"stdout": subprocess.DEVNULL, "stderr": subprocess.DEVNULL}
        running = [subprocess.Popen([HAPROXY, "-db", "-f", f"{work}/h.cfg"], **quiet), subprocess.Popen([PROGRAM, "serve", f"{work}/o.cfg", str(len(requests))], **quiet)]
        for request in requests:
            theirs, ours = asked(fronts[0], request), asked(fronts[1], request)
            count += 1
            if theirs != ours:
                differ += 1
                print(f"{name}: {request!r}\n  HAProxy {theirs}\n  here    {ours}")
        for it in running:
            it.terminate()
            it.wait()
print(f"{count} requests, {differ} answers differ")
sys.exit(1 if differ else 0)
