"""A browser's exchange, the rules that it goes through, and both its ends: what price.sh and beside-haproxy.sh send through a proxy."""
import socket
import threading
import time

REQUEST = ("GET /shop/list?page=2 HTTP/1.1\r\nHost: www.example.com\r\nUser-Agent: Mozilla/5.0\r\nAccept: text/html\r\nAccept-Language: en\r\n"
           "Accept-Encoding: gzip\r\nReferer: http://www.example.com/\r\nCookie: k=" + "a" * 2046 + "\r\nConnection: keep-alive\r\nUpgrade-Insecure-Requests: 1\r\n"
           "Cache-Control: max-age=0\r\nDNT: 1\r\nSec-Fetch-Mode: navigate\r\n\r\n").encode()

RULES = """  acl api path_beg /api/
  http-request deny if api !METH_GET
  http-request set-header x-forwarded-proto http
  http-request set-header x-host %[req.hdr(host),lower]
  http-request replace-path ^/shop/(.*) /s/\\1
  http-request del-header referer
  http-response del-header server
"""


def free_port():
    """A port that nobody listens at."""
    with socket.socket() as it:
        it.bind(("127.0.0.1", 0))
        return it.getsockname()[1]


def configuration(front, back):
    """The configuration of the program, which listens at one port and has its server at the other."""
    return f"listen p\n  bind 127.0.0.1:{front}\n  server s 127.0.0.1:{back}\n{RULES}"


def answer(size):
    """The answer of the server, with so many bytes."""
    return b"HTTP/1.1 200 OK\r\nServer: x\r\nContent-Type: text/html\r\nContent-Length: %d\r\n\r\n" % size + b"y" * size


def serve_each(listener, text):
    """Answers each connection once, and closes it."""
    while True:
        try:
            link, _ = listener.accept()
        except OSError:
            return
        got = b""
        while b"\r\n\r\n" not in got:
            piece = link.recv(65536)
            if not piece:
                break
            got += piece
        try:
            link.sendall(text)
        except OSError:
            pass
        link.close()


def origin(port, size):
    """A server at this port that gives answers of this size until its listener is closed, which is what is returned."""
    listener = socket.socket()
    listener.setsockopt(socket.SOL_SOCKET, socket.SO_REUSEADDR, 1)
    listener.bind(("127.0.0.1", port))
    listener.listen(64)
    threading.Thread(target=serve_each, args=(listener, answer(size)), daemon=True).start()
    return listener


def connected(port):
    """A connection to the proxy, as soon as it listens."""
    for _ in range(3000):
        try:
            return socket.create_connection(("127.0.0.1", port))
        except OSError:
            time.sleep(0.01)
    raise SystemExit("nobody listens")


def read_answer(link, size):
    """Reads an answer of this size to its end."""
    got = b""
    while b"\r\n\r\n" not in got:
        piece = link.recv(1 << 20)
        if not piece:
            raise SystemExit("the answer broke off")
        got += piece
    body = len(got) - got.index(b"\r\n\r\n") - 4
    while body < size:
        piece = link.recv(1 << 20)
        if not piece:
            raise SystemExit("the answer broke off")
        body += len(piece)


def exchanged(link, requests, size):
    """Sends so many requests on a connection, each once the answer before it came."""
    for _ in range(requests):
        link.sendall(REQUEST)
        read_answer(link, size)
