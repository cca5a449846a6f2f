"""Peers of try-run.sh: servers that misbehave, and clients that do. `peers.py ROLE WORDS` plays one of them."""
import socket
import sys
import time


def head_of(peer):
    """Reads a head, and gives what stands behind it; none where the peer ends before."""
    seen = b""
    while b"\r\n\r\n" not in seen:
        more = peer.recv(65536)
        if not more:
            return None
        seen += more
    return seen.partition(b"\r\n\r\n")[2]


def serving(port, answer, backlog=512):
    """Accepts peers one after another, and answers each."""
    at = socket.create_server(("127.0.0.1", port), backlog=backlog)
    while True:
        peer, _ = at.accept()
        try:
            answer(peer)
        except OSError:
            pass


def silent_server(port):
    """Reads a head, and says nothing for ever."""
    held = []

    def answer(peer):
        head_of(peer)
        held.append(peer)
    serving(port, answer)


def early_server(port):
    """Refuses each body behind the head, and doesn't read it."""
    held = []

    def answer(peer):
        head_of(peer)
        peer.sendall(b"HTTP/1.1 413 Content Too Large\r\nContent-Length: 6\r\nConnection: close\r\n\r\nlarge\n")
        held.append(peer)
    serving(port, answer)


def full_server(port):
    """Listens, accepts nobody, and keeps its backlog full."""
    at = socket.socket()
    at.setsockopt(socket.SOL_SOCKET, socket.SO_REUSEADDR, 1)
    at.bind(("127.0.0.1", port))
    at.listen(0)
    held = []
    for _ in range(4):
        peer = socket.socket()
        peer.setblocking(False)
        try:
            peer.connect(("127.0.0.1", port))
        except OSError:
            pass
        held.append(peer)
    print("full", flush=True)
    time.sleep(3600)


def idle_clients(port, count, seconds):
    """So many clients that say nothing for so long."""
    held = [socket.create_connection(("127.0.0.1", port)) for _ in range(count)]
    print("idle", flush=True)
    time.sleep(seconds)
    del held


def silent_reader(port, path, seconds):
    """Asks for a resource, and reads nothing of it."""
    peer = socket.socket()
    peer.setsockopt(socket.SOL_SOCKET, socket.SO_RCVBUF, 4096)
    peer.connect(("127.0.0.1", port))
    peer.sendall(f"GET {path} HTTP/1.1\r\nHost: h\r\n\r\n".encode())
    print("asked", flush=True)
    time.sleep(seconds)


def drip(peer, piece, every, most):
    """Sends a piece again and again, whatever the peer says, and gives the seconds until the stream was gone, or none."""
    began = time.monotonic()
    while time.monotonic() - began < most:
        try:
            peer.sendall(piece)
        except OSError:
            return time.monotonic() - began
        time.sleep(every)
    return None


def dripping_client(port, path, most):
    """Begins a body, is refused, and drips on; how long it is let."""
    peer = socket.create_connection(("127.0.0.1", port))
    peer.sendall(f"POST {path} HTTP/1.1\r\nHost: h\r\nContent-Length: 1000000\r\n\r\n".encode())
    let_for = drip(peer, b"x", 0.2, most)
    print("ever" if let_for is None else f"{let_for:.1f}", flush=True)


def header_by_drips(port, most):
    """Drips a header of the PROXY protocol that has no end; how long it is let."""
    peer = socket.create_connection(("127.0.0.1", port))
    peer.sendall(b"PROXY UNKNOWN ")
    let_for = drip(peer, b"x", 0.5, most)
    print("ever" if let_for is None else f"{let_for:.1f}", flush=True)


def slow_head(port, most):
    """Drips a head without an end; how long it is let, and what comes."""
    peer = socket.create_connection(("127.0.0.1", port))
    peer.sendall(b"GET / HTTP/1.1\r\nHost: h\r\nx: ")
    began, seen = time.monotonic(), b""
    while time.monotonic() - began < most:
        try:
            peer.sendall(b"y")
            peer.settimeout(0.2)
            more = peer.recv(65536)
            if not more:
                break
            seen += more
        except TimeoutError:
            continue
        except OSError:
            break
    print(f"{time.monotonic() - began:.1f} {seen[:12].decode()}", flush=True)


def kept_client(port, path, most):
    """One exchange, and then nothing; how long the connection is kept."""
    peer = socket.create_connection(("127.0.0.1", port))
    peer.sendall(f"GET {path} HTTP/1.1\r\nHost: h\r\n\r\n".encode())
    peer.settimeout(most)
    rest = head_of(peer)
    began = time.monotonic()
    while rest is not None:
        more = peer.recv(65536)
        if not more:
            break
    print(f"{time.monotonic() - began:.1f}", flush=True)


def kept_in_turn(port, path, count, rounds):
    """So many connections, and on each so many exchanges, one of each in turn: tells how many were answered."""
    peers = [socket.create_connection(("127.0.0.1", port)) for _ in range(count)]
    answered = 0
    for _ in range(rounds):
        for peer in peers:
            peer.settimeout(20)
            peer.sendall(f"GET {path} HTTP/1.1\r\nHost: h\r\n\r\n".encode())
            try:
                came = head_of(peer)
            except OSError:
                came = None
            answered += came is not None
        time.sleep(0.2)
    print(answered, flush=True)


def echo_client(port, path, megabytes):
    """Sends a body and reads its echo at once, and tells whether all of it came back."""
    import hashlib
    import threading
    peer = socket.create_connection(("127.0.0.1", port))
    piece = bytes(range(256)) * 4096
    sent, came = hashlib.sha256(), hashlib.sha256()

    def send():
        peer.sendall(f"POST {path} HTTP/1.1\r\nHost: h\r\nContent-Length: {len(piece) * megabytes}\r\n\r\n".encode())
        for _ in range(megabytes):
            peer.sendall(piece)
            sent.update(piece)
    sender = threading.Thread(target=send)
    sender.start()
    stream = peer.makefile("rb", 1 << 20)
    status = stream.readline().split()[1]
    chunked = False
    while (line := stream.readline().strip()):
        chunked |= line.lower() == b"transfer-encoding: chunked"
    total = 0
    while chunked and (size := int(stream.readline(), 16)):
        came.update(stream.read(size))
        total += size
        stream.readline()
    while not chunked and total < len(piece) * megabytes and (more := stream.read(1 << 20)):
        came.update(more)
        total += len(more)
    sender.join()
    print(status.decode(), "same" if came.digest() == sent.digest() else f"other, {total} bytes", flush=True)


ROLES = {it.__name__: it for it in (silent_server, early_server, full_server, idle_clients, silent_reader, dripping_client, header_by_drips, slow_head, kept_client, kept_in_turn, echo_client)}
words = [int(word) if word.lstrip("-").isdigit() else word for word in sys.argv[2:]]
ROLES[sys.argv[1]](*words)
