"""Memory of a set of `run`, and of a connection without one: memory.sh says more."""
import re
import socket
import subprocess
import sys
import threading
import time

from exchanges import REQUEST, RULES, answer, configuration, connected, free_port, read_answer

program, work = sys.argv[1:3]
SETS = 200
SILENT = 600
# kept connections and the sets that they share: four places to a set
KEPT, SHARED = 201, 51
UNREAD = 16 << 20
TIMES = "  timeout client 60s\n  timeout http-request 60s\n  timeout http-keep-alive 60s\n"
PATTERN = next(line for line in RULES.splitlines(True) if "replace-path" in line)


def private(pid):
    """KB of the pages that are a process's own."""
    with open(f"/proc/{pid}/smaps_rollup") as it:
        return sum(int(size) for size in re.findall(r"Private_\w+: +(\d+) kB", it.read()))


def serve_slowly(link, text):
    """Answers a connection once, late enough that others are in their exchange too."""
    with link:
        try:
            link.recv(65536)
            time.sleep(0.3)
            link.sendall(text)
        except OSError:
            pass


def slow_origin(port, size):
    """A server that answers many connections at once, until its listener is closed."""
    listener = socket.create_server(("127.0.0.1", port), backlog=1024)
    text = answer(size)

    def accept():
        while True:
            try:
                link, _ = listener.accept()
            except OSError:
                return
            threading.Thread(target=serve_slowly, args=(link, text), daemon=True).start()

    threading.Thread(target=accept, daemon=True).start()
    return listener


def taken(has_pattern, sets, clients, size=None, reads=True):
    """KB of a run with so many sets and clients, which all have had two answers of this size, or don't read their first; without a size none."""
    front, back = free_port(), free_port()
    text = configuration(front, back) + TIMES
    with open(f"{work}/it.cfg", "w") as it:
        it.write(text if has_pattern else text.replace(PATTERN, ""))
    listener = slow_origin(back, size or 0)
    run = subprocess.Popen([program, "run", f"{work}/it.cfg", "--sets", str(sets)], stdout=subprocess.PIPE, stderr=subprocess.DEVNULL)
    links = []
    try:
        # (its first line says that it listens)
        run.stdout.readline()
        links = [connected(front) for _ in range(clients)]
        for _ in range(0 if size is None else 2 if reads else 1):
            for link in links:
                link.sendall(REQUEST)
            for link in links if reads else []:
                read_answer(link, size)
        time.sleep(1 if reads else 3)
        return private(run.pid)
    finally:
        run.kill()
        run.wait()
        for link in links:
            link.close()
        listener.close()


def a_set(has_pattern, size=None, reads=True):
    """KB of a set, which was in an exchange with an answer of this size where there is one."""
    many, one = (taken(has_pattern, sets, 0 if size is None else sets, size, reads) for sets in (SETS + 1, 1))
    return (many - one) / SETS


print("KB of a set, with a pattern and without")
for name, *how in (("from the start",), ("behind answers of 2 bytes", 2), ("behind answers of 204800 bytes", 204800), ("in an answer that nobody reads", UNREAD, False)):
    print(f"{name:36} {a_set(True, *how):6.1f} {a_set(False, *how):6.1f}", flush=True)
print(f"a connection that has sent nothing   {(taken(True, SETS + 1, SILENT) - taken(True, SETS + 1, 0)) / SILENT:6.1f}", flush=True)
for size in (2, 204800):
    rests = (taken(True, SHARED, KEPT, size) - taken(True, SHARED, SHARED, size)) / (KEPT - SHARED)
    print(f"one that rests behind answers of {size:<6}  {rests:4.1f}", flush=True)
