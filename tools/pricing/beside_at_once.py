"""Requests a second and processor time of `run` and of HAProxy, with many connections at once: beside-haproxy.sh says more."""
import os
import re
import subprocess
import sys
from statistics import median

from exchanges import RULES, configuration, connected, free_port

program, haproxy, work = sys.argv[1:4]
TICK = 1e6 / os.sysconf("SC_CLK_TCK")
SECONDS = int(os.environ.get("SECONDS_OF_WRK", "2"))
TURNS = int(os.environ.get("TURNS", "5"))
TIMES = "  timeout connect 5s\n  timeout client 30s\n  timeout server 30s\n"


def haproxy_configuration(front, back):
    """The same rules for HAProxy, on one thread, with a server connection each exchange."""
    return (f"global\n  nbthread 1\n  maxconn 2000\ndefaults\n  mode http\n  option http-server-close\n{TIMES}"
            f"listen p\n  bind 127.0.0.1:{front}\n  server s 127.0.0.1:{back}\n{RULES}")


def origin_configuration(port, size):
    """An origin with an answer of this size: HAProxy too, in a process of its own."""
    with open(f"{work}/answer", "wb") as it:
        it.write(b"o" * size)
    return (f"global\n  nbthread 2\n  maxconn 4000\n  tune.bufsize 262144\ndefaults\n  mode http\n{TIMES}"
            f"listen o\n  bind 127.0.0.1:{port}\n  http-request return status 200 content-type text/plain file {work}/answer\n")


def started(words):
    """A process that runs these words."""
    return subprocess.Popen(words, stdin=subprocess.PIPE, stdout=subprocess.DEVNULL, stderr=subprocess.DEVNULL)


def written(name, text):
    """The name of a file that holds this text."""
    with open(f"{work}/{name}", "w") as it:
        it.write(text)
    return f"{work}/{name}"


def spent(pid):
    """Processor time of a process so far, in microseconds."""
    with open(f"/proc/{pid}/stat") as it:
        fields = it.read().rpartition(")")[2].split()
    return (int(fields[11]) + int(fields[12])) * TICK


def loaded(front, connections, kept, seconds):
    """What wrk says of so many connections at once: requests, and what is wrong."""
    words = ["wrk", "-t1", f"-c{connections}", f"-d{seconds}s", f"http://127.0.0.1:{front}/"]
    said = subprocess.run(words if kept else words + ["-H", "Connection: close"], capture_output=True, text=True).stdout
    count = int(re.search(r"(\d+) requests in", said).group(1))
    return count, " ".join(re.findall(r"Socket errors.*|Non-2xx.*", said))


def begun(is_ours, size, names):
    """An origin and what stands in front of it: both processes, and the port in front."""
    front, back = free_port(), free_port()
    server = started([haproxy, "-db", "-f", written(names + "-origin.cfg", origin_configuration(back, size))])
    text = configuration(front, back) if is_ours else haproxy_configuration(front, back)
    name = written(names + ".cfg", text)
    run = started([program, "run", name, "--until-input-ends"] if is_ours else [haproxy, "-db", "-f", name])
    connected(back).close()
    connected(front).close()
    return run, server, front


def turn(run, front, connections, kept):
    """Requests a second, microseconds of a processor a request, and what is wrong, over one turn."""
    before = spent(run.pid)
    count, wrong = loaded(front, connections, kept, SECONDS)
    return count / SECONDS, (spent(run.pid) - before) / max(count, 1), wrong


def measured(connections, kept, size):
    """Both by turns, which come one after another: the medians of requests a second and of microseconds of a processor a request, and what is wrong in any; and the
    median of what share of HAProxy's time a turn of ours takes, of the turn behind it."""
    both = [begun(True, size, "ours"), begun(False, size, "theirs")]
    try:
        for _, _, front in both:
            loaded(front, connections, kept, 1)
        turns = [[turn(run, front, connections, kept) for run, _, front in both] for _ in range(TURNS)]
        share = median(ours[1] / theirs[1] for ours, theirs in turns)
        return [(median(it[0] for it in own), median(it[1] for it in own), " ".join(it[2] for it in own if it[2])) for own in zip(*turns)], share
    finally:
        for run, server, _ in both:
            for it in (run, server):
                it.kill()
                it.wait()


print(f"requests a second, and microseconds of a processor a request: the median of {TURNS} turns of {SECONDS} seconds each")
print(f"{'bytes':>6}  {'at once':>7}  {'requests each':>13}  {'ours':>14}  {'HAProxy':>14}  {'share':>5}")
for size in (2, 204800):
    for connections in (1, 64, 256):
        for kept in (True, False):
            both, share = measured(connections, kept, size)
            ours, theirs = (f"{rate:.0f} / {price:.0f}" for rate, price, _ in both)
            wrong = "  ".join(it for _, _, it in both if it)
            print(f"{size:6}  {connections:7}  {'many' if kept else 'one':>13}  {ours:>14}  {theirs:>14}  {share:>5.2f}  {wrong}", flush=True)
