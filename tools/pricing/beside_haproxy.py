"""Processor time of the program and of HAProxy for the same exchanges: beside-haproxy.sh says more."""
import os
import subprocess
import sys

from exchanges import RULES, configuration, connected, exchanged, free_port, origin

program, haproxy, work = sys.argv[1:4]
TICK = 1e6 / os.sysconf("SC_CLK_TCK")
ROUNDS = 3


def haproxy_configuration(front, back):
    """The same rules for HAProxy, on one thread, with a server connection each exchange."""
    return (f"global\n  nbthread 1\ndefaults\n  mode http\n  option http-server-close\n  timeout connect 5s\n  timeout client 5s\n  timeout server 5s\n"
            f"listen p\n  bind 127.0.0.1:{front}\n  server s 127.0.0.1:{back}\n{RULES}")


def spent(pid):
    """Processor time of a process so far, in microseconds: in user code, and in all."""
    with open(f"/proc/{pid}/stat") as it:
        fields = it.read().rpartition(")")[2].split()
    user, kernel = int(fields[11]) * TICK, int(fields[12]) * TICK
    return user, user + kernel


def exchanges_on(front, connections, requests, size):
    """So many connections, one after another, with so many requests each."""
    for _ in range(connections):
        with connected(front) as link:
            exchanged(link, requests, size)


def measured(is_ours, connections, requests, size):
    """Microseconds an exchange, in user code and in all, of the exchanges behind a first connection."""
    front, back = free_port(), free_port()
    with open(f"{work}/it.cfg", "w") as it:
        it.write((configuration if is_ours else haproxy_configuration)(front, back))
    listener = origin(back, size)
    words = [program, "serve", f"{work}/it.cfg", str(connections + 2)] if is_ours else [haproxy, "-f", f"{work}/it.cfg"]
    run = subprocess.Popen(words, stdout=subprocess.DEVNULL, stderr=subprocess.DEVNULL)
    try:
        exchanges_on(front, 1, 1, size)
        before = spent(run.pid)
        exchanges_on(front, connections, requests, size)
        after = spent(run.pid)
    finally:
        run.kill()
        run.wait()
        listener.close()
    count = connections * requests
    return [(late - early) / count for early, late in zip(before, after)]


print("microseconds an exchange, user code and in all, the least of", ROUNDS)
print(f"{'bytes':>6}  {'connections':>11}  {'requests each':>13}  {'ours':>12}  {'HAProxy':>12}")
for size, connections, requests in ((2, 1, 20000), (2, 5000, 1), (204800, 1, 5000), (204800, 2500, 1)):
    best = [min(measured(is_ours, connections, requests, size) for _ in range(ROUNDS)) for is_ours in (True, False)]
    ours, theirs = (f"{user:.0f} / {whole:.0f}" for user, whole in best)
    print(f"{size:6}  {connections:11}  {requests:13}  {ours:>12}  {theirs:>12}")
