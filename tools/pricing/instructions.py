"""The instructions that the program takes for a browser's exchange, by valgrind's callgrind: price.sh says more."""
import os
import re
import subprocess
import sys

from exchanges import REQUEST, answer, configuration, connected, exchanged, free_port, origin

program, work, kept = sys.argv[1:4]


def collected(said, status):
    """How many instructions valgrind counted."""
    if status != 0:
        raise SystemExit(f"price: the program ended with {status}\n{said}")
    return int(re.search(r"Collected : (\d+)", said).group(1))


def keep(name):
    """Keeps the dearest functions of a run, where a folder was named for them."""
    if kept:
        os.makedirs(kept, exist_ok=True)
        text = subprocess.run(["callgrind_annotate", f"{work}/{name}.out"], capture_output=True, text=True).stdout
        with open(f"{kept}/{name}.txt", "w") as it:
            it.write("\n".join(text.split("\n")[:60]) + "\n")


def counted(words, name):
    """The program with these words below valgrind."""
    command = ["valgrind", "--tool=callgrind", f"--callgrind-out-file={work}/{name}.out", program, *words]
    return subprocess.Popen(command, stdout=subprocess.DEVNULL, stderr=subprocess.PIPE)


def in_memory(exchanges, size, name):
    """The instructions of a `replay` of so many exchanges on one connection."""
    client, server = REQUEST * exchanges, answer(size)
    with open(f"{work}/m.cfg", "w") as it:
        it.write(configuration(8080, 8081))
    with open(f"{work}/m.rec", "wb") as it:
        it.write(b"PXREC 1\nclient %d closed\n" % len(client) + client + b"\n")
        for _ in range(exchanges):
            it.write(b"server %d closed all\n" % len(server) + server + b"\n")
        it.write(b"turns 0\nend\n")
    run = counted(["replay", f"{work}/m.cfg", f"{work}/m.rec"], name)
    said = run.communicate()[1].decode()
    keep(name)
    return collected(said, run.returncode)


def recorded(command, connections, size, name):
    """The instructions of this command (its words behind the record are `command[1:]`) over a record of so many connections with one exchange each."""
    client, server = REQUEST, answer(size)
    with open(f"{work}/m.cfg", "w") as it:
        it.write(configuration(8080, 8081))
    with open(f"{work}/m.rec", "wb") as it:
        it.write(b"PXREC 2\nconnections %d\n" % connections)
        for _ in range(connections):
            it.write(b"client %d closed\n" % len(client) + client + b"\n")
            it.write(b"server %d closed all\n" % len(server) + server + b"\n")
        it.write(b"turns 0\nend\n")
    run = counted([command[0], f"{work}/m.cfg", f"{work}/m.rec", *command[1:]], name)
    said = run.communicate()[1].decode()
    keep(name)
    return collected(said, run.returncode)


def served(connections, requests, size, name):
    """The instructions of a `serve` of so many connections with so many requests each."""
    front, back = free_port(), free_port()
    with open(f"{work}/p.cfg", "w") as it:
        it.write(configuration(front, back))
    listener = origin(back, size)
    run = counted(["serve", f"{work}/p.cfg", str(connections)], name)
    for _ in range(connections):
        with connected(front) as link:
            exchanged(link, requests, size)
    said = run.communicate()[1].decode()
    listener.close()
    keep(name)
    return collected(said, run.returncode)


print("answer     a connection each     100 on one connection     in memory")
for size in (2, 204800):
    few, many = served(2, 1, size, f"few-{size}"), served(12, 1, size, f"many-{size}")
    one, hundred = served(1, 1, size, f"one-{size}"), served(1, 101, size, f"hundred-{size}")
    short, long = in_memory(10, size, f"short-{size}"), in_memory(110, size, f"long-{size}")
    print(f"{size:6} {(many - few) // 10:20,} {(hundred - one) // 100:24,} {(long - short) // 100:15,}")

print("a record of 64 connections with one exchange each, in all")
for size in (2, 204800):
    alone = recorded(["replay"], 64, size, f"replay-64-{size}")
    shared = [(k, recorded(["weave", str(k)], 64, size, f"weave-64-{k}-{size}")) for k in (1, 8, 64)]
    print(f"{size:6} replay {alone:,}" + "".join(f", weave over {k} {it:,} ({it / alone:.2f})" for k, it in shared))

print("a record of one exchange, in all")
for size in (2, 204800):
    alone, told = recorded(["replay"], 1, size, f"replay-1-{size}"), recorded(["explain"], 1, size, f"explain-1-{size}")
    print(f"{size:6} replay {alone:,}, explain {told:,} ({told / alone:.2f})")
