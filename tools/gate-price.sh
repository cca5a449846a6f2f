#!/usr/bin/env bash
# gate-price.sh: what the gate costs from nothing. It copies what is committed into a folder of its own, runs `rt ci` there (with --anew, where the kit keeps what passed), and
# looks ten times a second at the processor time of each process of the prover below that run. It runs two checks at a time, of one process
# each, as a machine of two processors does: with more, each second is dearer (RT_JOBS=N in the environment for N of them). It prints the minutes of the crates' own
# proofs, of their tests, of the proofs that must-fail edits are tried over (their bases) and of the edits, and the ten dearest of each.
# It changes nothing here. With the name of a log of samples that an earlier run wrote as its word, it prints that run's table again.
set -eu
here="$(cd "$(dirname "$0")/.." && pwd)"
exec python3 - "$here" "$@" <<'PY'
import collections, json, os, re, signal, subprocess, sys, tempfile, time

TICKS = os.sysconf("SC_CLK_TCK")


def processes():
    """Each process of this machine: its number and start, its parent, its processor seconds."""
    for name in filter(str.isdigit, os.listdir("/proc")):
        try:
            with open(f"/proc/{name}/stat") as it:
                fields = it.read().rpartition(")")[2].split()
        except OSError:
            continue
        yield int(name), fields[19], int(fields[1]), (int(fields[11]) + int(fields[12])) / TICKS


def kind_of(pid):
    """What a process of the prover works on: a crate's proof, its tests, one of its edits, what these are tried over, or a build of what is
    proved; and the crate."""
    try:
        with open(f"/proc/{pid}/cmdline") as it:
            words = it.read().split("\0")
        folder = os.readlink(f"/proc/{pid}/cwd")
    except OSError:
        return None
    if not words[0].endswith("/rattle") or "--crate-name" not in words:
        return None
    crate = words[words.index("--crate-name") + 1]
    if re.search(r"/rt-edit-", folder):
        over = words[words.index("--incremental") + 1] if "--incremental" in words else ""
        return ("bases" if over.endswith("/seed") else "edits"), crate
    if "--test" in words:
        return "tests", crate
    # (a library is proved by the command that builds it; one that is told of a checked crate proves nothing)
    return ("builds" if "--crate-checked" in words else "proofs"), crate


def measured(top):
    """Runs the gate in the folder, and gives the processor seconds of each process of the prover."""
    log = open(f"{top}.log", "w")
    jobs = {**os.environ, "RT_JOBS": os.environ.get("RT_JOBS", "2")}
    said = subprocess.run(["rt", "help"], stdin=subprocess.DEVNULL, stdout=subprocess.PIPE, stderr=subprocess.STDOUT, text=True).stdout
    run = subprocess.Popen(["rt", "ci", *["--anew"] * ("--anew" in said)], cwd=top, env=jobs, stdout=log, stderr=subprocess.STDOUT, stdin=subprocess.DEVNULL, start_new_session=True)
    seen, kinds, began = {}, {}, time.time()
    # (told to stop, it ends the gate and prints what was seen so far)
    signal.signal(signal.SIGTERM, lambda *_: os.killpg(run.pid, signal.SIGTERM))
    while run.poll() is None:
        now = list(processes())
        below, more = {run.pid}, True
        while more:
            more = {pid for pid, _, parent, _ in now if parent in below} - below
            below |= more
        for pid, start, _, seconds in now:
            key = f"{pid}-{start}"
            if pid not in below:
                continue
            # (a process that was just made has its parent's words until it begins its own program)
            if not kinds.get(key):
                kinds[key] = kind_of(pid)
            if kinds[key]:
                seen[key] = [*kinds[key], seconds]
        time.sleep(0.1)
    return {"status": run.returncode, "wall": time.time() - began, "processors": os.cpu_count(), "seen": list(seen.values()), "log": log.name}


def table(run):
    by = collections.defaultdict(lambda: collections.defaultdict(float))
    for kind, crate, seconds in run["seen"]:
        by[kind][crate] += seconds
    total = sum(sum(crates.values()) for crates in by.values())
    print(f"gate: status {run['status']}, {run['wall'] / 60:.1f} minutes on {run['processors']} processors, {total / 60:.1f} processor minutes")
    for kind in ("proofs", "tests", "bases", "edits", "builds"):
        crates = sorted(by[kind].items(), key=lambda it: -it[1])
        print(f"{kind}: {sum(by[kind].values()) / 60:.1f} processor minutes; dearest, in seconds: " + ", ".join(f"{name} {seconds:.0f}" for name, seconds in crates[:10]))


if len(sys.argv) > 2:
    table(json.load(open(sys.argv[2])))
    sys.exit()
room = tempfile.mkdtemp(prefix="gate-price-")
top = f"{room}/repo"
subprocess.run(["git", "clone", "-q", "--no-hardlinks", sys.argv[1], top], check=True)
run = measured(top)
with open(f"{room}/samples.json", "w") as it:
    json.dump(run, it)
table(run)
print(f"what the gate printed: {run['log']}; the samples: {room}/samples.json")
sys.exit(run["status"])
PY
