"""fuzz.py PROGRAM FOLDER SECONDS SEED: see fuzz.sh."""
import collections, glob, os, re, shutil, subprocess, sys, tempfile, time

import model
import pieces
from records import Refused, read_record, write_record
from sent import alike, facts, meant, sound

program, sessions, seconds, seed = sys.argv[1], sys.argv[2], float(sys.argv[3]), int(sys.argv[4])
pieces.draw.seed(seed)
work = tempfile.mkdtemp(prefix="fuzz-")
KINDS = b"Word|Section|Keyword|Argument|Expr|Acl|Pattern|FramingName|Limit|Missing"


def run(*words):
    got = subprocess.run([program, *words], capture_output=True, timeout=60)
    if got.stderr: raise ValueError(f"standard error of {words[0]}, status {got.returncode}: {got.stderr[:2000]!r}")
    return got.returncode, got.stdout


def lay(name, data):
    with open(f"{work}/{name}", "wb") as it: it.write(data)
    return f"{work}/{name}"


def trial(cfg, rec):
    """Which step the session came to: a refusal, or a report that was compared."""
    c, r = lay("c", cfg), lay("r", rec)
    checked = run("check", c)
    if not (checked[0] == 0 and re.fullmatch(rb"config ok: request rules \d+, response rules \d+, filters \d+\n", checked[1]) or checked[0] == 2 and re.fullmatch(rb"config: line \d+: (?:" + KINDS + rb")\n", checked[1])):
        raise ValueError(f"status {checked[0]} of check")
    try:
        record = read_record(rec); wanted = (0, write_record(2, *record[1:]))
    except Refused as fault:
        record, wanted = None, (3, b"record: byte %d: %s\n" % (fault.args[0], fault.args[1].encode()))
    if run("check", "--record", r) != wanted: raise ValueError(f"check --record, where {wanted[0], wanted[1][:80]} is wanted")
    replayed = run("replay", c, r)
    if checked[0] or wanted[0]:
        if replayed != (checked if checked[0] else wanted): raise ValueError("replay refuses otherwise than check")
        return "configurations refused" if checked[0] else "records refused"
    version, conns, turns = record
    if replayed[0] != 0: raise ValueError(f"status {replayed[0]} of replay")
    one = facts(replayed[1], conns)
    try: config = model.config_of(cfg)
    except (model.Unsaid, ValueError, IndexError, KeyError): config = None
    for fact, conn in zip(one, conns):
        why = meant(fact, conn, config) if config else sound(fact, conn) and None
        if why: lay("other", replayed[1]); raise ValueError(f"the model: {why}")
    again = run("replay", c, lay("r", write_record(version, conns, pieces.some_turns(len(conns)))))
    twice = run("replay", c, lay("r", write_record(2, conns + conns, []))) if len(conns) <= 512 else (0, b"")
    if again[0] or twice[0]: raise ValueError("replay of other turns, or twice")
    for a, b, conn in zip(one, facts(again[1], conns), conns):
        why = alike(a, b, conn)
        if why: lay("other", again[1]); raise ValueError(f"under other turns: {why}")
    both = facts(twice[1], conns + conns)
    if both[:len(conns)] != both[len(conns):]: lay("other", twice[1]); raise ValueError("a connection depends on one before it")
    for a, b, conn in zip(one, both, conns):
        why = alike(a, b, conn)
        if why: lay("other", twice[1]); raise ValueError(f"without turns: {why}")
    return "sessions compared with the model" if config else "sessions compared with themselves"


bases = [(open(f, "rb").read(), open(f[:-4] + ".rec", "rb").read()) for f in sorted(glob.glob(sessions + "/*.cfg")) if os.path.exists(f[:-4] + ".rec")]
start, tried, came, found = time.time(), 0, collections.Counter(), 0
while time.time() - start < seconds:
    cfg, rec = pieces.some_session(bases); tried += 1
    try:
        came[trial(cfg, rec)] += 1
    except (ValueError, subprocess.TimeoutExpired) as error:
        found += 1; folder = f"{work}/found-{found}"; os.makedirs(folder)
        for name, data in (("cfg", cfg), ("rec", rec), ("why", str(error).encode())): open(f"{folder}/{name}", "wb").write(data)
        for name in ("r", "other"):
            if os.path.exists(f"{work}/{name}"): shutil.copy(f"{work}/{name}", f"{folder}/last-{name}")
        print(f"{folder}: {error}", flush=True)
print(f"{tried} tried with seed {seed} in {int(time.time() - start)} seconds: " + ", ".join(f"{n} {what}" for what, n in sorted(came.items())) + f"; {found} found" + (f": {work}" if found else ""))
if not found: shutil.rmtree(work)
sys.exit(1 if found else 0)
