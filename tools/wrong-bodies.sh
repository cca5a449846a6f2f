#!/usr/bin/env bash
# wrong-bodies.sh [--jobs N] [NAME..]: tries the edits of crates/NAME/wrong-bodies/, which the gate doesn't read (of all crates where none is named). Each is a
# body that does the wrong thing, and the crate's contract has to refuse it. It copies the sources as they stand here into a folder of its own, so
# also those that aren't committed, with what `rt check` kept of them in out/, and there has `rt check` prove each crate with each of its edits in turn, N at a time
# (2 without --jobs). It prints a line for each edit as it comes, and then how many were refused. The status is 0 where all were. It changes nothing here.
# A crate that was never checked here is proved first, with all below it. A copy takes as much disk as what was kept of that one crate.
set -eu
here="$(cd "$(dirname "$0")/.." && pwd)"
command -v rt >/dev/null || { echo "wrong-bodies: no rt" >&2; exit 70; }
exec python3 - "$here" "$@" <<'PY'
import collections, concurrent.futures, os, re, shutil, subprocess, sys, tempfile

here, words = sys.argv[1], sys.argv[2:]
jobs = int(words.pop(words.index("--jobs") + 1)) if "--jobs" in words else 2
names = [it for it in words if it != "--jobs"]
crates = sorted(it for it in os.listdir(f"{here}/crates") if os.path.isdir(f"{here}/crates/{it}/wrong-bodies"))
unknown = [it for it in names if it not in crates]
if unknown:
    sys.exit(f"wrong-bodies: {unknown[0]} has no folder wrong-bodies/ (those that have one: {' '.join(crates)})")
names = names or crates


def below():
    """The crates of the repository that each of them uses."""
    lines = [line.split("#")[0].partition(":") for line in open(f"{here}/crates.txt")]
    return {name.strip(): [it for it in uses.split() if os.path.isdir(f"{here}/crates/{it}")] for name, _, uses in lines if name.strip()}


def all_below(name, uses, found):
    """The crate and all below it."""
    found.add(name)
    for it in uses[name]:
        if it not in found:
            all_below(it, uses, found)
    return found


def linked(one, other):
    """A second name for a file that is only read, or a copy where that can't be had."""
    try:
        os.link(one, other)
    except OSError:
        shutil.copy2(one, other)


def copied(top, name):
    """Copies what a proof of the crate reads, and what earlier checks kept of it and of those below."""
    os.makedirs(f"{top}/crates")
    shutil.copy(f"{here}/HANDLES", top)
    uses = below()
    with open(f"{top}/crates.txt", "w") as lines:
        for it in sorted(all_below(name, uses, set())):
            line = next(line for line in open(f"{here}/crates.txt") if line.partition(":")[0].strip() == it)
            lines.write(line)
            for part in ["src", "specs", "proofs", "out/rlib", *["out/incremental"] * (it == name)]:
                if os.path.isdir(f"{here}/crates/{it}/{part}"):
                    shutil.copytree(f"{here}/crates/{it}/{part}", f"{top}/crates/{it}/{part}", copy_function=linked if part == "out/rlib" else shutil.copy2)


def edited(folder, edit):
    """The texts of the crate's files that the edit changes, with the edit, or why it can't be applied."""
    texts, path, old = {}, None, None
    for line in open(edit, encoding="utf-8"):
        word, _, text = line.rstrip("\n").partition(": ")
        if word == "file":
            path = text
        elif word == "old":
            old = text
        elif word == "new":
            if path not in texts:
                texts[path] = open(f"{folder}/{path}", encoding="utf-8").read()
            if texts[path].count(old) != 1:
                return None, f"an old text is in {path} {texts[path].count(old)} times, and not once"
            texts[path] = texts[path].replace(old, text)
    return (texts, "") if texts else (None, "it has no pair of texts")


def check(folder):
    ran = subprocess.run(["rt", "check", "--jobs", "1"], cwd=folder, stdin=subprocess.DEVNULL, stdout=subprocess.PIPE, stderr=subprocess.STDOUT, errors="replace")
    return ran.returncode, ran.stdout.rstrip("\n").split("\n")


def came_to(folder, edit):
    """What an edit came to, in a word, and what the prover said first."""
    try:
        texts, why = edited(folder, edit)
    except OSError as error:
        texts, why = None, str(error)
    if not texts:
        return "BAD EDIT", why
    kept = {path: open(f"{folder}/{path}", encoding="utf-8").read() for path in texts}
    try:
        for path, text in texts.items():
            open(f"{folder}/{path}", "w", encoding="utf-8").write(text)
        status, lines = check(folder)
    finally:
        for path, text in kept.items():
            open(f"{folder}/{path}", "w", encoding="utf-8").write(text)
    last = next((it for it in reversed(lines) if it.startswith("logic=")), "")
    told = [it for it in lines if re.match(r"(note: )?\S+:\d+:\d+:", it) and (": error" in it or it.startswith("note: "))]
    # a proof file that names what the edit took away, and what cites that proof
    named = [it for it in told if re.match(r"(\./)?proofs/.*(has no field|is not in scope|has no `|was not admitted)", it)]
    first = next((it for it in told if it not in named), told[0] if told else lines[-1]).removeprefix("note: ")[:160]
    if status == 0:
        return "NOT REFUSED", ""
    if not last.startswith("logic=not-proved"):
        return "BAD EDIT", first
    return ("refused by a name alone" if named and len(named) == len(told) else "refused"), first


def tried(name):
    with tempfile.TemporaryDirectory(prefix=f"wrong-bodies-{name}-") as top:
        copied(top, name)
        folder, found = f"{top}/crates/{name}", []
        status, lines = check(folder)
        for edit in sorted(os.listdir(f"{here}/crates/{name}/wrong-bodies")):
            if not edit.endswith(".edit"):
                continue
            word, first = came_to(folder, f"{here}/crates/{name}/wrong-bodies/{edit}") if status == 0 else ("NOT TRIED", "the crate itself is not proved")
            print(f"{name}/{edit.removesuffix('.edit')}: {word}{': ' + first if first else ''}", flush=True)
            found.append(word)
        return found


with concurrent.futures.ThreadPoolExecutor(jobs) as pool:
    counts = collections.Counter(word for found in pool.map(tried, names) for word in found)
whole, refused = sum(counts.values()), counts["refused"] + counts["refused by a name alone"]
print(f"{refused} of {whole} wrong bodies refused" + "".join(f", {count} {word}" for word, count in sorted(counts.items()) if word != "refused"))
sys.exit(0 if refused == whole else 1)
PY
