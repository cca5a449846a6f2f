#!/usr/bin/env bash
# try-docs.sh [PROGRAM] | --rows: runs the examples of docs/*.md and README.md through the program, as `rt ci` leaves it or as named. An example is a fenced
# block with one of the marks below. It prints page and line of each that differs and what it came to, then how many agree; the status is 1 where one differs.
# It also compares crates/htx_cases/data/configurations/reference.txt with what `--rows` prints: rows that the examples of docs/CONFIGURATION.md make for
# htx_cases. What a row wants comes from the page alone: the lines of a block are counted here, and the program isn't asked. `--rows` wants no program.
#
#   cfg                    a whole configuration that loads; the blocks behind it use it
#   cfg-lines              lines that load in a `listen` section with one bind and one server
#   cfg-refused L KIND     a whole configuration that is refused so, as the line of text above says too
#   check, printed         what `check` and `check --print` write of the last cfg
#   request, response      a head and a body with plain line ends, for the blocks behind it
#   samples [response]     EXPRESSION, two blanks, its text on that request or response; `absent`; `""` is empty
#   conditions             CONDITION, two blanks, `true` or `false` on that request
#   effects                a rule, ` => `, a line of a head that the server or the client is sent
#   answers                METHOD TARGET HOST, ` => `, such a line, under the last cfg
#   record, report         a record, and what `replay` writes of it under the last cfg; U+240D stands for a carriage return
#   woven K                what `weave` writes of the last record over K cores
#   explained [--blocks]   what `explain` writes of the last record under the last cfg
#   rewritten              what `check --record` writes of the last record
#   record-refused P KIND  a record that is refused so, as the line of text above says too
#   drill SEED COUNT       what `drill` writes
set -u
here="$(cd "$(dirname "$0")/.." && pwd)"
program=""
if [ "${1:-}" != --rows ]; then
  program="$(realpath "${1:-$here/crates/htx_proxy/out/htx_proxy}")"
  [ -x "$program" ] || { echo "try-docs: no program $program: run \`rt ci\`, or name a built one" >&2; exit 70; }
fi
exec python3 - "$here" "$program" <<'PY'
import glob, os, re, subprocess, sys, tempfile

here, program = sys.argv[1:3]
PAGE, ROWS = "docs/CONFIGURATION.md", "crates/htx_cases/data/configurations/reference.txt"
BASE = "listen p\n  bind 127.0.0.1:8080\n  server s 127.0.0.1:8081\n"
OPTIONS = {"send-proxy": 1, "send-proxy-v2": 2}
UNTRIED = ("", "text", "sh", "console", "rust")
HEAD = f"""# Examples of {PAGE}, made of the page by `tools/try-docs.sh --rows`: NAME | a text | ok with bufsize, maxrewrite and the number of
# rules; where there are any, the rules of responses and behind them, and the filters of requests and of responses; `accept-proxy` where each client's
# stream begins with a header; `send-proxy` and its version where each server is sent one; how an application is asked; or the refused line and its kind
"""


# ---- the page

def blocks(page):
    """Each fenced block of a page: the line of its fence, the heading above, the line of text above, the words of its mark, its text."""
    heading, above, found, inside = "", "", [], None
    for number, line in enumerate(open(f"{here}/{page}", encoding="utf-8"), 1):
        if inside is not None:
            if line.rstrip() == "```":
                found.append((*inside[:4], "".join(inside[4])))
                inside = None
            else:
                inside[4].append(line)
        elif line.startswith("```"):
            inside = (number, heading, above, line[3:].split(), [])
        elif line.startswith("#"):
            heading = line.lstrip("#").strip()
        elif line.strip():
            above = line.strip()
    return found


def pairs(text):
    """Lines of two parts with two blanks or more between them."""
    return [re.split(r"\s{2,}", line.strip(), maxsplit=1) for line in text.splitlines() if line.strip()]


def arrows(text):
    """Lines of two parts with an arrow between them."""
    return [[part.strip() for part in line.split(" => ", 1)] for line in text.splitlines() if line.strip()]


def within(lines):
    return BASE + "".join(f"  {line}\n" for line in lines)


def sample_rules(text, side):
    return [rule for number, (expression, _) in enumerate(pairs(text)) for rule in
            (f'http-{side} set-header v-{number} "<%[{expression}]>"', f'http-{side} set-header f-{number} 1 if {{ "{expression}" -m found }}')]


def condition_rules(text):
    return [f"http-request set-header c-{number} 1 if {condition}" for number, (condition, _) in enumerate(pairs(text))]


def configuration(mark, text):
    """The configuration that a block makes, where it makes one that loads."""
    if mark[0] == "cfg":
        return text
    if mark[0] == "cfg-lines":
        return within(text.splitlines())
    if mark[0] == "samples":
        return within(sample_rules(text, mark[1] if mark[1:] else "request"))
    if mark[0] == "conditions":
        return within(condition_rules(text))
    if mark[0] == "effects":
        return within(rule for rule, _ in arrows(text))
    return None


# ---- what the page says of a configuration

class Counts:
    """What the lines of a configuration that loads are counted to."""

    def __init__(self, text):
        lines = [line.split() for line in text.splitlines() if line.strip() and not line.strip().startswith("#")]
        self.request, self.response, self.after = (sum(words[0] == name for words in lines) for name in ("http-request", "http-response", "http-after-response"))
        self.request += any(words[:2] == ["option", "forwardfor"] for words in lines)  # one rule on requests, behind all others
        self.req, self.res = (sum(words[0] == "filter" and words[2] == side for words in lines) for side in ("req", "res"))
        self.accepts = any(words[0] == "bind" and words[2:3] == ["accept-proxy"] for words in lines)
        self.sends = next((OPTIONS.get(words[3]) for words in lines if words[0] == "server" and words[3:]), None)
        self.root, self.index, self.script = (next((words[1] for words in lines if words[0] == name), None) for name in ("fcgi-docroot", "fcgi-index", "fcgi-script"))
        if not any(words[0] == "server" and words[3:5] == ["proto", "fcgi"] for words in lines):
            self.root = None
        told = [words[1] for words in lines if words[0] == "fcgi-param"]
        self.names = list(dict.fromkeys(told))
        self.request += len(self.names) + len(told)  # a rule for each name, and one for each line
        sizes = {words[0]: int(words[1]) for words in lines if words[0].startswith("tune.")}
        self.bufsize = sizes.get("tune.bufsize", 16384)
        self.maxrewrite = sizes.get("tune.maxrewrite", min(1024, self.bufsize // 2))

    def line(self):
        return f"config ok: request rules {self.request}, response rules {self.response + self.after}, filters {self.req + self.res}\n"

    def row(self):
        answers = f"; answers {self.response} {self.after}" if self.response or self.after else ""
        filters = f"; filters {self.req} {self.res}" if self.req or self.res else ""
        accepts = "; accept-proxy" if self.accepts else ""
        sends = f"; send-proxy {self.sends}" if self.sends else ""
        return f"ok {self.bufsize} {self.maxrewrite} {self.request}{answers}{filters}{accepts}{sends}{self.application()}"

    def application(self):
        if self.root is None:
            return ""
        said = [f"{name} [{text}]" for name, text in (("application", self.root), ("index", self.index), ("script", self.script)) if text is not None]
        params = ["params " + "".join(f"[{name}]" for name in self.names)] if self.names else []
        return "".join(f"; {part}" for part in said + params)


def rows():
    """The rows that the examples of the page make."""
    numbers, made = {}, [HEAD]
    for _, heading, _, mark, text in blocks(PAGE):
        if not mark or mark[0] != "cfg-refused" and configuration(mark, text) is None:
            continue
        whole, wanted = (text, " ".join(mark[1:])) if mark[0] == "cfg-refused" else (configuration(mark, text), Counts(configuration(mark, text)).row())
        name = re.sub(r"\W+", "_", f"reference {heading.lower()}").strip("_")
        numbers[name] = numbers.get(name, 0) + 1
        for plain, written in (("\\", "\\\\"), ("\n", "\\n"), ("\r", "\\r"), ("\t", "\\t"), ("|", "\\x7c")):
            whole = whole.replace(plain, written)
        made.append(f"{name}_{numbers[name]} | {whole} | {wanted}\n")
    return "".join(made)


if not program:
    sys.stdout.write(rows())
    sys.exit(0)

# ---- the program

work = tempfile.TemporaryDirectory(prefix="try-docs-")


def ran(words, **files):
    """Status and output of a command over files of one letter."""
    for name, text in files.items():
        open(f"{work.name}/{name}", "wb").write(text if isinstance(text, bytes) else text.encode())
    done = subprocess.run([program, *words], cwd=work.name, stdin=subprocess.DEVNULL, capture_output=True, timeout=60)
    return done.returncode, done.stdout


def message(text):
    """The bytes of a message whose head stands with plain line ends."""
    head, _, body = text.partition("\n\n")
    return (head.rstrip("\n") + "\n\n").replace("\n", "\r\n").encode() + body.rstrip("\n").encode()


def heads(config, request, response):
    """The lines of the heads that servers and the client are sent; where the replay itself is refused, the one line of that."""
    record = b"PXREC 1\nclient %d closed\n%s\nserver %d closed all\n%s\nturns 0\nend\n" % (len(request), request, len(response), response)
    status, output = ran(["replay", "c", "r"], c=config, r=record)
    if status:
        return output.decode("latin-1").splitlines()
    lines, rest = [], output.split(b"\n", 4)[4]
    while rest:
        words, _, rest = rest.partition(b"\n")
        if not words.endswith(b" refused"):
            size = int(words.split()[-2])
            lines += rest[:size].split(b"\r\n\r\n")[0].decode("latin-1").split("\r\n")
            rest = rest[size + 1:]
    return lines


def refused(status, line, above, answer):
    """A refusal, which the line of text above says too, since a mark isn't seen."""
    yield (status, f"{line}\n".encode()), answer
    yield f"`{line}`", re.search(r"(`[^`]*`)?$", above)[0]


class Page:
    """What the blocks of a page that were met hand on to those behind them."""

    def __init__(self):
        self.config, self.record = BASE, b""
        self.request, self.response = b"GET / HTTP/1.1\r\nHost: h\r\n\r\n", b"HTTP/1.1 200 OK\r\nContent-Length: 2\r\n\r\nok"

    def sent_under(self, config):
        return heads(config, self.request, self.response)

    def tries(self, mark, text, above):
        """For each thing that a block says: what it says, and what it came to."""
        kind, words = mark[0], mark[1:]
        if kind == "cfg":
            self.config = text
        if kind in ("cfg", "cfg-lines"):
            whole = configuration(mark, text)
            yield (0, Counts(whole).line().encode()), ran(["check", "c"], c=whole)
        elif kind == "cfg-refused":
            yield from refused(2, f"config: line {words[0]}: {words[1]}", above, ran(["check", "c"], c=text))
        elif kind == "check":
            yield (0, text.encode()), ran(["check", "c"], c=self.config)
        elif kind == "printed":
            yield (0, text.encode()), ran(["check", "--print", "c"], c=self.config)
        elif kind == "request":
            self.request = message(text)
        elif kind == "response":
            self.response = message(text)
        elif kind == "samples":
            sent = self.sent_under(configuration(mark, text))
            if len(sent) == 1:
                yield "samples", sent[0]
                return
            for number, (expression, value) in enumerate(pairs(text)):
                got = [line.split(": ", 1)[1][1:-1] for line in sent if line.startswith(f"v-{number}: ")]
                yield (expression, value), (expression, got[0] or ('""' if f"f-{number}: 1" in sent else "absent"))
        elif kind == "conditions":
            sent = self.sent_under(configuration(mark, text))
            if len(sent) == 1:
                yield "conditions", sent[0]
                return
            for number, (condition, value) in enumerate(pairs(text)):
                yield (condition, value), (condition, "true" if f"c-{number}: 1" in sent else "false")
        elif kind == "effects":
            for rule, line in arrows(text):
                sent = self.sent_under(within([rule]))
                yield (rule, line), (rule, line if line in sent else sent)
        elif kind == "answers":
            for asked, line in arrows(text):
                method, target, host = asked.split()
                sent = heads(self.config, f"{method} {target} HTTP/1.1\r\nHost: {host}\r\n\r\n".encode(), b"HTTP/1.1 200 OK\r\nServer: app\r\nContent-Length: 2\r\n\r\nok")
                yield (asked, line), (asked, line if line in sent else sent)
        elif kind in ("record", "record-refused"):
            self.record = text.replace("\u240d", "\r").encode()
            if kind == "record-refused":
                yield from refused(3, f"record: byte {words[0]}: {words[1]}", above, ran(["check", "--record", "r"], r=self.record))
            else:
                status, output = ran(["check", "--record", "r"], r=self.record)
                yield 0, status
        elif kind == "report":
            yield (0, text.replace("\u240d", "\r").encode()), ran(["replay", "c", "r"], c=self.config, r=self.record)
        elif kind == "explained":
            yield (0, text.encode()), ran(["explain", *words, "c", "r"], c=self.config, r=self.record)
        elif kind == "woven":
            yield (0, text.replace("\u240d", "\r").encode()), ran(["weave", "c", "r", *words], c=self.config, r=self.record)
        elif kind == "rewritten":
            yield (0, text.replace("\u240d", "\r").encode()), ran(["check", "--record", "r"], r=self.record)
        elif kind == "drill":
            yield (0, text.encode()), ran(["drill", *words])
        elif kind not in UNTRIED:
            yield "a mark of this script", kind


examples = agree = 0
for page in ["README.md", *sorted(os.path.relpath(it, here) for it in glob.glob(f"{here}/docs/*.md"))]:
    state = Page()
    for number, _, above, mark, text in blocks(page):
        for wanted, got in state.tries(mark or [""], text, above):
            examples += 1
            agree += wanted == got
            if wanted != got:
                print(f"{page}:{number}: says {wanted}, and comes to {got}")
examples += 1
if os.path.exists(f"{here}/{ROWS}") and open(f"{here}/{ROWS}", encoding="utf-8").read() == rows():
    agree += 1
else:
    print(f"{ROWS}: isn't what `tools/try-docs.sh --rows` prints: write it again, and the count of rows in crates/htx_cases/stdout")
print(f"{agree} of {examples} examples agree")
sys.exit(0 if agree == examples else 1)
PY
