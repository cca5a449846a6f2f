"""What a configuration of filters alone makes of a connection, by the description of heads, bodies, filters and sessions: a second reading of it, in another
language, with which reports are compared. Rules aren't in it."""
import re

from authority import is_one

TOKEN = rb"[!#$%&'*+.^_`|~0-9A-Za-z-]+"
VALUE = rb"[\t\x20-\x7e\x80-\xff]*"
FIELD = re.compile(rb"(" + TOKEN + rb"):(" + VALUE + rb")\r?\n")
REQUEST = re.compile(rb"(" + TOKEN + rb") ([\x21-\x7e\x80-\xff]+) HTTP/1\.([01])\r?\n")
STATUS = re.compile(rb"HTTP/1\.([01]) (\d{3})(?: (" + VALUE + rb"))?\r?\n")
HOPS = [b"connection", b"keep-alive", b"proxy-connection", b"te", b"upgrade"]
FRAMING = [b"content-length", b"transfer-encoding"]
REASONS = {400: b"Bad Request", 403: b"Forbidden", 413: b"Payload Too Large", 500: b"Internal Server Error", 501: b"Not Implemented", 502: b"Bad Gateway", 503: b"Service Unavailable"}


class Refusal(Exception):
    """A refusal of this code takes the place of what was asked for."""


class Unsaid(Exception):
    """The model doesn't say."""


def trimmed(value): return value.strip(b" \t")


def values(text):
    """The values of a list: commas separate outside double quotes, in which a backslash escapes a byte."""
    out, quoted, at, start = [], False, 0, 0
    while at < len(text):
        byte = text[at:at + 1]
        if quoted and byte == b"\\": at += 1
        elif byte == b'"': quoted = not quoted
        elif byte == b"," and not quoted: out.append(trimmed(text[start:at])); start = at + 1
        at += 1
    return out + [trimmed(text[start:])]


def fields_at(text, at):
    """Fields, each a name and a value, and what follows the empty line; none where no whole section stands there."""
    fields = []
    while True:
        end = re.compile(rb"\r?\n").match(text, at)
        if end: return fields, end.end()
        field = FIELD.match(text, at)
        if not field: return None
        fields.append((field.group(1), trimmed(field.group(2)))); at = field.end()


def load(parts, fields): return 8 + 12 + sum(map(len, parts)) + sum(8 + len(n) + len(v) for n, v in fields) + 9


def elements(fields, name): return [v for n, value in fields if n.lower() == name for v in values(value)]


def head_of(text, at, line, limits, code):
    """The first line's match, the received fields, the declared length, whether chunks follow, `close` and the rest."""
    first = line.match(text, at)
    read = first and fields_at(text, first.end())
    asked = line is REQUEST
    if not read or read[1] - at > limits[0] or len(read[0]) > 256: raise Refusal(code)
    if asked:
        try: first.group(2).decode()
        except UnicodeDecodeError: raise Refusal(code)
    elif int(first.group(2)) < 100: raise Refusal(code)
    fields = read[0]
    version = first.group(3) if asked else first.group(1)
    if any(len(n) > 255 for n, _ in fields): raise Refusal(code)
    hosts = [v for n, v in fields if n.lower() == b"host"]
    if asked and (len(hosts) > 1 or (not hosts and version == b"1") or not is_one(first.group(1), first.group(2), hosts)): raise Refusal(code)
    if (asked and first.group(1) == b"CONNECT") or (not asked and first.group(2) == b"101"): raise Refusal(501 if asked else 502)
    codings = [e for e in elements(fields, b"transfer-encoding") if e]
    has_coding = any(n.lower() == b"transfer-encoding" for n, _ in fields)
    has_length = any(n.lower() == b"content-length" for n, _ in fields)
    lengths = {int(e) if re.fullmatch(rb"\d{1,18}", e) else None for e in elements(fields, b"content-length")}
    if (has_coding and (version == b"0" or has_length)) or (has_length and (None in lengths or len(lengths) != 1)): raise Refusal(code)
    if has_coding and [e.lower() for e in codings] != [b"chunked"]: raise Refusal(501 if asked else 502)
    options = {e.lower() for e in elements(fields, b"connection")}
    received = [(n.lower(), v) for n, v in fields if n.lower() not in options or n.lower() in [b"host"] + FRAMING + HOPS]
    parts = [first.group(1), first.group(2), b"HTTP/1.x"] if asked else [b"HTTP/1.x", first.group(2), first.group(3) or b""]
    if load(parts, received) > limits[0] - limits[1]: raise Refusal(code)
    return first, received, lengths.pop() if has_length else None, has_coding, b"close" in options, read[1]


def chunked_body(text, at, ending, limits):
    """The body, its trailers or none where it is cut, and the rest."""
    body = b""
    while True:
        line = re.compile(rb"([0-9A-Fa-f]{1,8})[ \t]*(?:;[\t\x20-\x7e\x80-\xff]*)?\r\n").match(text, at)
        if not line or line.end() - at > 256: return body, None, len(text)
        size = int(line.group(1), 16); at = line.end()
        if size == 0: break
        body += text[at:at + size]
        if text[at + size:at + size + 2] != b"\r\n": return body, None, len(text)
        at += size + 2
    read = fields_at(text, at)
    if not read or read[1] - at > limits[0] // 2 or len(read[0]) > 64 or any(len(n) > 255 for n, _ in read[0]): return body, None, len(text)
    return body, [(n.lower(), v) for n, v in read[0] if n.lower() not in [b"host"] + FRAMING + HOPS], read[1]


def body_of(framing, text, at, ending, limits):
    """The body, its trailers or none where it is cut, and where what follows it begins. A framing is none, a length, `chunked` or `close`."""
    if framing is None: return b"", [], at
    if framing == "chunked": return chunked_body(text, at, ending, limits)
    if framing == "close": return text[at:], [] if ending == b"closed" else None, len(text)
    return text[at:at + framing], [] if at + framing <= len(text) else None, min(at + framing, len(text))


def filtered(chain, body):
    """The output, and the code of the last refusal or none."""
    code = None
    for kind, *args in chain:
        if kind == b"body-limit":
            if len(body) > int(args[0]): body, code = body[:int(args[0])], 413
        elif kind == b"body-deny":
            at = body.find(args[0])
            if at >= 0: body, code = body[:at], 403
        else: body = body.replace(args[0], args[1])
    return body, code


def passes_limit(chain, length):
    """Whether a declared length is above a limit in front of any replacement."""
    for kind, *args in chain:
        if kind == b"body-replace": return False
        if kind == b"body-limit" and length is not None and length > int(args[0]): return True
    return False


def finished(parts, fields, framing, chain, declared, close, limits):
    """The head's text, without the first line, or the finished list doesn't fit."""
    kept = [(n, v) for n, v in fields if n not in HOPS + FRAMING]
    replaced = any(kind == b"body-replace" for kind, *_ in chain)
    if isinstance(framing, int): kept.append((b"transfer-encoding", b"chunked") if replaced else (b"content-length", b"%d" % framing))
    elif framing == "chunked": kept.append((b"transfer-encoding", b"chunked"))
    elif framing is None and declared is not None and not replaced: kept.append((b"content-length", b"%d" % declared))
    if close: kept.append((b"connection", b"close"))
    if load(parts, kept) > limits[0]: raise Refusal(500)
    return b"".join(n + b": " + v + b"\r\n" for n, v in kept) + b"\r\n"


def refusal(code, head):
    body = b"<html><body><h1>%d %s</h1></body></html>\n" % (code, REASONS[code])
    text = b"HTTP/1.1 %d %s\r\ncontent-length: %d\r\ncache-control: no-cache\r\ncontent-type: text/html\r\nconnection: close\r\n\r\n" % (code, REASONS[code], len(body))
    return text, (b"" if head else body), []


def sent_body(framing, output, trailers, whole):
    """How a body reads back: joined, and its trailer lines, none where its end is missing."""
    if framing == "chunked": return output, [n + b": " + v + b"\r\n" for n, v in trailers] if whole else None
    return output, []


def asked_of(config, text, at, ending):
    """What a request asks for, from where it begins: none where nothing is left."""
    limits, chain, _ = config
    at = re.compile(rb"(?:\r?\n)*").match(text, at).end()
    if at == len(text): return None
    first, fields, length, chunked, close, behind = head_of(text, at, REQUEST, limits, 400)
    framing = "chunked" if chunked else length
    if passes_limit(chain, length): raise Refusal(413)
    parts = [first.group(1), first.group(2), b"HTTP/1.1"]
    head = b"%s %s HTTP/1.1\r\n" % tuple(parts[:2]) + finished(parts, fields, framing, chain, None, True, limits)
    body, trailers, rest = body_of(framing, text, behind, ending, limits)
    output, code = filtered(chain, body)
    if any(kind == b"body-replace" for kind, *_ in chain) and framing is not None: framing = "chunked"
    keep = first.group(3) == b"1" and not close and not any(n == b"expect" for n, _ in fields)
    cut = code or (400 if trailers is None else None)
    return {"head": head, "body": sent_body(framing, output, trailers or [], cut is None), "cut": cut, "keep": keep, "rest": rest, "HEAD": first.group(1) == b"HEAD", "new": first.group(3) == b"1"}


def answer_of(config, asked, server):
    """Interim heads, the final head, its body and trailers, and whether the answer was cut; or a refusal behind the interim heads."""
    limits, _, chain = config
    interim = []
    try:
        if server is None: raise Refusal(503)
        text, at = server[0], 0
        while True:
            at = re.compile(rb"(?:\r?\n)*").match(text, at).end()
            first, fields, length, chunked, _, at = head_of(text, at, STATUS, limits, 502)
            status, reason = int(first.group(2)), first.group(3) or b""
            line = b"HTTP/1.1 %s %s\r\n" % (first.group(2), reason)
            if status >= 200: break
            if asked["new"]: interim.append(line + b"".join(n + b": " + v + b"\r\n" for n, v in fields if n not in HOPS + FRAMING) + b"\r\n")
        parts = [b"HTTP/1.1", first.group(2), reason]
        framing = None if asked["HEAD"] or status in (204, 304) else "chunked" if chunked else "close" if length is None else length
        if framing is not None and passes_limit(chain, length): raise Refusal(502)
        body, trailers, _ = body_of(framing, text, at, server[1], limits)
        output, code = filtered(chain, body)
        replaced = any(kind == b"body-replace" for kind, *_ in chain)
        told = "chunked" if framing is not None and (framing in ("chunked", "close") or replaced) else framing
        if told == "chunked" and not asked["new"]: told = "close"
        head = line + finished(parts, fields, told, chain if isinstance(told, int) or told is None else [], length if asked["HEAD"] or status == 304 else None, not asked["keep"], limits)
        cut = code is not None or trailers is None
        return interim, (head, *sent_body(told, output, trailers or [], not cut)), cut, True
    except Refusal as fault:
        return interim, refusal(fault.args[0], asked["HEAD"]), False, False


def session(config, conn, bit):
    """Exchanges, the end, what each server is sent and how its link is closed, and each exchange's interim heads and answer."""
    (text, ending), specs = conn
    at, exchanges, servers, answers = 0, 0, [], []
    while True:
        try: asked = asked_of(config, text, at, ending)
        except Refusal as fault:
            # a refusal of a head that was read goes by its method
            method = re.compile(rb"(?:\r?\n)*(HEAD) ").match(text, at)
            return exchanges + 1, b"closed", servers, answers + [([], refusal(fault.args[0], method and fault.args[0] in (413, 500)))]
        if asked is None: return exchanges, b"done", servers, answers
        exchanges += 1
        spec = specs[len(servers)] if len(servers) < len(specs) else None
        interim, answer, cut, passed = answer_of(config, asked, spec)
        servers.append(spec and (asked["head"], *asked["body"], b"failed" if asked["cut"] else b"clean"))
        if spec is None: return exchanges, b"closed", servers, answers + [(interim, answer)]
        if asked["cut"] and bit == b"before": return exchanges, b"closed", servers, answers + [(interim, refusal(asked["cut"], asked["HEAD"]))]
        answers.append((interim, answer))
        if cut: return exchanges, b"cut", servers, answers
        if asked["cut"] or not asked["keep"] or not passed: return exchanges, b"closed", servers, answers
        at = asked["rest"]


def config_of(text):
    """Limits and filters of both directions, where a configuration that is accepted has nothing else."""
    size, spare, chains = 16384, None, {b"req": [], b"res": []}
    for line in text.split(b"\n"):
        words = line.split()
        if words[:1] == [b"bind"] and words[2:]: raise Unsaid  # accept-proxy: a header stands in front of each client's text
        if words[:1] == [b"server"] and words[3:]: raise Unsaid  # send-proxy: one stands in front of each server's text
        if not words or words[0] in (b"listen", b"bind", b"server", b"global", b"defaults", b"mode", b"timeout"): continue
        if re.search(rb"[\"'\\#]", line): raise Unsaid
        if words[0] == b"tune.bufsize": size = int(words[1])
        elif words[0] == b"tune.maxrewrite": spare = int(words[1])
        elif words[0] == b"filter": chains[words[2]].append((words[1], *words[3:]))
        else: raise Unsaid
    return (size, min(1024, size // 2) if spare is None else spare), chains[b"req"], chains[b"res"]
