"""What a report tells, read back: its form, what servers and the client were sent, and whether two reports of a session differ in the free parts alone."""
import re

import model
from records import NUMBER

FIELD = re.compile(rb"([!#$%&'*+.^_`|~0-9a-z-]+): ((?:[^\x00-\x08\x0a-\x1f\x7f]*))\r\n")
HOPS = {b"connection", b"keep-alive", b"proxy-connection", b"te", b"upgrade"}


def head_at(text, at, line):
    """The first line's match, the fields and what follows the head; none where no whole head stands there."""
    first = line.match(text, at)
    if not first: return None
    at, fields = first.end(), []
    while text[at:at + 2] != b"\r\n":
        field = FIELD.match(text, at)
        if not field: return None
        fields.append((field.group(1), field.group(2))); at = field.end()
    return first, fields, at + 2


def chunks_at(text, at):
    """The joined body, the trailer lines or none where the last chunk is missing, and what follows."""
    body = b""
    while True:
        size = re.compile(rb"([1-9a-f][0-9a-f]*|0)\r\n").match(text, at)
        if not size: return body, None, at
        count = int(size.group(1), 16)
        if count == 0:
            at, trailers = size.end(), []
            while text[at:at + 2] != b"\r\n":
                field = FIELD.match(text, at)
                if not field: raise ValueError("trailers")
                trailers.append(field.group()); at = field.end()
            return body, trailers, at + 2
        if text[size.end() + count:size.end() + count + 2] != b"\r\n": raise ValueError("a chunk")
        body += text[size.end():size.end() + count]; at = size.end() + count + 2


def body_at(text, at, fields):
    """The body, its trailers, what follows, and whether it is whole; none for a body that nothing frames."""
    lengths = [v for n, v in fields if n == b"content-length"]; codings = [v for n, v in fields if n == b"transfer-encoding"]
    if len(lengths) + len(codings) > 1 or codings not in ([], [b"chunked"]): raise ValueError("framing")
    if codings:
        body, trailers, behind = chunks_at(text, at)
        return body, trailers, behind, trailers is not None
    if lengths:
        size = int(lengths[0]); return text[at:at + size], [], min(at + size, len(text)), at + size <= len(text)
    return None


REQUEST = re.compile(rb"([!#$%&'*+.^_`|~0-9A-Za-z-]+) ([^\x00-\x20\x7f]+) HTTP/1\.1\r\n")
STATUS = re.compile(rb"HTTP/1\.1 (\d{3}) ([^\x00-\x08\x0a-\x1f\x7f]*)\r\n")


def request_of(text, cut):
    """The head, body and trailers of a request that was sent whole, or cut."""
    read = head_at(text, 0, REQUEST)
    if not read: raise ValueError("a request's head")
    first, fields, at = read
    if fields[-1] != (b"connection", b"close") or any(n in HOPS for n, _ in fields[:-1]): raise ValueError("fields of one connection")
    body = body_at(text, at, fields) or (b"", [], at, True)
    if body[2] != len(text) or body[3] == cut: raise ValueError("a request's end")
    return text[:at], body[0], body[1]


def answers_of(text, count, end, heads, cut):
    """Each exchange's interim heads, final head, body and trailers. Where a HEAD may have been asked, a body may be missing."""
    def rest(at, left):
        if left == 0: return [] if at == len(text) else None
        interim = []
        while True:
            read = head_at(text, at, STATUS)
            if not read: return None
            first, fields, behind = read; status = int(first.group(1))
            if status >= 200: break
            interim.append(text[at:behind]); at = behind
        closes = (b"connection", b"close") in fields
        if any(n in HOPS for n, _ in fields[:-1]) or (fields and fields[-1][0] in HOPS and not closes): raise ValueError("fields of one connection")
        if cut == b"none" and closes != (left == 1 and (end == b"closed" or (end == b"cut" and closes))): raise ValueError("connection: close")
        head = text[at:behind]
        ways = [] if status in (204, 304) else [body_at(text, behind, fields) or (text[behind:], [], len(text), end != b"cut" or left > 1)]
        if not ways or heads: ways.append((b"", [], behind, True))
        for body, trailers, after, whole in ways:
            if whole and not (end == b"cut" and left == 1): more = rest(after, left - 1)
            elif not whole and end == b"cut" and left == 1 and after == len(text): more = []
            else: continue
            if more is not None: return [(interim, head, body, trailers)] + more
        return None
    got = rest(0, count)
    if got is None: raise ValueError("the client's answers")
    return got


# -- reports

def facts(report, conns):
    """Each connection's exchanges, end, cut, client and servers, or the report is malformed."""
    at, out = 0, []

    def take(pattern):
        nonlocal at
        got = re.compile(pattern).match(report, at)
        if not got: raise ValueError(f"byte {at} of the report")
        at = got.end(); return got

    def text(size):
        nonlocal at
        got = report[at:at + size]; at += size + 1
        if report[at - 1:at] != b"\n": raise ValueError(f"byte {at} of the report")
        return got

    version = int(take(rb"PXREP ([12])\n").group(1))
    if version == 2: take(rb"connections %d\n" % len(conns))
    for number in range(1, len(conns) + 1):
        if version == 2: take(rb"connection %d\n" % number)
        exchanges, end, cut = take(rb"exchanges (" + NUMBER + rb")\nend (done|closed|cut)\ncut (none|before|begun)\n").groups()
        size, close = take(rb"client (" + NUMBER + rb") (clean|failed)\n").groups()
        client, servers = (text(int(size)), close), []
        while re.compile(rb"server %d " % (len(servers) + 1)).match(report, at):
            size, close = take(rb"server \d+ (?:(" + NUMBER + rb") (clean|failed)|refused)\n").groups()
            servers.append((text(int(size)), close) if close else None)
        out.append((int(exchanges), end, cut, client, servers))
    if at != len(report): raise ValueError(f"byte {at} of the report")
    return out


def sound(fact, conn):
    """Whether one connection's facts go together; what was sent, read back."""
    (exchanges, end, cut, client, servers), (stream, specs) = fact, conn
    if (client[1] == b"failed") != (end == b"cut"): raise ValueError("the client's close")
    if [s is not None and s[1] == b"failed" for s in servers] != [False] * (len(servers) - 1) + [cut != b"none"] * bool(servers) and servers: raise ValueError("a server's close")
    if cut != b"none" and not servers: raise ValueError("a cut without a server")
    if len(servers) > exchanges or None in servers[:-1] or (servers and servers[-1] is None and (end != b"closed" or cut != b"none")): raise ValueError("servers")
    sent = []
    for i, server in enumerate(servers):
        spec = specs[i] if i < len(specs) else None
        if (server is None) != (spec is None): raise ValueError("a refused server")
        if server is None: sent.append(None); continue
        takes = None if spec[2] == b"all" else int(spec[2])
        if takes is not None and len(server[0]) > takes: raise ValueError("a server took too much")
        sent.append((server[0], "stopped") if takes is not None and len(server[0]) == takes else request_of(server[0], server[1] == b"failed"))
    return sent, answers_of(client[0], exchanges, end, b"HEAD" in stream[0], cut)


def front_of(sent):
    """Of a request that may have been taken in part: its head, and what is known of its body."""
    if sent[1] != "stopped": return sent[0], sent[1]
    read = head_at(sent[0], 0, REQUEST)
    if not read: return sent[0], None
    text, at, head, body = sent[0], read[2], sent[0][:read[2]], b""
    if (b"transfer-encoding", b"chunked") not in read[1]: return head, text[at:]
    while True:
        size = re.compile(rb"([1-9a-f][0-9a-f]*)\r\n").match(text, at)
        if not size: return head, body
        count = int(size.group(1), 16); body += text[size.end():size.end() + count]; at = size.end() + count + 2


def same_request(one, two):
    if one is None or two is None or "stopped" not in (one[1], two[1]): return one == two
    (head, body), (other, more) = front_of(one), front_of(two)
    if body is None or more is None: return head.startswith(other) or other.startswith(head)
    return head == other and (body.startswith(more) or more.startswith(body))


def alike(one, two, conn):
    """Whether two reports of a connection differ in the free parts alone; why, where they don't."""
    (sent, answers), (others, more) = sound(one, conn), sound(two, conn)
    bits = (one[2], two[2])
    if one[0] != two[0] or (bits[0] == bits[1] and one[1] != two[1]) or (bits[0] != bits[1] and b"none" in bits): return "exchanges, end or cut"
    if len(sent) != len(others) or not all(map(same_request, sent, others)): return "what servers were sent"
    if answers[:-1] != more[:-1]: return "earlier answers"
    if not answers or bits[0] != bits[1]: return None
    last, other = answers[-1], more[-1]
    if bits[0] == b"before" and last[0][:len(other[0])] != other[0][:len(last[0])]: return "interim heads"
    return None if (last if bits[0] != b"before" else last[1:]) == (other if bits[0] != b"before" else other[1:]) else "the last answer"


def meant(fact, conn, config):
    """Where a report of a connection isn't what the model says, why."""
    (exchanges, end, cut, client, servers), (sent, answers) = fact, sound(fact, conn)
    wanted = model.session(config, conn, cut)
    if (exchanges, end) != wanted[:2]: return f"exchanges and end, where the model has {wanted[:2]}"
    if len(servers) != len(wanted[2]): return "the number of servers"
    for server, got, want in zip(servers, sent, wanted[2]):
        if got is None or want is None:
            if got != want: return "a refused server"
        elif server[1] != want[3] or not same_request(got, want[:3]): return f"a server's text, where the model has {want}"
    if len(answers) != len(wanted[3]): return "the number of answers"
    for i, ((interim, *answer), (others, wants)) in enumerate(zip(answers, wanted[3])):
        before = cut == b"before" and i == len(answers) - 1
        if tuple(answer) != tuple(wants) or interim != (others[:len(interim)] if before else others): return f"answer {i + 1}, where the model has {others, wants}"
    return None
