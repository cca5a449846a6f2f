"""Records: a version, connections of a client (bytes, ending) and servers (None, or bytes, ending, takes), and turns of a connection. They are read by
the description of the format alone, so that the program's reader is compared with another one."""
import re

MOST = 67108864
NUMBER = rb"(?:0|[1-9][0-9]*)"


class Refused(Exception):
    """Where a record is refused, and the kind."""


def read_record(text):
    """The record's version, connections and turns; or it is refused."""
    if len(text) > MOST: raise Refused(MOST, "Limit")
    at = 0

    def line():
        """The next line and what stands behind it; no line where no line feed comes."""
        end = text.find(b"\n", at)
        return (text[at:end], end + 1) if end >= 0 else (None, at)

    def stream(size, behind):
        if len(text) < behind + size + 1 or text[behind + size:behind + size + 1] != b"\n": raise Refused(at, "Length")
        return text[behind:behind + size], behind + size + 1

    got, behind = line()
    if got not in (b"PXREC 1", b"PXREC 2"): raise Refused(0, "Header")
    version, wanted, conns, servers = int(got[6:]), 1, [], 0
    at = behind
    if version == 2:
        got, behind = line()
        counted = got is not None and re.fullmatch(rb"connections ([1-9][0-9]*)", got)
        if not counted: raise Refused(at, "Count")
        wanted = int(counted.group(1))
        if wanted > 1024: raise Refused(at, "Limit")
        at = behind
    while True:
        got, behind = line()
        word = text[at:behind if got is not None else len(text)].rstrip(b"\n").split(b" ")[0]
        if conns and word not in (b"server", b"turns") and not (version == 2 and word == b"client"): raise Refused(at, "Turn")
        if version == 2 and ((word == b"turns" and len(conns) < wanted) or (word == b"client" and len(conns) == wanted)): raise Refused(at, "Count")
        if conns and word == b"turns": break
        if conns and word == b"server":
            servers += 1
            if servers > 65536: raise Refused(at, "Limit")
            if got == b"server refused":
                conns[-1][1].append(None); at = behind; continue
            said = got is not None and re.fullmatch(rb"server (" + NUMBER + rb") (closed|broke) (all|" + NUMBER + rb")", got)
        else:
            said = got is not None and re.fullmatch(rb"client (" + NUMBER + rb") (closed|broke)", got)
        if not said: raise Refused(at, "Length")
        given, at = stream(int(said.group(1)), behind)
        if word == b"server" and conns: conns[-1][1].append((given, said.group(2), said.group(3)))
        else: conns.append(((given, said.group(2)), []))
    counted = got is not None and re.fullmatch(rb"turns (" + NUMBER + rb")", got)
    if not counted: raise Refused(at, "Turn")
    if int(counted.group(1)) > 1000000: raise Refused(at, "Limit")
    at, turns = behind, []
    for _ in range(int(counted.group(1))):
        got, behind = line()
        said = got is not None and re.fullmatch((rb"([1-9][0-9]*) " if version == 2 else rb"()") + rb"([cCsS]) ([1-9][0-9]*)", got)
        if not said or int(said.group(3)) > 262144 or (version == 2 and int(said.group(1)) > wanted): raise Refused(at, "Turn")
        turns.append((int(said.group(1) or 1), said.group(2), int(said.group(3)))); at = behind
    got, behind = line()
    if got != b"end": raise Refused(at, "Rest")
    if behind != len(text): raise Refused(behind, "Rest")
    return version, conns, turns


def write_record(version, conns, turns):
    out = [b"PXREC %d\n" % version] + ([b"connections %d\n" % len(conns)] if version == 2 else [])
    for client, servers in conns:
        out += [b"client %d %s\n" % (len(client[0]), client[1]), client[0], b"\n"]
        for server in servers:
            if server is None: out.append(b"server refused\n")
            else: out += [b"server %d %s %s\n" % (len(server[0]), server[1], server[2]), server[0], b"\n"]
    front = (lambda turn: b"%d " % turn[0]) if version == 2 else (lambda turn: b"")
    return b"".join(out + [b"turns %d\n" % len(turns)] + [front(turn) + b"%s %d\n" % turn[1:] for turn in turns] + [b"end\n"])
