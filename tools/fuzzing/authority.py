"""Whether a request names one authority: the form of its target, Host, and both together (RFC 9112 sections 3.2 and 3.2.2, RFC 3986 section 3.2)."""
import ipaddress, re

NAME = rb"(?:[A-Za-z0-9\-._~!$&'()*+,;=]|%[0-9A-Fa-f]{2})*"
AUTHORITY = re.compile(rb"(?:\[([^\]]*)\]|(" + NAME + rb"))(?::([0-9]*))?")
ABSOLUTE = re.compile(rb"([A-Za-z][A-Za-z0-9+.\-]*)://([^/?]*)")
FUTURE = re.compile(rb"[vV][0-9A-Fa-f]+\.[A-Za-z0-9\-._~!$&'()*+,;=:]+")
PORTS = {b"http": b"80", b"https": b"443"}


def parts_of(text):
    """Host and port, or None where the text is no authority."""
    read = AUTHORITY.fullmatch(text)
    if not read: return None
    inner, name, port = read.groups()
    if inner is None: return name, port or b""
    if not FUTURE.fullmatch(inner):
        if b"%" in inner: return None
        try: ipaddress.IPv6Address(inner.decode("latin-1"))
        except ValueError: return None
    return b"[" + inner + b"]", port or b""


def fits(method, target):
    absolute = ABSOLUTE.match(target)
    if b"#" in target: return False
    if method == b"CONNECT":
        read = parts_of(target)
        return read is not None and read[0] != b"" and read[1] != b""
    if target.startswith(b"/") or (method == b"OPTIONS" and target == b"*"): return True
    read = absolute and parts_of(absolute.group(2))
    return read is not None and (read[0] != b"" or absolute.group(1).lower() not in PORTS)


def agrees(target, host):
    named, absolute = parts_of(host), ABSOLUTE.match(target)
    if named is None: return False
    if not absolute: return True
    scheme = absolute.group(1).lower()
    same = [(h.lower(), b"" if p == PORTS.get(scheme) else p) for h, p in (named, parts_of(absolute.group(2)))]
    return same[0] == same[1]


def is_one(method, target, hosts): return fits(method, target) and all(agrees(target, h) for h in hosts)
