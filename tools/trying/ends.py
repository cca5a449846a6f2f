"""ends.py COUNT FILE..: each file has so many answers of one line, each with a line of the ends behind it that it has to tell, as ADDRESS PORT ADDRESS PORT. It prints what is
wrong with the first that doesn't. Addresses of IPv6 may be written in any way."""
import ipaddress, sys


def ends(line):
    """The ends that a line tells, or none."""
    words = line.split(" ")
    try:
        return [str(ipaddress.ip_address(words[0])), words[1], str(ipaddress.ip_address(words[2])), words[3]] if len(words) == 4 else None
    except ValueError:
        return None


def wrong(name, count):
    """What is wrong with a file, or none."""
    with open(name, errors="replace") as it:
        lines = it.read().splitlines()
    if len(lines) != 2 * count:
        return f"{len(lines)} lines came"
    for told, seen in zip(lines[::2], lines[1::2]):
        if ends(told) is None or ends(told) != ends(seen):
            return f"the answer is {told}, and the ends are {seen}"
    return None


for file in sys.argv[2:]:
    if why := wrong(file, int(sys.argv[1])):
        print(why, end=" ")
        break
