#!/usr/bin/env python3
"""A thousand random lines of the grammar, the same at each run, each made with the reading that it is meant to have:
the canonical text of what it asks for, or the reason to refuse it. The program reads each of them.
Usage: checks/lines.py PROGRAM, or checks/lines.py --print for the lines and their readings."""
import random
import subprocess
import sys

LINES = 1000
# The forms that the program runs: of jail(8) by the first word behind its name, of ifconfig(8) by the second.
BUILT = {"jail": (1, ("-c", "-r")), "ifconfig": (2, ("create", "destroy", "vnet", "-vnet", "up", "down", "ether"))}

dice = random.Random(20260)
pick, upto = dice.choice, lambda most: dice.randint(0, most)
LETTERS, DIGITS = "abcdefghijklmnopqrstuvwxyz", "0123456789"


def word(further, most):
    return pick(LETTERS) + "".join(pick(further) for _ in range(upto(most - 1)))


def label():
    text = word(LETTERS + DIGITS + "_-", pick((2, 16)))
    return "hosts" if text == "host" else text


def path(labels):
    return ".".join(label() for _ in range(labels))


def number(bits):
    return pick((0, 1, 2 ** bits - 1, dice.getrandbits(bits)))


def ip(value=None):
    value = number(32) if value is None else value
    return ".".join(str(value >> shift & 255) for shift in (24, 16, 8, 0))


def cases(text):
    return "".join(pick((c.lower(), c.upper())) for c in text)


def mac():
    text = ":".join("%02x" % number(8) for _ in range(6))
    return cases(text), text


def destination():
    """A spelling of a network, and its canonical text."""
    value, length = number(32), pick((0, 8, 24, 31, 32))
    form = upto(2)
    if form == 0:
        return "default", "default"
    if form == 1:
        return ip(value), ip(value) + "/32"
    network = value >> 32 - length << 32 - length
    return f"{ip(value)}/{length}", "default" if network == 0 and length == 0 else f"{ip(network)}/{length}"


def data():
    """A spelling of data, and its canonical text."""
    if upto(1):
        zeros = "zero:%d" % pick((0, 20000, upto(20000)))
        return zeros, zeros
    text = "".join(pick("0123456789abcdef") for _ in range(2 * pick((1, 2, 40))))
    return cases(text), text


def interface():
    return pick(("lo0", "epair%d%s" % (number(32), pick("ab"))))


def jail(room):
    limit = pick((None, 0, 1, 9999))
    name = path(dice.randint(1, room))
    words = ["vnet", "persist", "name=" + name] + ([] if limit is None else ["children.max=%d" % limit])
    dice.shuffle(words)
    text = f"jail -c name={name} vnet persist" + (f" children.max={limit}" if limit else "")
    return ["jail", "-c"] + words, text


def move(room):
    text = f"ifconfig {interface()} {pick(('vnet', '-vnet'))} {path(dice.randint(1, room))}"
    return text.split(), text


def inet(room):
    text = f"ifconfig {interface()} inet {ip()}/{pick((0, 8, 24, 32))}"
    return text.split() + pick(([], ["alias"])), text


def ether(room):
    spelt, text = mac()
    name = interface()
    return ["ifconfig", name, "ether", spelt], f"ifconfig {name} ether {text}"


def route(room):
    verb, (spelt, text), via = pick(("add", "delete")), destination(), ip()
    behind = [via] if verb == "add" else []
    return ["route", verb] + pick(([], ["-net"])) + [spelt] + behind, " ".join(["route", verb, text] + behind)


def arp(room):
    spelt, text = mac()
    address = ip()
    return ["arp", "-s", address, spelt], f"arp -s {address} {text}"


def ping(room):
    limit = pick(([], ["-m", str(pick((1, 255, 64)))]))
    address = ip()
    return ["ping"] + pick(([], ["-c", "1"])) + limit + [address], " ".join(["ping"] + limit + [address])


def send(room):
    sock, (spelt, text) = word(LETTERS + DIGITS, 16), data()
    to = pick(([], [ip(), str(number(16))]))
    return ["udp", "send", sock, spelt] + to, " ".join(["udp", "send", sock, text] + to)


def plain(room):
    """Forms with one spelling."""
    sock, name = word(LETTERS + DIGITS, 16), word(LETTERS + DIGITS + "_.", 64)
    text = pick((
        f"jail -r {path(dice.randint(1, room))}", "ifconfig epair create", f"ifconfig epair{number(32)} create",
        f"ifconfig {interface()} {pick(('destroy', 'up', 'down'))}", f"ifconfig {interface()} inet {ip()} -alias",
        f"arp -d {ip()}", f"sysctl {name}", f"sysctl {name}={number(64)}", "netstat -s",
        f"udp {pick(('open', 'recv', 'close'))} {sock}", f"udp bind {sock} {pick(('*', ip()))} {number(16)}",
        f"udp connect {sock} {ip()} {number(16)}", f"udp ttl {sock} {pick((1, 255))}",
        "ifconfig -a", "netstat -rn", "arp -an", "open if", "open route", "open arp", "next", "close", "watch"))
    return text.split(), text


FORMS = (jail, jail, move, inet, ether, route, arp, ping, send, plain, plain)

# What makes a line of a lane another: the words before, and those of a refused one with its reason.
MISTAKES = (
    lambda lane, at, words: (["0"] + [at] + words, "lane"),
    lambda lane, at, words: (["9"] + [at] + words, "lane"),
    lambda lane, at, words: (["0" + lane] + [at] + words, "lane"),
    lambda lane, at, words: ([lane, at.upper()] + words, "path"),
    lambda lane, at, words: ([lane, at + "."] + words, "path"),
    lambda lane, at, words: ([lane], "path"),
    lambda lane, at, words: ([lane, at], "command"),
    lambda lane, at, words: ([lane, at] + words + ["further"], "command"),
    lambda lane, at, words: ([lane, at, words[0].upper()] + words[1:], "command"),
    lambda lane, at, words: ([lane, at, "jail", "-c", "vnet", "persist", "name=a", "name=b"], "command"),
    lambda lane, at, words: ([lane, at, "jail", "-c", "vnet", "persist", "name=host"], "command"),
    lambda lane, at, words: ([lane, at, "ping", "-m", "0", "10.0.0.1"], "command"),
    lambda lane, at, words: ([lane, at, "ifconfig", "lo0", "alias", "inet", "10.0.0.1/8"], "command"),
    lambda lane, at, words: ([lane, at, "udp", "send", "s", "abc"], "command"),
    lambda lane, at, words: ([lane, at] + words[:-1] + [words[-1] + "\t"], "text"),
    lambda lane, at, words: ([lane, at] + words + ["x" * 4096], "text"),
)


def is_built(reading):
    """Whether a reading asks for what the program runs."""
    words = reading.split()[2:]
    place, verbs = BUILT.get(words[0], (0, ())) if words else (0, ())
    return len(words) > place and words[place] in verbs


# What names a jail that is too deep, where the issuer has 8 labels.
DEEP = ("jail -c vnet persist name=b", "jail -r b", "ifconfig lo0 vnet b", "ifconfig epair0a -vnet b")


def line():
    """A line, and its reading: what it asks for at its path, or a reason."""
    lane, depth = str(dice.randint(1, 8)), upto(7)
    at = path(depth) if depth else "host"
    words, text = pick(FORMS)(8 - depth)
    reading = f"{lane} {at} {text}"
    if upto(3) == 0:
        words, reading = pick(MISTAKES)(lane, at, words)
    else:
        words = [lane, at] + words
        if upto(7) == 0 and is_built(reading):
            words = [lane, ".".join(["a"] * 8)] + pick(DEEP).split()
            reading = "depth"
    spaces = lambda: " " * pick((1, 1, 3))
    spelt = words[0] + "".join(spaces() + w for w in words[1:])
    return pick(("", " ")) + spelt + pick(("", "  ")), reading


def answer(program, text):
    """The commands of the history that a script makes, or the refusal."""
    done = subprocess.run([program, "run"], input=text.encode(), capture_output=True, timeout=60)
    if done.returncode == 2:
        return done.stderr.decode().strip()
    out = done.stdout.decode()
    return [event[4:] for event in out[out.rindex("== history 1\n"):].splitlines()[1:-1]]


def main():
    made = [line() for _ in range(LINES)]
    if sys.argv[1:] == ["--print"]:
        print("\n".join(f"{text}\t=> {reading}" for text, reading in made))
        return 0
    read, before, wrong = [], [], 0
    for text, reading in made:
        if is_built(reading):
            read.append(reading)
            before.append(text)
            continue
        want = "script: line %d: %s" % (len(before) + 1, reading if " " not in reading else "command")
        got = answer(sys.argv[1], "\n".join(before + [text, ""]))
        if got != want:
            wrong += 1
            print(f"lines: {text!r}: {got}, expected {want}")
    if answer(sys.argv[1], "\n".join(before + [""])) != read:
        wrong += 1
        print("lines: the accepted lines are not read as they are meant")
    print(f"lines: {LINES} read, {wrong} otherwise than meant")
    return 1 if wrong else 0


if __name__ == "__main__":
    sys.exit(main())
