#!/usr/bin/env python3
"""Writes a script to standard output: `clear`, `tunnel`, `drill N [TIMES]` with TIMES times as many drawn lines, or `reading N`."""
import sys

LIMIT = 64 * 1024 * 1024
DRAWN = 20000
TUNNELS = 1024
FACTOR, STEP, WORD = 6364136223846793005, 1442695040888963407, 1 << 64


def checksum(header):
    total = sum(header[i] << 8 | header[i + 1] for i in range(0, len(header), 2))
    while total >> 16:
        total = (total & 0xFFFF) + (total >> 16)
    return ~total & 0xFFFF


def packet(source, destination, payload=b"abcd"):
    """A UDP packet over IPv4, from port 4660 to port 53 without a checksum of its own."""
    length = 28 + len(payload)
    header = bytearray.fromhex("4500") + length.to_bytes(2, "big") + bytearray.fromhex("00004000401100000000000000000000")
    header[12:16], header[16:20] = bytes(source), bytes(destination)
    header[10:12] = checksum(header).to_bytes(2, "big")
    ports = bytes.fromhex("12340035") + (8 + len(payload)).to_bytes(2, "big") + bytes(2)
    return (bytes(header) + ports + payload).hex()


def filled(lines, again):
    """These lines, and then one again and again, as far as a script may go."""
    size = sum(len(line) + 1 for line in lines)
    return lines + [again] * ((LIMIT - size) // (len(again) + 1))


def clear():
    lines = [
        "world seq-last 4294967295 a=192.0.2.1",
        "policy a p1,out,1,protect,10.3.0.0/16,10.4.0.0/16,any,any,any"
        " p2,out,2,discard,10.1.0.0/16,10.5.0.0/16,any,any,any"
        " p3,out,3,discard,10.1.0.0/16,10.2.0.0/16,6,any,any"
        " p4,out,4,bypass,10.1.0.0/16,10.2.0.0/16,17,any,53-53+5000-6000",
        "open a",
        "down a",
        "down a",
    ]
    return filled(lines, "let a " + packet([10, 1, 0, 5], [10, 2, 0, 9], b"abcdefgh"))


def tunnel():
    lines = [
        "world seq-last 4294967295 a=192.0.2.1 b=198.51.100.1",
        "policy a o1,out,10,protect,10.1.0.0/16,10.2.0.0/16,any,any,any",
        "policy b o1,out,10,protect,10.2.0.0/16,10.1.0.0/16,any,any,any",
        "keys 000102030405060708090a0b0c0d0e0fa0a1a2a3",
        "keys 101112131415161718191a1b1c1d1e1fb0b1b2b3",
        "tunnel 10 now a b 10.1.0.0/16 10.2.0.0/16 64 0/0/0/0 0/0/0/0",
        "open a",
        "open b",
    ]
    steps = "down a,down a,up a,up a,down b,down b,up b,up b,down b,down a,up b,up a,down a,down b,up a,up b"
    return filled(lines + steps.split(","), "let a " + packet([10, 1, 0, 5], [10, 2, 0, 9], b"abcdefgh"))


def number(i, j):
    return min(i, j) * 10 + max(i, j)


def prefix(i):
    return "10.%d.0.0/16" % i


def setup():
    lines = ["world seq-last 4294967295 a=192.0.2.1 b=192.0.2.2 c=192.0.2.3"]
    for i in (1, 2, 3):
        entries = ["o%d,out,%d,protect,%s,%s,any,any,any" % (j, number(i, j), prefix(i), prefix(j)) for j in (1, 2, 3) if j != i]
        lines.append("policy %s %s" % ("abc"[i - 1], " ".join(entries)))
    for k in range(1, 65):
        lines.append("keys " + (k.to_bytes(16, "big") + k.to_bytes(4, "big")).hex())
    for i, j in ((1, 2), (1, 3), (2, 3)):
        names = "%s %s" % ("abc"[i - 1], "abc"[j - 1])
        lines.append("tunnel %d now %s %s %s 64 0/0/0/0 600/0/0/0" % (number(i, j), names, prefix(i), prefix(j)))
    return lines + ["open a", "open b", "open c"]


def drill(n, times):
    lines = setup()
    x, lets, clock = n, 0, 0
    for _ in range(DRAWN * times):
        x = (x * FACTOR + STEP) % WORD
        i, kind, y = 1 + (x >> 40) % 3, (x >> 33) % 16, x >> 45
        gateway = "abc"[i - 1]
        if kind <= 3:
            j = (i + (x >> 44) % 2) % 3 + 1
            lines.append("let %s %s" % (gateway, packet([10, i, 0, 5], [10, j, 0, 9])))
            lets += 1
        elif kind <= 6:
            lines.append("arrive %s #%d" % (gateway, 1 + y % (lets + 1)))
        elif kind <= 9:
            lines.append("down " + gateway)
        elif kind <= 12:
            lines.append("up " + gateway)
        elif kind == 13:
            lines.append("note " + gateway)
        elif kind == 14 and y % 64 == 0:
            lines.append("boot " + gateway)
        elif kind == 14:
            clock += 1
            lines.append("now %d" % clock)
        else:
            lines.append(("cut " if y % 16 == 0 else "open ") + gateway)
    return lines


def reading(times):
    """Two gateways with 4,096 halves each, since a rekey of all tunnels stands before its removals; then these many readings."""
    lines = ["world seq-last 4294967295 west=192.0.2.1 east=198.51.100.1"]
    lines += ["keys " + (k.to_bytes(16, "big") + k.to_bytes(4, "big")).hex() for k in range(1, 4 * TUNNELS + 1)]
    for k in range(1, TUNNELS + 1):
        names = "10.%d.%d.0/24 11.%d.%d.0/24" % (k >> 8, k & 255, k >> 8, k & 255)
        lines.append("tunnel %d now west east %s 64 0/0/0/0 0/0/0/0" % (k, names))
    a_round = ["down west", "up west", "down east", "up east"]
    lines += ["open west", "open east"] + (2 * TUNNELS + 2) * a_round
    lines += ["rekey %d" % k for k in range(1, TUNNELS + 1)] + 2 * TUNNELS * a_round
    return lines + times * ["cut west", "open west", "down west", "up west"]


def main(words):
    if words == ["clear"]:
        lines = clear()
    elif words == ["tunnel"]:
        lines = tunnel()
    elif words[:1] == ["drill"] and len(words) in (2, 3):
        lines = drill(int(words[1]), int(words[2]) if len(words) == 3 else 1)
    elif words[:1] == ["reading"] and len(words) == 2:
        lines = reading(int(words[1]))
    else:
        sys.exit(__doc__)
    sys.stdout.write("\n".join(lines) + "\n")


main(sys.argv[1:])
