"""A gateway whose sessions and ports bring what they shouldn't. It has no controller, so that no session takes another's place."""
import random
import socket
import struct
import time

import nodes
from seen import SOON, answer_on, closing, end_of, fault, reset, send_slowly

WEST, EAST, NEAR, FAR = "192.0.2.1", "198.51.100.1", "10.1.0.0/16", "10.2.0.0/16"
FORM = fault(400, "malformed-message", "form")
SIZE = fault(413, "too-big", "size")
READ = nodes.request("GET", nodes.TREE + "/sad")

# What is sent in a session, and the answer with which it ends.
BROKEN = [
    ("HTTP of another version", b"GET / HTTP/1.0\r\n\r\n", FORM),
    ("one octet 0 and an empty line", b"\0\r\n\r\n", FORM),
    ("no HTTP", b"HELO here\r\n\r\n", FORM),
    ("a body in chunks", b"GET / HTTP/1.1\r\nTransfer-Encoding: chunked\r\n\r\n", fault(501, "operation-not-supported", "chunked")),
    ("a body of 1 MiB and an octet", b"PUT / HTTP/1.1\r\nContent-Length: 1048577\r\n\r\n", SIZE),
    ("Content-Length twice", b"GET / HTTP/1.1\r\nContent-Length: 0\r\nContent-Length: 0\r\n\r\n", FORM),
    ("Content-Length that is no number", b"GET / HTTP/1.1\r\nContent-Length: 1x\r\n\r\n", FORM),
    ("8,192 octets of a head without an end", b"GET / HTTP/1.1\r\nA: " + b"a" * 8173, SIZE),
    ("70,000 octets without a line's end", b"a" * 70000, SIZE),
    ("65 fields", b"GET / HTTP/1.1\r\n" + b"A: a\r\n" * 65 + b"\r\n", FORM),
    ("octets of each value", bytes(range(256)) * 40, SIZE),
]

# What is sent in a session that then breaks off.
CUT = [
    ("nothing", b""),
    ("the middle of a request line", READ[:9]),
    ("the middle of a head", READ[:-2]),
    ("the middle of a body", b"PUT %s/spd HTTP/1.1\r\nContent-Length: 1000\r\n\r\n{" % nodes.TREE.encode()),
    ("two requests and half a one", READ * 2 + READ[:30]),
]


class Pair:
    """Two gateways with a half for each direction, put there by hand, and what is inside of them."""

    def __init__(self, running):
        self.ports = nodes.pair_of_ports()
        self.nodes = [running.gateway(name, address, p) for name, address, p in zip(("north", "south"), (WEST, EAST), self.ports)]
        keys = nodes.new_key(), nodes.new_key()
        for ports, near, far, ends, names in ((self.ports[0], NEAR, FAR, (WEST, EAST), ("out/1", "in/2")),
                                              (self.ports[1], FAR, NEAR, (EAST, WEST), ("in/1", "out/2"))):
            session = nodes.Session(ports)
            entries = [nodes.policy("o", "outbound", 10, "protect", near, far), nodes.policy("i", "inbound", 0, "bypass", near, far)]
            session.must(204, "PUT", nodes.TREE + "/spd", nodes.spd(*entries))
            for name, key, spi in zip(names, keys, (257, 258)):
                session.must(201, "POST", nodes.TREE + "/sad", nodes.half(name, 10, spi, key, (near, far), ends))
            session.close()
        self.ends = nodes.Ends(*self.ports)

    def goes_on(self):
        """Whether packets pass both ways, and a good session reads the halves."""
        halves = sorted(nodes.halves_of(self.ports[0]))
        return self.ends.both_ways() and halves == ["in/2", "out/1"] and all(node.poll() is None for node in self.nodes)


def try_broken(seen, pair):
    for what, octets, answer in BROKEN:
        session = nodes.Session(pair.ports[0], octets)
        with closing(session):
            came = answer_on(session), end_of(session.stream), end_of(session.notices), pair.goes_on()
        seen.see("a session brings %s" % what, (answer, "ends", "ends", True), came)


def try_refused(seen, pair):
    session = nodes.Session(pair.ports[0], b"PUT %s/spd HTTP/1.1\r\nContent-Length: 1\r\n\r\n{" % nodes.TREE.encode())
    with closing(session):
        came = answer_on(session), session.ask("GET", nodes.TREE + "/sad")[0], pair.goes_on()
    seen.see("a session brings a body that is no JSON, and then a request", (fault(400, "malformed-message", "json"), 200, True), came)


def try_cut(seen, pair):
    for how, close in (("ends", lambda stream: stream.close()), ("is reset", reset)):
        for what, octets in CUT:
            session = nodes.Session(pair.ports[0], octets)
            close(session.stream)
            came = end_of(session.notices), pair.goes_on()
            session.notices.close()
            seen.see("a session %s after %s" % (how, what), ("ends", True), came)


def try_slow(seen, pair):
    session = nodes.Session(pair.ports[0])
    with closing(session):
        passed = send_slowly(session.stream, READ[:5], 1.0, pair.ends.both_ways)
        session.send(READ[5:])
        came = passed, answer_on(session)
    seen.see("a session brings an octet a second, and packets pass meanwhile", ([True] * 5, "200"), came)


def try_halves_of_sessions(seen, pair):
    """A control stream or a notice stream alone is dropped, and many at once don't keep a session out."""
    ports = pair.ports[0]
    for name, port in (("control", ports.control), ("notice", ports.notice)):
        alone = socket.create_connection((nodes.HERE, port), SOON)
        with closing(alone):
            came = end_of(alone), pair.goes_on()
        seen.see("a %s stream comes alone" % name, ("ends", True), came)
    many = [socket.create_connection((nodes.HERE, port), SOON) for _ in range(50) for port in (ports.control, ports.notice)]
    with closing(*many):
        came = pair.goes_on()
    seen.see("50 pairs of streams come at once", True, came)


def try_deaf(seen, pair):
    """A peer that asks and reads nothing holds a gateway up until a write has waited for five seconds."""
    session = nodes.Session(pair.ports[0])
    session.stream.settimeout(0.5)
    with closing(session):
        try:
            for _ in range(3000):
                session.send(READ * 100)
        except OSError:
            pass
        begin = time.monotonic()
        passed = pair.ends.until_both_ways(10.0)
        held = time.monotonic() - begin
        came = passed, held < 8, pair.goes_on()
    seen.see("a peer asks and reads nothing: packets pass again, here after %.1f s" % held, (True, True, True), came)


def esp_of(spi, rest):
    """An ESP packet to south with this SPI, the number 1 and this rest, which doesn't open."""
    octets = struct.pack(">II", spi, 1) + rest
    head = struct.pack(">BBHHHBBH", 0x45, 0, 20 + len(octets), 1, 0, 64, 50, 0) + socket.inet_aton(WEST) + socket.inet_aton(EAST)
    return head[:10] + struct.pack(">H", nodes.checksum(head)) + head[12:] + octets


def try_notice_octets(seen, pair):
    """A gateway reads nothing of a notice stream."""
    session = nodes.Session(pair.ports[0])
    with closing(session):
        session.notices.sendall(b"a" * 65536)
        came = session.ask("GET", nodes.TREE + "/sad")[0], pair.goes_on()
    seen.see("65,536 octets come on a notice stream", (200, True), came)


def drawn(chance, octets):
    """These octets with one to four of them changed, or cut."""
    made = bytearray(octets)
    for _ in range(chance.randint(1, 4)):
        made[chance.randrange(len(made))] = chance.randrange(256)
    return bytes(made[:chance.randrange(len(made))] if chance.random() < 0.3 else made)


def try_drawn(seen, pair):
    """What a session and the ports bring is drawn, always the same. Packets may pass or be dropped; nothing may end."""
    chance = random.Random(9061)
    clear = nodes.packet("10.1.0.1", "10.2.0.1", b"a" * 40)
    esp = esp_of(257, b"a" * 60)
    with nodes.port_socket(0) as stranger:
        for _ in range(1000):
            pair.ends.let("west", drawn(chance, clear))
            for octets in (drawn(chance, clear), drawn(chance, esp)):
                stranger.sendto(octets, (nodes.HERE, pair.ports[1].outside))
            time.sleep(0.001)
    came = pair.ends.until_both_ways(3.0), pair.goes_on()
    seen.see("3,000 drawn datagrams come", (True, True), came)
    for _ in range(200):
        session = nodes.Session(pair.ports[0], drawn(chance, READ))
        session.close()
    seen.see("200 sessions with drawn octets come", True, pair.goes_on())


def from_outside(pair, octets):
    """What south's inside is given of a datagram from outside."""
    with nodes.port_socket(0) as stranger:
        stranger.sendto(octets, (nodes.HERE, pair.ports[1].outside))
    return pair.ends.came("east", octets, 0.5)


def try_datagrams(seen, pair):
    longest = nodes.packet("10.1.0.1", "10.2.0.1", b"a" * (65507 - 28))
    sealed = nodes.packet("10.1.0.1", "10.2.0.1", b"a" * (65000 - 28))
    for what, octets, given in (("no octets", b"", False), ("65,507 octets that are no packet", b"a" * 65507, False),
                                ("a packet of 65,507 octets", longest, False), ("a packet of 65,000 octets", sealed, True)):
        pair.ends.let("west", octets)
        seen.see("inside brings %s" % what, (given, True), (pair.ends.came("east", octets, 0.5), pair.goes_on()))
    for what, octets, given in (("no octets", b"", False), ("65,507 octets that are no packet", b"a" * 65507, False),
                                ("ESP of a half that isn't there", esp_of(9, b"a" * 60), False),
                                ("ESP that doesn't open", esp_of(257, b"a" * 60), False),
                                ("ESP of 20 octets", esp_of(257, b"a" * 12), False),
                                ("a packet that bypasses, of 65,507 octets", longest, True)):
        seen.see("outside brings %s" % what, (given, True), (from_outside(pair, octets), pair.goes_on()))


def try_ports(seen, pair, running):
    """A second gateway that has one port of the first."""
    for name in ("inside", "outside", "control", "notice"):
        ports = nodes.pair_of_ports()[0]._replace(**{name: getattr(pair.ports[0], name)})
        done = running.run(*nodes.gateway_words(WEST, ports))
        seen.see("the port --%s is taken" % name, (9, "DeviceFault", True), (done.status, done.complained.strip(), pair.goes_on()))


def try_gateway(seen, running):
    pair = Pair(running)
    seen.see("two gateways with halves put there by hand", True, pair.goes_on())
    try_broken(seen, pair)
    try_refused(seen, pair)
    try_cut(seen, pair)
    try_slow(seen, pair)
    try_halves_of_sessions(seen, pair)
    try_notice_octets(seen, pair)
    try_datagrams(seen, pair)
    try_drawn(seen, pair)
    try_ports(seen, pair, running)
    try_deaf(seen, pair)
    pair.ends.close()
    running.end(pair.nodes)
