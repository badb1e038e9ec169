"""A controller one of whose peers, or one of whose clients, says what it shouldn't."""
import select
import socket
import time

import nodes
from seen import SOON, answer_on, closing, end_of, fault, listener, reset, send_slowly
from gateway_trials import FORM, SIZE

WEST, EAST, ODD = "192.0.2.1", "198.51.100.1", "203.0.113.1"
PREFIXES = "10.1.0.0/16", "10.2.0.0/16"
EMPTY = b'{"ietf-i2nsf-ikeless:sad":{"sad-entry":[]}}'
HALF_LINE = b'{"ietf-restconf:notification":{"eventTime":"1970-01-01T00:00:01Z",'
# How soon the controller must answer a client, whatever a peer does.
PROMPT = 1.5


def response(body, status=b"200 OK"):
    return b"HTTP/1.1 %s\r\nContent-Length: %d\r\n\r\n" % (status, len(body)) + body


# What a peer answers to the reading that is asked of it.
ANSWERS = [
    ("no HTTP", b"HELO there\r\n\r\n"),
    ("HTTP of another version", b"HTTP/1.0 200 OK\r\nContent-Length: 0\r\n\r\n"),
    ("a body of 16 MiB and an octet", b"HTTP/1.1 200 OK\r\nContent-Length: 16777217\r\n\r\n"),
    ("8,192 octets of a head without an end", b"HTTP/1.1 200 OK\r\nA: " + b"a" * 8172),
    ("a body in chunks", b"HTTP/1.1 200 OK\r\nTransfer-Encoding: chunked\r\n\r\n"),
    ("a status that answers no reading", b"HTTP/1.1 204 No Content\r\n\r\n"),
    ("a body that is no JSON", response(b"{")),
    ("an answer that nobody asked for", response(EMPTY) * 2),
]

# What a peer says on its notice stream.
NOTICES = [
    ("a line that is no notice", b"{}\n"),
    ("4,097 octets of a line", b"a" * 4097),
    ("octets that are no text", b"\xff\xfe\n"),
    ("an empty line", b"\n"),
]

# What a peer says before it breaks off: on its control stream, and on its notice stream.
CUT = [
    ("nothing", b"", b""),
    ("the middle of a head", b"HTTP/1.1 200 OK\r\nConte", b""),
    ("the middle of a body", response(EMPTY)[:-5], b""),
    ("the middle of a line", response(EMPTY), HALF_LINE),
]

# What a client sends, and the answer with which its session ends.
BROKEN = [
    ("no HTTP", b"HELO here\r\n\r\n", FORM),
    ("a body of 1 MiB and an octet", b"POST / HTTP/1.1\r\nContent-Length: 1048577\r\n\r\n", SIZE),
    ("8,192 octets of a head without an end", b"POST / HTTP/1.1\r\nA: " + b"a" * 8172, SIZE),
    ("a body in chunks", b"POST / HTTP/1.1\r\nTransfer-Encoding: chunked\r\n\r\n", fault(501, "operation-not-supported", "chunked")),
]


class Odd:
    """A peer that the trials play."""

    def __init__(self):
        control, notice = nodes.free_ports(2)
        self.ports = nodes.Ports(0, 0, 0, 0, control, notice)
        # With little room it is soon full.
        self.doors = listener(control, 4096), listener(notice)

    def turn_away(self):
        """Closes what waits."""
        for door in self.doors:
            door.settimeout(0.0)
            try:
                while True:
                    door.accept()[0].close()
            except OSError:
                door.settimeout(SOON)

    def streams(self):
        """The streams of the controller's next call: not of one of which a stream was turned away, so that it ends at once."""
        for _ in range(5):
            self.turn_away()
            control, notices = self.doors[0].accept()[0], self.doors[1].accept()[0]
            if not select.select([control], [], [], 0.1)[0]:
                break
            control.close()
            notices.close()
        return control, notices

    def meet(self):
        """A session with the controller, whose first request was read. It calls again within a second or two."""
        for _ in range(5):
            try:
                control, notices = self.streams()
                control.settimeout(1.0)
                notices.sendall(b"+")
                if control.recv(65536).startswith(b"GET "):
                    return control, notices
                control.close()
                notices.close()
            except OSError:
                pass
        raise TimeoutError("the controller opens no session")


class Three:
    """A controller with two gateways, a tunnel between them, and a peer that is played."""

    def __init__(self, running):
        self.ports, self.odd = nodes.pair_of_ports(), Odd()
        self.commands, = nodes.free_ports(1)
        self.nodes = [running.gateway(name, address, p) for name, address, p in zip(("west", "east"), (WEST, EAST), self.ports)]
        words = zip(("west", "east", "odd"), (WEST, EAST, ODD), (*self.ports, self.odd.ports))
        self.nodes.append(running.controller(self.commands, *(nodes.peer_word(*word) for word in words)))
        self.ends = nodes.Ends(*self.ports)
        commands = nodes.Commands(self.commands)
        with closing(commands):
            for name, near, far in (("west", *PREFIXES), ("east", *PREFIXES[::-1])):
                commands.tell("policy", **{"gateway": name, "spd-entry": [nodes.policy("o", "outbound", 10, "protect", near, far)]})
            for _ in range(2):
                commands.tell("keys", key=nodes.new_key().hex(":"))
            commands.tell("tunnel", **{"reqid": "10", "mode": "now", "first": "west", "second": "east", "first-prefix": PREFIXES[0],
                                       "second-prefix": PREFIXES[1], "anti-replay-window-size": 64})

    def answers(self):
        """Whether a client is answered, and soon."""
        begin = time.monotonic()
        commands = nodes.Commands(self.commands)
        with closing(commands):
            said = answer_on_command(commands)
        return said == "204" and time.monotonic() - begin < PROMPT

    def goes_on(self):
        return self.ends.both_ways() and self.answers() and all(node.poll() is None for node in self.nodes)


def answer_on_command(commands):
    commands.send(nodes.request("POST", nodes.OPERATIONS + "keys", {"ikl-control:input": {"key": nodes.new_key().hex(":")}}))
    return answer_on(commands)


def try_answers(seen, three):
    for what, octets in ANSWERS:
        control, notices = three.odd.meet()
        with closing(control, notices):
            control.sendall(octets)
            came = end_of(control), end_of(notices), three.goes_on()
        seen.see("a peer answers with %s" % what, ("ends", "ends", True), came)


def try_notices(seen, three):
    for what, octets in NOTICES:
        control, notices = three.odd.meet()
        with closing(control, notices):
            control.sendall(response(EMPTY))
            notices.sendall(octets)
            came = end_of(control), end_of(notices), three.goes_on()
        seen.see("a peer's notices bring %s" % what, ("ends", "ends", True), came)


def try_cut(seen, three):
    for how, close in (("ends", lambda stream: stream.close()), ("is reset", reset)):
        for what, said, noted in CUT:
            control, notices = three.odd.meet()
            with closing(control, notices):
                control.sendall(said)
                notices.sendall(noted)
                broken, other = (notices, control) if noted else (control, notices)
                close(broken)
                came = end_of(other), three.goes_on()
            seen.see("a peer's stream %s after %s" % (how, what), ("ends", True), came)


def try_slow(seen, three):
    control, notices = three.odd.meet()
    with closing(control, notices):
        passed = send_slowly(control, response(EMPTY)[:5], 1.0, three.goes_on)
        control.sendall(response(EMPTY)[5:])
        came = passed, end_of(control, 1.0)
    seen.see("a peer answers with an octet a second", ([True] * 5, "goes on"), came)


def try_welcomes(seen, three):
    for what, octets, ending in (("another octet than +", b"-", "ends"), ("nothing", b"", "goes on")):
        control, notices = three.odd.streams()
        with closing(control, notices):
            notices.sendall(octets)
            came = end_of(control, 1.0), three.goes_on()
        seen.see("a peer welcomes a session with %s" % what, (ending, True), came)
    for door in three.odd.doors:
        door.close()
    came = three.goes_on(), three.goes_on()
    three.odd.doors = listener(three.odd.ports.control, 4096), listener(three.odd.ports.notice)
    seen.see("a peer's ports are closed", (True, True), came)


def try_deaf(seen, three):
    """A peer that reads nothing holds the controller up until a write has waited for five seconds, and gateways not at all."""
    control, notices = three.odd.meet()
    entries = [nodes.policy("e%d" % i, "outbound", i, "discard", "10.1.0.0/16", "10.2.0.0/16") for i in range(256)]
    commands, slowest = nodes.Commands(three.commands), 0.0
    commands.stream.settimeout(10.0)
    with closing(control, notices, commands):
        control.sendall(response(EMPTY))
        for _ in range(200):
            begin = time.monotonic()
            status = commands.tell("policy", **{"gateway": "odd", "spd-entry": entries})[0]
            slowest = time.monotonic() - begin
            if slowest > 2 or status != 204:
                break
        came = status, 4 < slowest < 7, end_of(notices), three.goes_on()
    seen.see("a peer reads nothing, and a command for it is answered after %.1f s" % slowest, (204, True, "ends", True), came)


def try_clients(seen, three):
    for what, octets, answer in BROKEN:
        commands = nodes.Commands(three.commands)
        with closing(commands):
            commands.send(octets)
            came = answer_on(commands), end_of(commands.stream), three.goes_on()
        seen.see("a client sends %s" % what, (answer, "ends", True), came)
    key = nodes.request("POST", nodes.OPERATIONS + "keys", {"ikl-control:input": {"key": nodes.new_key().hex(":")}})
    for how, close in (("ends", lambda stream: stream.close()), ("is reset", reset)):
        for what, octets in (("the middle of a head", key[:40]), ("the middle of a body", key[:-5])):
            commands = nodes.Commands(three.commands)
            commands.send(octets)
            close(commands.stream)
            seen.see("a client's connection %s after %s" % (how, what), True, three.goes_on())
    commands = nodes.Commands(three.commands)
    with closing(commands):
        commands.send(b"POST %skeys HTTP/1.1\r\nContent-Length: 1\r\n\r\n{" % nodes.OPERATIONS.encode())
        came = answer_on(commands), answer_on_command(commands)
    seen.see("a client sends a body that is no JSON, and then a command", (fault(400, "malformed-message", "json"), "204"), came)


def try_many_clients(seen, three):
    many = [socket.create_connection((nodes.HERE, three.commands), SOON) for _ in range(100)]
    with closing(*many):
        came = three.goes_on()
    seen.see("100 clients come at once, and another one", True, came)


def try_slow_client(seen, three):
    """Its place is taken by the next client."""
    commands = nodes.Commands(three.commands)
    with closing(commands):
        passed = send_slowly(commands.stream, b"POST", 1.0, three.ends.both_ways)
        came = passed, three.answers(), end_of(commands.stream)
    seen.see("a client sends an octet a second, and another one comes", ([True] * 4, True, "ends"), came)


def try_port(seen, three, running):
    done = running.run("controller", "--commands", three.commands, "--turns", 1, "a=192.0.2.9=1=2")
    seen.see("the port --commands is taken", (9, "DeviceFault", True), (done.status, done.complained.strip(), three.goes_on()))


def try_controller(seen, running):
    three = Three(running)
    seen.see("a tunnel between two gateways", True, three.ends.until_both_ways() and three.goes_on())
    for trial in (try_answers, try_notices, try_cut, try_slow, try_welcomes, try_clients, try_many_clients, try_slow_client, try_deaf):
        trial(seen, three)
    try_port(seen, three, running)
    three.ends.close()
    running.end(three.nodes)
