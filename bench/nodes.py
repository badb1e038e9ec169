"""Live nodes as processes, what they are told, and packets for them. The scripts that try and time live nodes use it."""
import collections
import contextlib
import json
import os
import random
import select
import socket
import struct
import subprocess
import time

HERE = "127.0.0.1"
TURNS = "4294967295"
TREE = "/restconf/data/ietf-i2nsf-ikeless:ipsec-ikeless"
OPERATIONS = "/restconf/operations/ikl-control:"
ENDING = 2.0

Ports = collections.namedtuple("Ports", "inside inside_to outside outside_to control notice")
Ended = collections.namedtuple("Ended", "status said complained")


def is_free(port):
    """Whether neither a datagram socket nor a listener has this port."""
    for kind in (socket.SOCK_DGRAM, socket.SOCK_STREAM):
        with socket.socket(socket.AF_INET, kind) as trial:
            try:
                trial.bind((HERE, port))
            except OSError:
                return False
    return True


_next_port = random.randrange(20000, 27000)


def free_ports(count):
    """So many ports that nobody has, below those from which the system takes ports for outgoing connections."""
    global _next_port
    found = []
    while len(found) < count:
        _next_port = 20000 + (_next_port - 19999) % 12000
        if is_free(_next_port):
            found.append(_next_port)
    return found


def pair_of_ports():
    """The ports of two gateways whose outsides are joined."""
    a, b, c, d, e, f, g, h, i, j = free_ports(10)
    return Ports(a, b, c, d, e, f), Ports(g, h, d, c, i, j)


class Nodes:
    """Processes that are started here, and ended when this is left."""

    def __init__(self, program, folder):
        self.program, self.folder, self.running = program, folder, []

    def __enter__(self):
        return self

    def __exit__(self, *_):
        self.end(list(self.running))

    def start(self, name, *words, program=None, env=None):
        """Starts a process, whose standard error goes to a file of this name."""
        log = open(os.path.join(self.folder, name + ".log"), "ab")
        with log:
            node = subprocess.Popen([program or self.program, *map(str, words)], stdin=subprocess.DEVNULL, stdout=log, stderr=log, env=env)
        self.running.append(node)
        return node

    def gateway(self, name, address, ports, last=4294967295):
        node = self.start(name, *gateway_words(address, ports, last))
        wait_for(ports.control)
        return node

    def controller(self, commands, *peers):
        node = self.start("controller", "controller", "--commands", commands, "--turns", TURNS, *peers)
        wait_for(commands)
        return node

    def end(self, nodes):
        for node in nodes:
            node.terminate()
        for node in nodes:
            try:
                node.wait(ENDING)
            except subprocess.TimeoutExpired:
                node.kill()
                node.wait()
            self.running.remove(node)

    def run(self, *words, limit=20.0):
        """Runs the program to its end."""
        done = subprocess.run([self.program, *map(str, words)], stdin=subprocess.DEVNULL, capture_output=True, timeout=limit)
        return Ended(done.returncode, done.stdout.decode(), done.stderr.decode())

    def client(self, commands, *words, turns=40):
        return self.run("client", "--port", commands, "--turns", turns, *words)


def gateway_words(address, ports, last=4294967295):
    words = ["gateway", "--address", address, "--seq-last", last, "--turns", TURNS]
    for name, port in zip(Ports._fields, ports):
        words += ["--" + name.replace("_", "-"), port]
    return words


def peer_word(name, address, ports):
    return "%s=%s=%d=%d" % (name, address, ports.control, ports.notice)


def wait_for(port, limit=10.0):
    """Waits until something listens at this port."""
    end = time.monotonic() + limit
    while time.monotonic() < end:
        with contextlib.suppress(OSError):
            socket.create_connection((HERE, port), 1.0).close()
            return
        time.sleep(0.02)
    raise TimeoutError("nothing listens at port %d" % port)


def processor_seconds(node):
    """How long a process of one thread ran on a processor so far."""
    with open("/proc/%d/schedstat" % node.pid) as figures:
        return int(figures.read().split()[0]) / 1e9


def overflown(*ports):
    """How many datagrams the system dropped at these ports, since nobody took them in time."""
    wanted = {"%04X" % port for port in ports}
    with open("/proc/net/udp") as rows:
        return sum(int(row.split()[-1]) for row in list(rows)[1:] if row.split()[1].split(":")[1] in wanted)


# ---- HTTP

def request(method, path, body=None):
    head = "%s %s HTTP/1.1\r\nHost: here\r\n" % (method, path)
    if body is None:
        return (head + "\r\n").encode()
    text = json.dumps(body).encode()
    return (head + "Content-Type: application/yang-data+json\r\nContent-Length: %d\r\n\r\n" % len(text)).encode() + text


class Talk:
    """A connection on which requests are answered in order. Each wait ends in a bounded time."""

    def __init__(self, port, limit=10.0):
        self.stream, self.rest = socket.create_connection((HERE, port), limit), b""
        self.stream.setsockopt(socket.IPPROTO_TCP, socket.TCP_NODELAY, 1)

    def close(self):
        self.stream.close()

    def send(self, octets):
        self.stream.sendall(octets)

    def more(self):
        came = self.stream.recv(65536)
        if not came:
            raise EOFError("the connection ended")
        self.rest += came

    def answer(self):
        """The next answer: its status, and its body as text."""
        while b"\r\n\r\n" not in self.rest:
            self.more()
        head, self.rest = self.rest.split(b"\r\n\r\n", 1)
        lines = head.decode().split("\r\n")
        size = sum(int(line.split(":")[1]) for line in lines[1:] if line.lower().startswith("content-length:"))
        while len(self.rest) < size:
            self.more()
        body, self.rest = self.rest[:size], self.rest[size:]
        return int(lines[0].split()[1]), body.decode()

    def ask(self, method, path, body=None):
        self.send(request(method, path, body))
        return self.answer()

    def is_ended(self, limit=3.0):
        """Whether the other side ends the connection within so many seconds, or resets it."""
        self.stream.settimeout(limit)
        try:
            while self.stream.recv(65536):
                pass
        except TimeoutError:
            return False
        except OSError:
            pass
        return True


class Session(Talk):
    """A session with a gateway, which welcomed it. Octets that are given early stand in its control stream before it is taken."""

    def __init__(self, ports, early=b"", limit=10.0):
        super().__init__(ports.control, limit)
        self.send(early)
        self.notices = socket.create_connection((HERE, ports.notice), limit)
        if self.notices.recv(1) != b"+":
            raise EOFError("the session was not welcomed")

    def close(self):
        super().close()
        self.notices.close()

    def must(self, status, method, path, body=None):
        found, text = self.ask(method, path, body)
        if found != status:
            raise ValueError("%s %s: %d and not %d: %s" % (method, path, found, status, text))
        return text


def halves_of(ports):
    """The names of the halves that a gateway has. The controller's session ends by that, and comes back."""
    session = Session(ports, request("GET", TREE + "/sad"))
    body = json.loads(session.answer()[1])
    session.close()
    return [entry["name"] for entry in body["ietf-i2nsf-ikeless:sad"]["sad-entry"]]


class Commands(Talk):
    """A connection to the controller."""

    def tell(self, operation, **members):
        return self.ask("POST", OPERATIONS + operation, {"ikl-control:input": members})


# ---- what the tree holds

def selector(local, remote):
    return {"local-prefix": local, "remote-prefix": remote}


def policy(name, direction, reqid, action, local, remote):
    config = {"traffic-selector": selector(local, remote), "processing-info": {"action": action}}
    return {"name": name, "direction": direction, "reqid": str(reqid), "ipsec-policy-config": config}


def spd(*entries):
    return {"ietf-i2nsf-ikeless:spd": {"spd-entry": list(entries)}}


def half(name, reqid, spi, key, prefixes, addresses):
    """A half: its prefixes and addresses are the local and the remote one."""
    config = {
        "spi": spi,
        "traffic-selector": selector(*prefixes),
        "esp-sa": {"encryption": {"key": key.hex(":")}},
        "tunnel": {"local": addresses[0], "remote": addresses[1]},
    }
    return {"ietf-i2nsf-ikeless:sad-entry": [{"name": name, "reqid": str(reqid), "ipsec-sa-config": config}]}


def new_key():
    return os.urandom(20)


# ---- packets

def checksum(octets):
    total = sum(struct.unpack(">%dH" % (len(octets) // 2), octets))
    while total >> 16:
        total = (total & 0xFFFF) + (total >> 16)
    return ~total & 0xFFFF


def packet(source, destination, payload):
    """A UDP packet over IPv4 without a checksum of its own."""
    udp = struct.pack(">HHHH", 5000, 5001, 8 + len(payload), 0) + payload
    ends = socket.inet_aton(source) + socket.inet_aton(destination)
    head = struct.pack(">BBHHHBBH", 0x45, 0, 20 + len(udp), 1, 0, 64, 17, 0) + ends
    return head[:10] + struct.pack(">H", checksum(head)) + head[12:] + udp


def port_socket(port):
    """A datagram socket at this port, with much room."""
    made = socket.socket(socket.AF_INET, socket.SOCK_DGRAM)
    made.setsockopt(socket.SOL_SOCKET, socket.SO_RCVBUF, 4 << 20)
    made.bind((HERE, port))
    return made


class Ends:
    """What is inside of two joined gateways: packets are let in at one and awaited at the other."""

    def __init__(self, west, east):
        self.ports = {"west": west, "east": east}
        self.sockets = {name: port_socket(ports.inside_to) for name, ports in self.ports.items()}
        self.number = 0

    def close(self):
        for end in self.sockets.values():
            end.close()

    def let(self, name, octets):
        self.sockets[name].sendto(octets, (HERE, self.ports[name].inside))

    def came(self, name, octets, limit):
        """Whether these octets come at an end within so many seconds. What else comes is passed over."""
        end, till = self.sockets[name], time.monotonic() + limit
        while (left := till - time.monotonic()) > 0:
            if select.select([end], [], [], left)[0] and end.recv(65535) == octets:
                return True
        return False

    def passes(self, name, other, source, destination, limit=2.0):
        """Whether a new packet that is let in at one end comes at the other."""
        self.number += 1
        octets = packet(source, destination, b"packet %d" % self.number)
        self.let(name, octets)
        return self.came(other, octets, limit)

    def both_ways(self, limit=2.0):
        return self.passes("west", "east", "10.1.0.1", "10.2.0.1", limit) and self.passes("east", "west", "10.2.0.1", "10.1.0.1", limit)

    def until_both_ways(self, limit=10.0):
        """Whether packets pass both ways within so many seconds, as they are let in again and again."""
        till = time.monotonic() + limit
        while time.monotonic() < till:
            if self.both_ways(0.2):
                return True
        return False
