"""A client whose controller answers what it shouldn't."""
import contextlib
import threading
import time

import nodes
from seen import closing, listener, reset

TURNS = 4
MISREAD, GONE, LATE = (12, "BadReply"), (11, "LinkFault"), (10, "TurnsSpent")
REFUSED = b'{"ietf-restconf:errors":{"error":[{"error-app-tag":"no-tunnel","error-tag":"invalid-value","error-type":"application"}]}}'

# What is answered, how it goes on, and how the client ends then.
ANSWERS = [
    ("204", b"HTTP/1.1 204 No Content\r\n\r\n", "stays", (0, "")),
    ("an error", b"HTTP/1.1 404 Not Found\r\nContent-Length: %d\r\n\r\n" % len(REFUSED) + REFUSED, "stays", (13, "Denied")),
    ("nothing", b"", "ends", MISREAD),
    ("the middle of a head", b"HTTP/1.1 20", "ends", MISREAD),
    ("the middle of a body", b"HTTP/1.1 404 Not Found\r\nContent-Length: 9\r\n\r\n{", "ends", MISREAD),
    ("the middle of a head", b"HTTP/1.1 20", "is reset", GONE),
    ("no HTTP", b"HELO there\r\n\r\n", "stays", MISREAD),
    ("HTTP of another version", b"HTTP/1.0 204 No Content\r\n\r\n", "stays", MISREAD),
    ("a body of 16 MiB and an octet", b"HTTP/1.1 200 OK\r\nContent-Length: 16777217\r\n\r\n", "stays", MISREAD),
    ("8,192 octets of a head without an end", b"HTTP/1.1 200 OK\r\nA: " + b"a" * 8172, "stays", MISREAD),
    ("an error without a body", b"HTTP/1.1 404 Not Found\r\nContent-Length: 0\r\n\r\n", "stays", MISREAD),
    ("a status that is no command's", b"HTTP/1.1 200 OK\r\nContent-Length: 0\r\n\r\n", "stays", MISREAD),
    ("nothing", b"", "stays", LATE),
    ("the middle of a head", b"HTTP/1.1 20", "stays", LATE),
]


def answer_once(door, octets, how, pause):
    """Takes one client, reads its request, and answers."""
    stream = door.accept()[0]
    stream.settimeout(3.0)
    with closing(stream), contextlib.suppress(OSError):
        while not stream.recv(65536).endswith(b"}"):
            pass
        for piece in ([bytes([octet]) for octet in octets] if pause else [octets]):
            stream.sendall(piece)
            time.sleep(pause)
        if how == "stays":
            time.sleep(2.0 if not pause else 0.0)
        elif how == "is reset":
            time.sleep(0.1)
            reset(stream)


def ended(running, octets, how, pause=0.0):
    port, = nodes.free_ports(1)
    door = listener(port)
    with closing(door):
        thread = threading.Thread(target=answer_once, args=(door, octets, how, pause), daemon=True)
        thread.start()
        done = running.client(port, "rekey", "9", turns=TURNS)
    return done.status, done.complained.strip()


def try_client(seen, running):
    for what, octets, how, ending in ANSWERS:
        seen.see("a controller answers a client with %s, and %s" % (what, how), ending, ended(running, octets, how))
    slow = ended(running, b"HTTP/1.1 204 No Content\r\n\r\n", "stays", 1.0 / 3)
    seen.see("a controller answers a client slowly, and it has %d turns" % TURNS, LATE, slow)
    port, = nodes.free_ports(1)
    done = running.client(port, "rekey", "9", turns=TURNS)
    seen.see("nobody listens", GONE, (done.status, done.complained.strip()))
