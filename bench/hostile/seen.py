"""What trials say, and how they speak to nodes."""
import contextlib
import socket
import struct
import time

import nodes

# How long a node may take to answer or to end a session.
SOON = 3.0


class Seen:
    """Says what was expected of each trial and what came, and counts those in which another thing came."""

    def __init__(self):
        self.tried = self.failed = 0

    def see(self, what, expected, came):
        same = expected == came
        self.tried += 1
        self.failed += not same
        end = "" if same else ", came " + shown(came)
        print("%s %s: expected %s%s" % ("ok    " if same else "FAILED", what, shown(expected), end), flush=True)


def shown(said):
    text = said if isinstance(said, str) else repr(said)
    return text if len(text) < 200 else text[:200] + ".."


def fault(status, tag, app):
    """An answer that refuses, as `answer_on` tells it."""
    return "%d %s %s" % (status, tag, app)


def member(text, name):
    return text.split('"%s":"' % name)[1].split('"')[0] if '"%s":"' % name in text else "-"


def answer_on(talk, limit=SOON):
    """The next answer on a connection in a few words, or that it ended, or that none came."""
    talk.stream.settimeout(limit)
    try:
        status, body = talk.answer()
    except TimeoutError:
        return "no answer"
    except (EOFError, OSError):
        return "the end"
    if status < 400:
        return str(status)
    return fault(status, member(body, "error-tag"), member(body, "error-app-tag"))


def end_of(stream, limit=SOON):
    """Whether a stream ends within so many seconds."""
    stream.settimeout(limit)
    try:
        while stream.recv(65536):
            pass
    except TimeoutError:
        return "goes on"
    except OSError:
        pass
    return "ends"


def reset(stream):
    """Closes a stream so that its peer sees a fault and no end."""
    stream.setsockopt(socket.SOL_SOCKET, socket.SO_LINGER, struct.pack("ii", 1, 0))
    stream.close()


def send_slowly(stream, octets, pause, meanwhile):
    """Sends an octet, and then waits while something else is done, for each of these octets. Answers what came of that."""
    came = []
    for octet in octets:
        stream.sendall(bytes([octet]))
        end = time.monotonic() + pause
        came.append(meanwhile())
        time.sleep(max(0.0, end - time.monotonic()))
    return came


def closing(*streams):
    """A context in which these streams are closed at its end."""
    stack = contextlib.ExitStack()
    for stream in streams:
        stack.callback(stream.close)
    return stack


def listener(port, room=None):
    made = socket.socket(socket.AF_INET, socket.SOCK_STREAM)
    made.setsockopt(socket.SOL_SOCKET, socket.SO_REUSEADDR, 1)
    if room:
        made.setsockopt(socket.SOL_SOCKET, socket.SO_RCVBUF, room)
    made.bind((nodes.HERE, port))
    made.listen(64)
    made.settimeout(SOON)
    return made
