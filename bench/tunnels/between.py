"""What stands between a controller and its gateways: it hands octets on as they are, and counts the answers by their status."""
import collections
import select
import socket
import threading
import time

import nodes


def listener(port):
    made = socket.socket(socket.AF_INET, socket.SOCK_STREAM)
    made.setsockopt(socket.SOL_SOCKET, socket.SO_REUSEADDR, 1)
    made.bind((nodes.HERE, port))
    made.listen(16)
    return made


class Between:
    """Ports in place of those for requests and for notices of some gateways."""

    def __init__(self, gateways):
        self.counts, self.changed = collections.Counter(), threading.Condition()
        self.ports, self.doors, self.other, self.tails, self.is_control, self.nodes = [], {}, {}, {}, {}, ()
        self.controls = []
        for gateway in gateways:
            control, notice = nodes.free_ports(2)
            self.controls.append(gateway.control)
            self.ports.append(gateway._replace(control=control, notice=notice))
            # The doors for requests stand before those for notices, as their connections come first.
            self.doors[listener(control)] = gateway.control
            self.doors[listener(notice)] = gateway.notice

    def run(self):
        while True:
            ready = select.select([*self.doors, *self.other], [], [])[0]
            for one in ready:
                if one in self.doors:
                    self.join(one)
                elif one in self.other:
                    self.hand_on(one)

    def join(self, door):
        near = door.accept()[0]
        far = socket.create_connection((nodes.HERE, self.doors[door]), 5.0)
        for one in (near, far):
            one.setsockopt(socket.IPPROTO_TCP, socket.TCP_NODELAY, 1)
            one.settimeout(10.0)
        self.other[near], self.other[far] = far, near
        self.tails[far], self.is_control[far] = b"", self.doors[door] in self.controls

    def hand_on(self, one):
        other = self.other[one]
        try:
            came = one.recv(1 << 18)
            other.sendall(came)
        except OSError:
            came = b""
        if not came:
            for end in (one, other):
                self.other.pop(end)
                self.tails.pop(end, None)
                end.close()
        elif one in self.tails:
            with self.changed:
                count = self.count_answers if self.is_control[one] else self.count_notices
                self.tails[one] = count(self.tails[one] + came)
                self.changed.notify_all()

    def count_answers(self, text):
        """Counts the status lines in what a gateway said, and answers the end of it that may be the front of one."""
        for line in text.split(b"HTTP/1.1 ")[1:]:
            if len(line) >= 3:
                self.counts[line[:3]] += 1
        last = text.rfind(b"HTTP/1.1 ")
        is_whole = last >= 0 and len(text) - last >= 12
        return text[-8:] if is_whole or last < 0 else text[last:]

    def count_notices(self, text):
        """Counts the notices of a bad SPI, and answers the line that isn't whole."""
        *lines, last = text.split(b"\n")
        self.counts[b"bad-spi"] += sum(b"sadb-bad-spi" in line for line in lines)
        return last

    def await_counts(self, wanted, till):
        """The moment at which there are so many answers, or None where they don't come in time."""
        with self.changed:
            while any(self.counts[status] < count for status, count in wanted.items()):
                if not self.changed.wait(max(0.0, till - time.monotonic())):
                    return None
            return time.monotonic()
