"""Packets through many tunnels between two gateways, each of which is told apart."""
import select
import socket
import struct
import threading
import time

import nodes

PATIENCE = 3.0
WAYS = ("west", "east"), ("east", "west")


def ends_of(prefixes):
    """A host behind each of two prefixes of 24 bits."""
    return [prefix.replace(".0/24", ".9") for prefix in prefixes]


def marked(prefixes, name, number):
    west, east = ends_of(prefixes)
    source, destination = (west, east) if name == "west" else (east, west)
    return nodes.packet(source, destination, struct.pack(">I", number) + b"through the tunnel")


def number_in(octets):
    return struct.unpack(">I", octets[28:32])[0]


def one_each(ends, tunnels):
    """Lets a packet in each way through each tunnel, and answers how many were given, the same octets each."""
    given = 0
    for name, other in WAYS:
        for number, prefixes in enumerate(tunnels):
            octets = marked(prefixes, name, number)
            ends.let(name, octets)
            given += ends.came(other, octets, 1.0)
    return given


class Traffic:
    """Lets packets in at both ends at a steady pace from when it is entered until it is left, and counts what is given.

    It waits as long as more than so many packets are under way.
    """

    def __init__(self, ends, tunnels, rate, most):
        self.ends, self.tunnels, self.rate, self.most = ends, tunnels, rate, most
        self.let = {name: {} for name, _ in WAYS}
        self.given = {name: {} for name, _ in WAYS}
        self.others = 0
        self.goes_on, self.thread = True, threading.Thread(target=self.run)

    def __enter__(self):
        self.thread.start()
        return self

    def __exit__(self, *_):
        self.goes_on = False
        self.thread.join()

    def run(self):
        begin, next_number = time.monotonic(), 0
        while self.goes_on:
            due = int((time.monotonic() - begin) * self.rate)
            if self.under_way() > self.most:
                due = next_number
            if next_number < due:
                self.let_in(next_number)
                next_number += 1
            self.take(0.0 if next_number < due else 1 / self.rate)
        till = time.monotonic() + PATIENCE
        while time.monotonic() < till and self.under_way():
            self.take(0.1)

    def under_way(self):
        return sum(len(self.let[name]) - len(self.given[name]) for name, _ in WAYS)

    def let_in(self, number):
        for name, _ in WAYS:
            octets = marked(self.tunnels[number % len(self.tunnels)], name, number)
            self.let[name][number] = time.monotonic(), octets
            self.ends.let(name, octets)

    def take(self, limit):
        sockets = {end: name for name, end in self.ends.sockets.items()}
        for end in select.select(list(sockets), [], [], limit)[0]:
            self.take_from(sockets[end], end)

    def take_from(self, name, end):
        for _ in range(256):
            try:
                octets = end.recv(65535, socket.MSG_DONTWAIT)
            except BlockingIOError:
                return
            number = number_in(octets)
            let = self.let[dict(WAYS)[name]].get(number)
            if let is None or let[1] != octets or number in self.given[name]:
                self.others += 1
            else:
                self.given[name][number] = time.monotonic() - let[0]

    def told(self):
        let = sum(map(len, self.let.values()))
        times = sorted(time for given in self.given.values() for time in given.values())
        median, longest = (times[len(times) // 2], times[-1]) if times else (0.0, 0.0)
        return ("%d packets let, %d given, %d lost, %d others came; median %.1f ms under way, longest %.1f ms"
                % (let, len(times), let - len(times), self.others, 1000 * median, 1000 * longest))
