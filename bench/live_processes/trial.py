#!/usr/bin/env python3
"""A tunnel between two gateways through its whole life, by the program's commands alone. Words: the program, and a folder for logs."""
import os
import sys
import time

sys.path.insert(0, os.path.join(os.path.dirname(os.path.abspath(__file__)), ".."))
import nodes  # noqa: E402

WEST, EAST = "192.0.2.1", "198.51.100.1"
KEY = "000102030405060708090a0b0c0d0e0fa0a1a2a3"
PREFIXES = "10.1.0.0/16", "10.2.0.0/16"


class Trial:
    """Counts what came out otherwise than it was wanted."""

    def __init__(self, running, commands):
        self.running, self.commands, self.failed = running, commands, 0

    def see(self, what, found, wanted):
        print("%s: %s%s" % (what, found, "" if found == wanted else ", and wanted was %s: FAILED" % (wanted,)), flush=True)
        self.failed += found != wanted

    def tell(self, *words, said="204\n", status=0):
        done = self.running.client(self.commands, *words)
        shown = " ".join(word if len(word) < 60 else word[:57] + "..." for word in words)
        self.see(shown, (done.said, done.status), (said, status))

    def keys(self, count):
        for _ in range(count):
            self.tell("keys", nodes.new_key().hex())


def policies(local, remote):
    return ["%s,%s,10,protect,%s,%s,any,any,any" % (way, way, local, remote) for way in ("out", "in")]


def set_up(trial):
    trial.tell("policy", "west", *policies(*PREFIXES))
    trial.tell("policy", "east", *policies(*PREFIXES[::-1]))
    trial.tell("keys", KEY)
    trial.tell("keys", KEY, said="409 resource-denied key-seen\n", status=13)
    trial.keys(1)
    trial.tell("tunnel", "10", "now", "west", "east", *PREFIXES, "64", "0/0/0/0", "3600/0/0/0")
    trial.tell("rekey", "9", said="404 invalid-value no-tunnel\n", status=13)


def live(trial, ends, ports):
    trial.see("packets pass both ways", ends.until_both_ways(), True)
    trial.keys(2)
    trial.tell("rekey", "10")
    trial.see("packets pass both ways after a rekey", ends.until_both_ways(), True)
    time.sleep(1)
    trial.see("halves of west a second after the rekey", sorted(nodes.halves_of(ports[0])), ["in/4", "out/3"])
    trial.see("packets pass both ways while the controller comes back", ends.both_ways(), True)


def restart(trial, ends, ports, east):
    trial.keys(2)
    trial.running.end([east])
    trial.see("packets pass to a gateway that is gone", ends.passes("west", "east", "10.1.0.1", "10.2.0.1", 0.5), False)
    trial.running.gateway("east", EAST, ports[1])
    trial.see("packets pass both ways once it is started again", ends.until_both_ways(), True)
    trial.tell("end", "10")
    time.sleep(1)
    trial.see("packets pass after the tunnel's end", ends.both_ways(0.5), False)


def main(program, folder):
    ports = nodes.pair_of_ports()
    commands, = nodes.free_ports(1)
    with nodes.Nodes(program, folder) as running:
        running.gateway("west", WEST, ports[0])
        east = running.gateway("east", EAST, ports[1])
        running.controller(commands, nodes.peer_word("west", WEST, ports[0]), nodes.peer_word("east", EAST, ports[1]))
        trial, ends = Trial(running, commands), nodes.Ends(*ports)
        set_up(trial)
        live(trial, ends, ports)
        restart(trial, ends, ports, east)
        ends.close()
    print("%d failed" % trial.failed)
    return trial.failed != 0


sys.exit(main(*sys.argv[1:]))
