#!/usr/bin/env python3
"""Times the set-up and the rekey of many tunnels between two gateways, with traffic. Words: the program, and a folder for logs."""
import os
import sys
import threading
import time

sys.path.insert(0, os.path.join(os.path.dirname(os.path.abspath(__file__)), ".."))
import nodes  # noqa: E402
from between import Between  # noqa: E402
from traffic import Traffic, one_each  # noqa: E402

WEST, EAST = "192.0.2.1", "198.51.100.1"
TUNNELS = int(os.environ.get("TUNNELS", "1024"))
SOFT = int(os.environ.get("SOFT", "3600"))
RATE = int(os.environ.get("RATE", "500"))
GROUP = 256
AT_ONCE = 64
# How many packets are under way at most: as many as come, and fewer than a port of a gateway has room for.
FREE, FEW = 1000000, 128
LONGEST = 60.0


def prefixes(reqid):
    """What is behind both ends of a tunnel."""
    return ["10.%d.%d.0/24" % (side + reqid // 256, reqid % 256) for side in (16, 32)]


def reqids(group):
    return range(1 + group * GROUP, 1 + min((group + 1) * GROUP, TUNNELS))


def policies(group):
    """The lists of both gateways that protect the tunnels of this group: a list has at most 256 entries."""
    lists = [], []
    for reqid in reqids(group):
        west, east = prefixes(reqid)
        lists[0].append(nodes.policy("o%d" % reqid, "outbound", reqid, "protect", west, east))
        lists[1].append(nodes.policy("o%d" % reqid, "outbound", reqid, "protect", east, west))
    return lists


def tell_all(commands, told, pace=0.0):
    """Gives commands, 64 unanswered at most, or one after another so many seconds apart. Answers how many weren't taken."""
    refused = waiting = 0
    begin = time.monotonic()
    for i, (operation, members) in enumerate(told):
        if pace:
            time.sleep(max(0.0, begin + i * pace - time.monotonic()))
        commands.send(nodes.request("POST", nodes.OPERATIONS + operation, {"ikl-control:input": members}))
        waiting += 1
        while waiting >= (1 if pace else AT_ONCE):
            refused += commands.answer()[0] != 204
            waiting -= 1
    for _ in range(waiting):
        refused += commands.answer()[0] != 204
    return refused


def give_keys(commands, count):
    return tell_all(commands, [("keys", {"key": nodes.new_key().hex(":")}) for _ in range(count)])


def tunnel(reqid):
    first, second = prefixes(reqid)
    return {"reqid": str(reqid), "mode": "now", "first": "west", "second": "east", "first-prefix": first, "second-prefix": second,
            "anti-replay-window-size": 64, "soft": {"time": SOFT}}


def give_policies(commands, group):
    west, east = policies(group)
    return tell_all(commands, [("policy", {"gateway": "west", "spd-entry": west}), ("policy", {"gateway": "east", "spd-entry": east})])


def set_up(commands, between):
    """Sets all tunnels up, and answers how long it took until the last half was installed."""
    begin = time.monotonic()
    refused = tell_all(commands, [("tunnel", tunnel(reqid)) for reqid in range(1, TUNNELS + 1)])
    told = time.monotonic() - begin
    done = between.await_counts({b"201": 4 * TUNNELS}, begin + LONGEST)
    print("%d tunnels: told in %.2f s, %d refused, all halves installed in %s (wanted: 10 s)"
          % (TUNNELS, told, refused, "%.2f s" % (done - begin) if done else "more than %.0f s" % LONGEST), flush=True)


def try_all(commands, ends):
    """A packet each way through each tunnel, group by group."""
    given = 0
    for group in range((TUNNELS + GROUP - 1) // GROUP):
        give_policies(commands, group)
        time.sleep(0.5)
        given += one_each(ends, [prefixes(reqid) for reqid in reqids(group)])
    print("a packet each way through each tunnel: %d let, %d given" % (2 * TUNNELS, given), flush=True)


def wires(ends):
    """The ports at which gateways take datagrams."""
    return [port for ports in ends.ports.values() for port in (ports.inside, ports.outside)]


def by_commands(commands, between, pace):
    """Commands all rekeys, so many seconds apart. Answers when it began, and how it went."""
    give_keys(commands, 2 * TUNNELS)
    begin = time.monotonic()
    refused = tell_all(commands, [("rekey", {"reqid": str(reqid)}) for reqid in range(1, TUNNELS + 1)], pace)
    told = time.monotonic() - begin
    return begin, "%s, told in %.2f s, %d refused" % ("%.0f a second" % (1 / pace) if pace else "at once", told, refused)


def by_limits(between):
    """Waits until the first half is installed anew since its tunnel's soft limit was met."""
    begin = between.await_counts({b"201": between.counts[b"201"] + 1}, time.monotonic() + LONGEST)
    return begin or time.monotonic(), "by their soft limit of %d s" % SOFT


def rekey_all(between, ends, most, begins):
    """Sees all tunnels rekeyed, with traffic through 256 of them."""
    dropped, cpu = nodes.overflown(*wires(ends)), [nodes.processor_seconds(node) for node in between.nodes]
    bad = between.counts[b"bad-spi"]
    wanted = {status: between.counts[status] + 4 * TUNNELS for status in (b"201", b"204")}
    traffic = Traffic(ends, [prefixes(reqid) for reqid in reqids(0)], RATE, most)
    with traffic:
        time.sleep(1)
        begin, how = begins()
        done = between.await_counts(wanted, begin + LONGEST)
        time.sleep(1)
    took = "%.2f s" % (done - begin) if done else "more than %.0f s" % LONGEST
    cpu = [nodes.processor_seconds(node) - used for node, used in zip(between.nodes, cpu)]
    print("a rekey of all %d, %s: done in %s (wanted: 20 s); %d packets a second each way, at most %d under way"
          % (TUNNELS, how, took, RATE, most))
    print("    %s; dropped by the system at the gateways' ports %d; notices of a bad SPI %d; "
          "processor seconds of west, east and controller %.2f, %.2f, %.2f"
          % (traffic.told(), nodes.overflown(*wires(ends)) - dropped, between.counts[b"bad-spi"] - bad, *cpu), flush=True)


def rekey_in_turn(commands, between, ends):
    """Rekeys all tunnels again and again, each time in another way."""
    for pace, most in ((0.010, FREE), (0.0, FEW), (0.0, FREE)):
        rekey_all(between, ends, most, lambda: by_commands(commands, between, pace))


def main(program, folder):
    ports = nodes.pair_of_ports()
    commands_port, = nodes.free_ports(1)
    with nodes.Nodes(program, folder) as running:
        west, east = running.gateway("west", WEST, ports[0]), running.gateway("east", EAST, ports[1])
        between = Between(ports)
        threading.Thread(target=between.run, daemon=True).start()
        shown = [nodes.peer_word(*words) for words in (("west", WEST, between.ports[0]), ("east", EAST, between.ports[1]))]
        between.nodes = west, east, running.controller(commands_port, *shown)
        ends, commands = nodes.Ends(*ports), nodes.Commands(commands_port, LONGEST)
        print("%d processors; load %s" % (os.cpu_count(), " ".join(map(str, os.getloadavg()))), flush=True)
        give_policies(commands, 0)
        give_keys(commands, 2 * TUNNELS)
        set_up(commands, between)
        try_all(commands, ends)
        give_policies(commands, 0)
        time.sleep(0.5)
        if SOFT < 3600:
            give_keys(commands, 4 * TUNNELS)
            for most in (FEW, FREE):
                rekey_all(between, ends, most, lambda: by_limits(between))
        else:
            rekey_in_turn(commands, between, ends)
        commands.close()
        halves = [len(nodes.halves_of(p)) for p in ports]
        print("halves at the end: %d and %d (wanted: %d each); load %s" % (*halves, 2 * TUNNELS, " ".join(map(str, os.getloadavg()))))


main(*sys.argv[1:])
