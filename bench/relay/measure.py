#!/usr/bin/env python3
"""Times a gateway beside a relay that makes the same calls, by turns. Words: the program, and a folder that has relay and load."""
import json
import os
import statistics
import subprocess
import sys
import time

sys.path.insert(0, os.path.join(os.path.dirname(os.path.abspath(__file__)), ".."))
import nodes  # noqa: E402

# AES-NI and PCLMULQDQ are masked out of what OpenSSL uses.
MASKED = dict(os.environ, OPENSSL_ia32cap="~0x200000200000000")
TURNS = int(os.environ.get("TURNS", "5"))
MILLIS = int(os.environ.get("MILLIS", "1000"))
WINDOW = 32
DELAYS, PAUSE = 500, 2000
IDLE = 20.0
ADDRESS, PEER, NEAR, FAR = "192.0.2.1", "198.51.100.1", "10.1.0.0/16", "10.2.0.0/16"


class Side:
    """A gateway or a relay that runs, with its session and the number of the next sealed packet."""

    def __init__(self, name, node, ports, session):
        self.name, self.node, self.ports, self.session, self.first = name, node, ports, session, 1


def key_half(session, name, spi, key):
    session.must(201, "POST", nodes.TREE + "/sad", nodes.half(name, 10, spi, key, (NEAR, FAR), (ADDRESS, PEER)))


def start_gateway(running, keys):
    ports, _ = nodes.pair_of_ports()
    node = running.gateway("gateway", ADDRESS, ports)
    session = nodes.Session(ports)
    session.must(204, "PUT", nodes.TREE + "/spd", nodes.spd(nodes.policy("o", "outbound", 10, "protect", NEAR, FAR)))
    key_half(session, "out/1", 257, keys[0])
    key_half(session, "in/1", 258, keys[1])
    return Side("gateway", node, ports, session)


def start_relay(running, folder, keys):
    ports, _ = nodes.pair_of_ports()
    words = [600, *ports, keys[0].hex(), keys[1].hex()]
    node = running.start("relay", *words, program=os.path.join(folder, "relay"), env=MASKED)
    nodes.wait_for(ports.control)
    return Side("relay", node, ports, nodes.Session(ports))


def load(folder, keys, side, mode, direction, size, amount, space):
    """Runs the load beside one side, and answers what it counted, with the processor time that the side took."""
    words = [mode, direction, size, amount, space, side.first, *side.ports[:4], keys[0].hex(), keys[1].hex()]
    before = nodes.processor_seconds(side.node)
    done = subprocess.run([os.path.join(folder, "load"), *map(str, words)], capture_output=True, text=True, timeout=90)
    found = json.loads(done.stdout)
    found["processor"] = nodes.processor_seconds(side.node) - before
    side.first += found.get("sealed", found["let"] if direction == "in" else 0)
    if found["given"] != found["let"] or found["wrong"]:
        print("%s, %s, %d octets: let %d, given %d, wrong %d" % (side.name, direction, size, found["let"], found["given"], found["wrong"]))
    return found


def pin(sides):
    """The nodes run on one processor and the load on another, where there are several."""
    all_here = sorted(os.sched_getaffinity(0))
    if len(all_here) > 1:
        for side in sides:
            os.sched_setaffinity(side.node.pid, {all_here[0]})
        os.sched_setaffinity(0, {all_here[-1]})
    return all_here


def compare_rates(folder, keys, sides):
    ratios = {}
    for turn in range(TURNS):
        for size in (64, 1400):
            for direction in ("out", "in", "both"):
                speeds = {}
                for side in sides if turn % 2 else sides[::-1]:
                    found = load(folder, keys, side, "rate", direction, size, MILLIS, WINDOW)
                    speeds[side.name] = found["given"] / found["seconds"], found["given"] / found["processor"]
                (relay, relay_busy), (gateway, gateway_busy) = speeds["relay"], speeds["gateway"]
                ratios.setdefault((size, direction), []).append((gateway, relay, gateway / relay, gateway_busy / relay_busy))
                print("%d octets, %s: gateway %.0f and relay %.0f packets a second, %.2f; %.0f and %.0f of processor time, %.2f"
                      % (size, direction, gateway, relay, gateway / relay, gateway_busy, relay_busy, gateway_busy / relay_busy), flush=True)
    for (size, direction), found in ratios.items():
        gateway, relay, wall, busy = (statistics.median(column) for column in zip(*found))
        print("median of %d turns, %d octets, %s: gateway %.0f, relay %.0f, ratio %.2f, of processor time %.2f (wanted: 0.80)"
              % (TURNS, size, direction, gateway, relay, wall, busy))


def compare_delays(folder, keys, sides):
    for size in (64, 1400):
        found = {side.name: [] for side in sides}
        for turn in range(3):
            for side in sides if turn % 2 else sides[::-1]:
                one = load(folder, keys, side, "delay", "out", size, DELAYS, PAUSE)
                found[side.name].append((one["median"] * 1e6, one["ninth"] * 1e6, one["most"] * 1e6))
        medians = {name: [statistics.median(column) for column in zip(*rows)] for name, rows in found.items()}
        print("%d octets through an idle node: gateway median %.0f us, nine in ten below %.0f, most %.0f; relay %.0f, %.0f, %.0f; "
              "the median is above the relay's by %.0f us (wanted: 300)"
              % (size, *medians["gateway"], *medians["relay"], medians["gateway"][0] - medians["relay"][0]), flush=True)


def share(node, length):
    before, begin = nodes.processor_seconds(node), time.monotonic()
    time.sleep(length)
    return 100 * (nodes.processor_seconds(node) - before) / (time.monotonic() - begin)


def idle_controller(running):
    """A controller with 16 gateways that run, and then with the same 16 gone."""
    ports = [nodes.pair_of_ports()[0] for _ in range(16)]
    gateways = [running.gateway("idle%d" % i, "192.0.2.%d" % (i + 1), p) for i, p in enumerate(ports)]
    commands, = nodes.free_ports(1)
    peers = [nodes.peer_word("g%d" % i, "192.0.2.%d" % (i + 1), p) for i, p in enumerate(ports)]
    controller = running.controller(commands, *peers)
    time.sleep(3)
    print("an idle controller with 16 peers: %.2f in 100 of a processor (wanted: below 1)" % share(controller, IDLE))
    print("an idle gateway with a controller's session: %.2f in 100" % share(gateways[0], IDLE))
    running.end(gateways)
    time.sleep(1)
    print("the controller when all 16 are gone: %.2f in 100" % share(controller, IDLE))
    running.end([controller])


def main(program, folder):
    keys = nodes.new_key(), nodes.new_key()
    with nodes.Nodes(program, folder) as running:
        sides = [start_gateway(running, keys), start_relay(running, folder, keys)]
        all_here = pin(sides)
        print("%d processors; load %s" % (len(all_here), " ".join(map(str, os.getloadavg()))), flush=True)
        compare_rates(folder, keys, sides)
        compare_delays(folder, keys, sides)
        print("an idle gateway with a session of its own: %.2f in 100 of a processor (wanted: below 1)" % share(sides[0].node, IDLE))
        os.sched_setaffinity(0, all_here)
        running.end([side.node for side in sides])
        idle_controller(running)
        print("load %s" % " ".join(map(str, os.getloadavg())))


main(*sys.argv[1:])
