#!/usr/bin/env python3
"""Tries live nodes with octets that break off, are too long or are no HTTP. Words: the program, and a folder for logs."""
import os
import sys
import time

sys.path.insert(0, os.path.join(os.path.dirname(os.path.abspath(__file__)), ".."))
import nodes  # noqa: E402
from client_trials import try_client  # noqa: E402
from controller_trials import try_controller  # noqa: E402
from gateway_trials import try_gateway  # noqa: E402
from seen import Seen  # noqa: E402


def main(program, folder):
    seen, begin = Seen(), time.monotonic()
    with nodes.Nodes(program, folder) as running:
        for trial in (try_gateway, try_controller, try_client):
            trial(seen, running)
    print("%d trials in %.0f s, %d failed" % (seen.tried, time.monotonic() - begin, seen.failed))
    return seen.failed != 0


sys.exit(main(*sys.argv[1:]))
