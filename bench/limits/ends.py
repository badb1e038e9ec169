#!/usr/bin/env python3
"""Ends each script at each of its octets: the transcript must be a front of the whole one, and the status that of the rest (README.md)."""
import os
import subprocess
import sys

HERE = os.path.dirname(os.path.abspath(__file__))
ROOT = os.path.dirname(os.path.dirname(HERE))
PROGRAM = os.environ.get("IKELESS", f"{ROOT}/crates/ikeless/out/ikeless")


def replayed(script):
    """What a run writes, its exit number, and the line on standard error."""
    ran = subprocess.run([PROGRAM, "replay"], input=script, capture_output=True, timeout=60)
    return ran.stdout, ran.returncode, ran.stderr.decode().strip()


def wanted(script):
    """The exit number and the line for a front of a script that is taken to its end."""
    if script == b"" or script.endswith(b"\n"):
        return 0, ""
    line = script.count(b"\n") + 1
    return 3, f"Line {line} end"


def tried(name):
    """How many fronts of a script ended otherwise than they must."""
    with open(name, "rb") as file:
        script = file.read()
    whole, status, _ = replayed(script)
    wrong, written = 0, b""
    for size in range(len(script) + 1):
        front = script[:size]
        wrote, ended, said = replayed(front)
        is_right = whole.startswith(wrote) and wrote.startswith(written)
        # The empty script has no header, which its own line says.
        if size > 0:
            is_right = is_right and (ended, said) == wanted(front)
        if front.endswith(b"\n"):
            written = wrote
        wrong += not is_right
        if not is_right:
            print(f"  wrong: {name}, the first {size} octets: {ended} {said}")
    print(f"{os.path.basename(name)}: {len(script) + 1} fronts, {wrong} wrong; the whole ends with {status}", flush=True)
    return wrong


def main():
    names = sys.argv[1:] or sorted(f"{ROOT}/examples/{it}" for it in os.listdir(f"{ROOT}/examples") if it.endswith(".script"))
    sys.exit(1 if sum(tried(name) for name in names) else 0)


main()
