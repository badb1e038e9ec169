#!/usr/bin/env python3
"""Refuses each call of the allocator in turn while the program replays scripts (README.md)."""
import os
import subprocess
import sys
import tempfile

HERE = os.path.dirname(os.path.abspath(__file__))
ROOT = os.path.dirname(os.path.dirname(HERE))
PROGRAM = os.environ.get("IKELESS", f"{ROOT}/crates/ikeless/out/ikeless")
NO_MEMORY = 6


def replayed(script, library, **words):
    """What a run writes, and its exit number."""
    given = {**os.environ, "LD_PRELOAD": library, **words}
    ran = subprocess.run([PROGRAM, "replay"], input=script, env=given, capture_output=True, timeout=60)
    return ran.stdout, ran.returncode


def is_front(part, whole):
    """Whether a transcript is whole lines of another, from its first on."""
    return whole.startswith(part) and (part == b"" or part.endswith(b"\n"))


def tried(name, library, scratch):
    """The number of runs over a script, and those that ended otherwise than they must."""
    with open(name, "rb") as file:
        script = file.read()
    counted = f"{scratch}/count"
    whole, status = replayed(script, library, REFUSE_COUNT=counted)
    with open(counted, encoding="ascii") as file:
        calls = int(file.read())
    wrong, without = [], 0
    for at in range(1, calls + 1):
        for more in ({}, {"REFUSE_ALL": "1"}):
            wrote, ended = replayed(script, library, REFUSE_AT=str(at), **more)
            is_whole = (wrote, ended) == (whole, status)
            without += is_whole
            if not is_whole and not (ended == NO_MEMORY and is_front(wrote, whole)):
                wrong.append((at, bool(more), ended, len(wrote)))
    print(f"{os.path.basename(name)}: {calls} calls, {2 * calls} runs, {without} of them whole, {len(wrong)} wrong", flush=True)
    for it in wrong[:10]:
        print("  wrong: call %d, all after it %s, status %d, %d octets" % it)
    return wrong


def main():
    names = sys.argv[1:] or sorted(f"{ROOT}/examples/{it}" for it in os.listdir(f"{ROOT}/examples") if it.endswith(".script"))
    with tempfile.TemporaryDirectory() as scratch:
        library = f"{scratch}/refuse.so"
        subprocess.run(["cc", "-O2", "-shared", "-fPIC", "-o", library, f"{HERE}/refuse.c", "-ldl"], check=True)
        wrong = [it for name in names for it in tried(name, library, scratch)]
    sys.exit(1 if wrong else 0)


main()
