#!/usr/bin/env python3
"""Runs PROGRAM replay over SCRIPT, and prints its status, processor time, speed and the most memory resident."""
import os
import sys
import time


def most_resident(pid):
    """The most memory that the program had resident so far, in KiB; 0 once it has ended."""
    with open("/proc/%d/status" % pid) as lines:
        return next((int(line.split()[1]) for line in lines if line.startswith("VmHWM")), 0)


def main(program, script):
    pid = os.posix_spawn(
        program,
        [program, "replay"],
        os.environ,
        file_actions=[
            (os.POSIX_SPAWN_OPEN, 0, script, os.O_RDONLY, 0),
            (os.POSIX_SPAWN_OPEN, 1, os.devnull, os.O_WRONLY, 0),
        ],
    )
    most = 0
    while os.waitid(os.P_PID, pid, os.WEXITED | os.WNOHANG | os.WNOWAIT) is None:
        most = max(most, most_resident(pid))
        time.sleep(0.01)
    _, status, used = os.wait4(pid, 0)
    seconds = used.ru_utime + used.ru_stime
    speed = os.path.getsize(script) / max(seconds, 0.001) / 1e6
    code = os.waitstatus_to_exitcode(status)
    print("status %d, %.2f s, %.1f MB/s of script, %d KiB resident at most" % (code, seconds, speed, most))


main(sys.argv[1], sys.argv[2])
