"""Runs one command with limits, and writes how it ended and what it took to a descriptor.

It is a process of its own since the most memory of a process is counted from what its parent stood in when it was started, and this one is small.
"""

from __future__ import annotations

import os
import resource
import signal
import sys
from types import FrameType


def limit(which: int, most: int) -> None:
    resource.setrlimit(which, (most, most))


def main() -> None:
    told, addresses, longest_wait, most_seconds = map(int, sys.argv[1:5])
    words = sys.argv[5:]
    child = os.fork()
    if child == 0:
        try:
            os.close(told)
            limit(resource.RLIMIT_AS, addresses)
            limit(resource.RLIMIT_CORE, 0)
            if most_seconds > 0:
                limit(resource.RLIMIT_CPU, most_seconds)
            os.execvp(words[0], words)
        except OSError as fault:
            os.write(2, f"{words[0]}: {fault}\n".encode())
        finally:
            os._exit(127)

    def end(number: int, frame: FrameType | None) -> None:
        os.kill(child, signal.SIGKILL)

    signal.signal(signal.SIGALRM, end)
    signal.alarm(longest_wait)
    _, state, usage = os.wait4(child, 0)
    signal.alarm(0)
    os.write(told, f"{os.waitstatus_to_exitcode(state)} {usage.ru_utime + usage.ru_stime} {usage.ru_maxrss * 1024}".encode())


if __name__ == "__main__":
    main()
