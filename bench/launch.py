#!/usr/bin/env python3
"""Runs one command, and prints its exit status, its seconds and the peak of its memory in bytes.

    launch.py INPUT OUTPUT COMMAND...

A process of its own, as small as can be: the peak of a child counts what its parent held when it began.
"""

import os
import sys
import time


def main():
    input_path, output_path, *command = sys.argv[1:]
    source = os.open(input_path, os.O_RDONLY)
    sink = os.open(output_path, os.O_WRONLY | os.O_CREAT | os.O_TRUNC)
    streams = [(os.POSIX_SPAWN_DUP2, source, 0), (os.POSIX_SPAWN_DUP2, sink, 1)]
    begin = time.perf_counter()
    child = os.posix_spawnp(command[0], command, os.environ, file_actions=streams)
    _, status, usage = os.wait4(child, 0)
    seconds = time.perf_counter() - begin
    print(os.waitstatus_to_exitcode(status), seconds, usage.ru_maxrss * 1024)


if __name__ == "__main__":
    main()
