"""Runs a command, and writes three numbers to a pipe: its seconds, its exit status, and the most bytes of memory that it used.

The first argument is the number of the pipe. This is a script of its own to be small: the system never reports less memory for a process
than for the one that started it."""
import os
import sys
import time


def main():
    pipe, arguments = int(sys.argv[1]), sys.argv[2:]
    begun = time.monotonic()
    process = os.posix_spawn(arguments[0], arguments, os.environ)
    _, status, usage = os.wait4(process, 0)
    taken = time.monotonic() - begun
    os.write(pipe, f"{taken} {os.waitstatus_to_exitcode(status)} {usage.ru_maxrss * 1024}".encode())


if __name__ == "__main__":
    main()
