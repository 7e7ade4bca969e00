"""Runs a program under limits, in the place of this process.

    python3 limited.py PARENT SECONDS BYTES WRITTEN PROGRAM WORD ..

PARENT is the number of the process that starts this one: the program is killed where that one ends. SECONDS of the
processor, BYTES of memory (0: as many as there are), files of at most WRITTEN bytes. A write past the limit is an error and no signal, so that the program
can say so.
"""
import ctypes
import os
import resource
import signal
import sys

END_WITH_PARENT = 1


def main():
    parent, seconds, memory, written = (int(word) for word in sys.argv[1:5])
    ctypes.CDLL(None).prctl(END_WITH_PARENT, signal.SIGKILL)
    if os.getppid() != parent:
        sys.exit("the process that started this one has ended")
    signal.signal(signal.SIGXFSZ, signal.SIG_IGN)
    resource.setrlimit(resource.RLIMIT_CORE, (0, 0))
    resource.setrlimit(resource.RLIMIT_CPU, (seconds, seconds + 1))
    resource.setrlimit(resource.RLIMIT_FSIZE, (written, written))
    if memory:
        resource.setrlimit(resource.RLIMIT_AS, (memory, memory))
    os.execv(sys.argv[5], sys.argv[5:])


if __name__ == "__main__":
    main()
