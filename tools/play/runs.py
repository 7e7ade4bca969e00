"""Runs the programs that pages ask for: one at a time a page, a few at a time in all, each under limits."""
import os
import signal
import subprocess
import sys
import tempfile
import threading
import time
from contextlib import contextmanager
from dataclasses import dataclass, field

LIMITED = os.path.join(os.path.dirname(os.path.abspath(__file__)), "limited.py")
SECONDS = 10
MEMORY = 2 * 1024**3
WRITTEN = 64 * 1024**2
AT_ONCE = 4


class Refused(Exception):
    """A request that is not answered: the HTTP status, and the reason in words."""

    def __init__(self, status, reason):
        super().__init__(reason)
        self.status, self.reason = status, reason


@dataclass
class Ended:
    """How a program ended: its status (None where it was killed), its two outputs, its seconds, and why it was killed."""

    status: int | None
    out: bytes
    err: bytes
    seconds: float
    killed: str | None


@dataclass
class Seat:
    """The place of one page: its fresh folder, what it has begun, and whether it has been told to stop."""

    folder: str
    child: subprocess.Popen | None = None
    stopped: bool = False
    lock: threading.Lock = field(default_factory=threading.Lock)

    def begin(self, command, output, errors):
        """Starts a command in a group of its own, unless the seat has been told to stop."""
        with self.lock:
            if self.stopped:
                raise Refused(409, "the run was stopped")
            self.child = subprocess.Popen(
                command, cwd=self.folder, stdin=subprocess.DEVNULL, stdout=output, stderr=errors, env={}, start_new_session=True
            )
            return self.child

    def kill(self):
        """Ends what the seat has begun."""
        with self.lock:
            if self.child is not None and self.child.poll() is None:
                os.killpg(self.child.pid, signal.SIGKILL)

    def stop(self):
        """Ends what the seat has begun, and lets it begin nothing more."""
        with self.lock:
            self.stopped = True
        self.kill()


def beginning(file):
    """The bytes of a file that was written, from its start."""
    file.seek(0)
    return file.read()


class Runs:
    """The seats of all pages, under one folder, and the limits that hold for each."""

    def __init__(self, room, memory=MEMORY):
        self.room, self.memory = room, memory
        self.lock, self.seats, self.closed = threading.Lock(), {}, False

    @contextmanager
    def seat(self, page):
        """A seat with a fresh folder for a page; Refused where the page has one, or all are taken."""
        with self.lock:
            self.refuse(page)
            folder = tempfile.TemporaryDirectory(dir=self.room, ignore_cleanup_errors=True)
            seat = self.seats[page] = Seat(folder.name)
        try:
            yield seat
        finally:
            seat.stop()
            folder.cleanup()
            with self.lock:
                del self.seats[page]

    def refuse(self, page):
        """Refused where no seat is to be had."""
        if self.closed:
            raise Refused(503, "the playground is ending")
        if page in self.seats:
            raise Refused(409, "this page has a run already")
        if len(self.seats) >= AT_ONCE:
            raise Refused(503, "%d pages have a run already; try again" % AT_ONCE)

    def run(self, seat, program, words):
        """Runs a program in the folder of a seat to its end, or to the end of its time."""
        limits = [str(number) for number in (os.getpid(), SECONDS, self.memory, WRITTEN)]
        command = [sys.executable, "-I", "-S", LIMITED, *limits, program, *words]
        with tempfile.TemporaryFile(dir=seat.folder) as out, tempfile.TemporaryFile(dir=seat.folder) as err:
            begun = time.monotonic()
            child, killed = seat.begin(command, out, err), None
            try:
                child.wait(SECONDS)
            except subprocess.TimeoutExpired:
                seat.kill()
                child.wait()
                killed = "ended after %d seconds" % SECONDS
            if child.returncode < 0 and killed is None:
                killed = "stopped" if seat.stopped else "ended by signal %d" % -child.returncode
            status = None if killed else child.returncode
            return Ended(status, beginning(out), beginning(err), time.monotonic() - begun, killed)

    def stop(self, page):
        """Ends the run of a page; whether it had one."""
        with self.lock:
            seat = self.seats.get(page)
        if seat is not None:
            seat.stop()
        return seat is not None

    def close(self):
        """Ends all runs, and lets none begin."""
        with self.lock:
            self.closed, seats = True, list(self.seats.values())
        for seat in seats:
            seat.stop()
