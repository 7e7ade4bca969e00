"""A playground that a test has started: its address, its requests, and what it has left behind."""
import http.client
import json
import os
import signal
import subprocess
import sys
import time

from lib.repository import TOP

PLAYGROUND = os.path.join(TOP, "tools", "playground")
PATIENCE = 60


class NotStarted(Exception):
    """A playground that ended before it told its address; it has said itself why."""


def children_of(number):
    """The numbers of the processes whose parent has this number, and that have not ended."""
    found = []
    for name in filter(str.isdigit, os.listdir("/proc")):
        try:
            with open("/proc/%s/stat" % name, encoding="utf-8", errors="replace") as file:
                state, parent = file.read().rsplit(")", 1)[1].split()[:2]
        except OSError:
            continue
        if int(parent) == number and state != "Z":
            found.append(int(name))
    return found


def awaited(is_so, seconds=PATIENCE):
    """Whether something becomes so within some seconds."""
    end = time.monotonic() + seconds
    while not is_so() and time.monotonic() < end:
        time.sleep(0.05)
    return is_so()


class Served:
    """A playground on a free port, whose folders lie in `folder`; `path` is where it looks for programs."""

    def __init__(self, program, memory, folder, path=None):
        words = [sys.executable, PLAYGROUND, "--gcore", program, "--port", "0", "--memory", str(memory)]
        surroundings = {**os.environ, "TMPDIR": folder, "PATH": path or os.environ["PATH"]}
        self.folder = folder
        self.child = subprocess.Popen(words, stdout=subprocess.PIPE, env=surroundings, start_new_session=True)
        self.address = self.child.stdout.readline().decode().strip()
        if not self.address:
            raise NotStarted("the playground did not start")
        self.port = int(self.address.rstrip("/").rsplit(":", 1)[1])

    def ask(self, method, path, body=None, **headers):
        """One request: the status and the value of its JSON. Words of a header are joined by `_`."""
        named = {"X-Page": "page0000"} | {name.replace("_", "-"): value for name, value in headers.items()}
        connection = http.client.HTTPConnection("127.0.0.1", self.port, timeout=60)
        try:
            connection.request(method, path, body, named)
            answer = connection.getresponse()
            return answer.status, json.loads(answer.read())
        finally:
            connection.close()

    def run(self, query, graph, page="page0000"):
        """A run of a query on one graph."""
        session = {"command": "run", "query": query, "graphs": [{"name": "g", "text": graph}]}
        return self.ask("POST", "/run", json.dumps(session), X_Page=page)

    def folders(self):
        """What lies in the folder of the server."""
        rooms = [os.path.join(self.folder, name) for name in os.listdir(self.folder)]
        return [name for room in rooms if os.path.isdir(room) for name in os.listdir(room)]

    def is_idle(self):
        """Whether no process and no folder of a run is left."""
        return not children_of(self.child.pid) and not self.folders()

    def end(self, number=signal.SIGTERM):
        """Ends the server by a signal."""
        self.child.send_signal(number)
        self.child.wait(PATIENCE)
        self.child.stdout.close()
