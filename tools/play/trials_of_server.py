"""What the server of the playground has to refuse, tried by requests that no page makes."""
import http.client
import json
import os
import signal
import socket
import subprocess
import sys
import tempfile
from concurrent.futures import ThreadPoolExecutor

from play.runs import WRITTEN, Runs
from play.served import PLAYGROUND, Served, awaited, children_of
from play.trials_of_page import SLOW, equal, many_nodes

GRAPH = '{"gcore":1}'
QUERY = "CONSTRUCT (n) MATCH (n)"
AT_ONCE = 20
HUNDRED_MEGABYTES = 100 * 1024**2


def session(**changes):
    """The body of a run, with changes."""
    return json.dumps({"command": "run", "query": QUERY, "graphs": [{"name": "g", "text": GRAPH}], **changes})


def refused(answer, status):
    """Fails where an answer is not of this status, or gives no reason."""
    equal(answer[0], status, str(answer[1])[:200])
    equal(bool(answer[1].get("reason")), True)


def answers_still(served):
    """Fails where the server does not answer any more, or has left something behind."""
    status, answer = served.run(QUERY, GRAPH, "another0")
    equal((status, answer["status"]), (200, 0))
    equal(awaited(served.is_idle), True, "left behind: %s %s" % (children_of(served.child.pid), served.folders()))


def it_listens_on_loopback_alone(served):
    """The server's port is bound to 127.0.0.1."""
    with open("/proc/net/tcp", encoding="ascii") as file:
        rows = [line.split()[1] for line in file.readlines()[1:] if line.split()[3] == "0A"]
    equal([row for row in rows if row.endswith(":%04X" % served.port)], ["0100007F:%04X" % served.port])


def strangers_are_refused(served):
    """A request for another host, from another page or from no page is refused."""
    for path in ("/", "/start", "/page.js"):
        refused(served.ask("GET", path, Host="example.org"), 403)
    refused(served.ask("POST", "/run", session(), Host="example.org:%d" % served.port), 403)
    refused(served.ask("POST", "/run", session(), Origin="http://example.org"), 403)
    refused(served.ask("POST", "/run", session(), Origin="null"), 403)
    refused(served.ask("POST", "/run", session(), X_Page="../../etc"), 400)
    equal(served.ask("POST", "/run", session(), Origin="http://localhost:%d" % served.port)[0], 200)


def paths_lead_nowhere(served):
    """What is not on the server's own list of paths is not found, and names with slashes are no names."""
    for path in ("/../tools/playground", "/page/page.html", "//etc/passwd", "/%2e%2e/README.md", "/start?x=1"):
        refused(served.ask("GET", path), 404)
    refused(served.ask("POST", "/README.md", session()), 404)
    for name in ("../x", "a/b", "/etc/passwd", "a=b", "", "a\n", "MATCH", "é", "x" * 101, 7, None):
        refused(served.ask("POST", "/run", session(graphs=[{"name": name, "text": GRAPH}])), 400)


def bodies_that_are_no_session_are_refused(served):
    """A body that is no JSON, or no session, is refused with a reason."""
    graph = {"name": "g", "text": GRAPH}
    bodies = [b"", b"{", b"\xff\xfe", b"[" * 100_000, b"null", b"[]", b'{"query":"x"}', b"1" * 5000]
    bodies += [session(query=7), session(query="\ud800"), session(command="rm"), session(command=["run"]), session(extra=1)]
    bodies += [session(graphs=it) for it in ([], [graph] * 9, [graph, graph], [7], [{"name": "g"}], "g", {})]
    for body in bodies:
        refused(served.ask("POST", "/run", body), 400)
    for text in ("[]", "{", '{"nodes":7}', '{"nodes":[{"id":"1"}]}', '{"edges":[{"id":1}]}', "[" * 100_000, "1" * 5000):
        refused(served.ask("POST", "/look", json.dumps({"text": text})), 400)
    refused(served.ask("POST", "/look", "7"), 400)


def what_is_too_large_is_refused(served):
    """A body of 100 MB, a query past 1 MiB, and a graph past 32 MiB are refused."""
    refused(served.ask("POST", "/run", b"x" * HUNDRED_MEGABYTES), 413)
    refused(served.ask("POST", "/run", session(query=" " * 1_048_577)), 413)
    refused(served.ask("POST", "/run", session(graphs=[{"name": "g", "text": " " * 33_554_433}])), 413)
    refused(served.ask("POST", "/run", None, Content_Length="9" * 30), 411)


def raw(served, text, half_close=True):
    """Sends bytes as they are; the status and the value of the answer's JSON."""
    with socket.create_connection(("127.0.0.1", served.port), timeout=30) as connection:
        connection.sendall(text)
        if half_close:
            connection.shutdown(socket.SHUT_WR)
        answer = http.client.HTTPResponse(connection)
        answer.begin()
        return answer.status, json.loads(answer.read())


def requests_that_break_off_are_refused(served):
    """A body that is cut short, one that never comes, and what is no HTTP are refused; a closed connection is no harm."""
    head = "POST /run HTTP/1.1\r\nHost: 127.0.0.1:%d\r\nX-Page: page0000\r\nContent-Length: 1000\r\n\r\n" % served.port
    refused(raw(served, head.encode() + b"{"), 400)
    refused(raw(served, head.encode() + b"{", half_close=False), 408)
    refused(raw(served, b"BREW / HTTP/1.1\r\nHost: 127.0.0.1\r\n\r\n"), 501)
    refused(raw(served, b"GET / HTTP/1.1\r\n\r\n"), 403)
    refused(raw(served, b"GET /" + b"x" * 70_000 + b" HTTP/1.1\r\n\r\n"), 414)
    refused(raw(served, b"GET / HTTP/1.1\r\n" + b"A: b\r\n" * 200 + b"\r\n"), 431)
    with socket.create_connection(("127.0.0.1", served.port)) as connection:
        connection.sendall(head.encode())


def a_body_that_trickles_is_refused(served):
    """A body whose bytes come one by one holds its place only for a while."""
    head = "POST /run HTTP/1.1\r\nHost: 127.0.0.1:%d\r\nX-Page: page0000\r\nContent-Length: 1000\r\n\r\n" % served.port
    with socket.create_connection(("127.0.0.1", served.port), timeout=30) as connection:
        connection.sendall(head.encode())
        connection.settimeout(0.5)
        for _ in range(100):
            try:
                seen = connection.recv(4096)
                break
            except TimeoutError:
                connection.sendall(b" ")
        equal(seen.split(b" ")[1], b"408")


def a_long_query_is_ended(served):
    """A query that runs past its time is ended and told."""
    status, answer = served.run(SLOW, many_nodes(3000))
    equal((status, answer["status"], answer["killed"]), (200, None, "ended after 10 seconds"))


def twenty_at_once(served):
    """Of twenty requests at once each is answered or refused, of one page and of twenty."""
    graph = many_nodes(300)
    for pages in (["page0000"] * AT_ONCE, ["page%04d" % at for at in range(AT_ONCE)]):
        with ThreadPoolExecutor(AT_ONCE) as pool:
            answers = list(pool.map(lambda page: served.run(QUERY, graph, page), pages))
        seen = [status for status, _ in answers]
        equal(set(seen) <= {200, 409, 503} and 200 in seen, True, str(seen))


ON_RUNNING = (
    it_listens_on_loopback_alone, strangers_are_refused, paths_lead_nowhere, bodies_that_are_no_session_are_refused,
    what_is_too_large_is_refused, requests_that_break_off_are_refused, a_body_that_trickles_is_refused,
    a_long_query_is_ended, twenty_at_once,
)


def is_gone(number):
    """Whether a process has ended."""
    try:
        with open("/proc/%d/stat" % number, encoding="utf-8", errors="replace") as file:
            return file.read().rsplit(")", 1)[1].split()[0] == "Z"
    except OSError:
        return True


def begin_a_long_run(served, pool):
    """Begins a run that does not end by itself; the number of its process."""
    running = pool.submit(served.run, SLOW, many_nodes(3000))
    running.add_done_callback(lambda it: it.exception())
    equal(awaited(lambda: bool(children_of(served.child.pid))), True)
    return children_of(served.child.pid)[0]


def its_end_ends_what_it_started(program, memory):
    """When the server is told to end, its run and its folder are gone; when it is killed, its run is gone."""
    for number in (signal.SIGTERM, signal.SIGINT, signal.SIGKILL):
        with tempfile.TemporaryDirectory() as folder, ThreadPoolExecutor(1) as pool:
            served = Served(program, memory, folder)
            run = begin_a_long_run(served, pool)
            served.end(number)
            equal(awaited(lambda: is_gone(run)), True, "the run goes on")
            equal(number == signal.SIGKILL or not os.listdir(folder), True, "the folder stands")


def runs_have_their_limits(_, __):
    """A program that asks for more memory, or writes more, than a run may is refused it."""
    with tempfile.TemporaryDirectory() as room:
        runs = Runs(room)
        for text, due in (("bytearray(3 * 1024**3)", b"MemoryError"), ("print('x' * 65 * 1024**2)", b"OSError")):
            with runs.seat("page0000") as seat:
                ended = runs.run(seat, sys.executable, ["-I", "-c", text])
                equal((ended.status == 0, due in ended.err, len(ended.out) <= WRITTEN), (False, True, True))


STAND_IN = """#!%s
import sys
print('{"gcore_cert":1,"searches":[{"expression":":to","graph":{"gcore":1,"nodes":[{"id":1},{"id":2}],'
      '"edges":[{"id":3,"from":1,"to":2}]},"potentials":[],"segments":[],"start":1,'
      '"walks":[{"cost":"1","run":[],"walk":[1,3,2]}]}]}' if sys.argv[1] == "cert" else sys.argv[1])
"""


def all_commands_are_offered(_, memory):
    """All commands are offered, and of a certificate the walks are told, to be lit."""
    with tempfile.TemporaryDirectory() as folder, tempfile.TemporaryDirectory() as place:
        program = os.path.join(place, "stand-in")
        with open(program, "w", encoding="utf-8", opener=lambda *it: os.open(*it, 0o700)) as file:
            file.write(STAND_IN % sys.executable)
        served = Served(program, memory, folder)
        try:
            equal(served.ask("GET", "/start")[1]["commands"], ["run", "explain", "cert", "check"])
            found = served.ask("POST", "/run", session(command="cert"))[1]["graphs"]
            equal([search["lights"][0]["walk"] for search in found], [[1, 3, 2]])
            equal(served.ask("POST", "/run", session(command="explain"))[1]["out"], "explain\n")
            equal(served.ask("POST", "/run", session(command="check", query="x" * 2_000_000))[1]["out"], "check\n")
        finally:
            served.end()


def without_dot_it_shows_tables(program, memory):
    """Where Graphviz is missing, an answer has its tables and says why there is no picture."""
    with tempfile.TemporaryDirectory() as folder:
        served = Served(program, memory, folder, path=folder)
        try:
            graph = served.run(QUERY, many_nodes(2))[1]["graphs"][0]
            equal((graph["svg"], len(graph["tables"]["nodes"])), (None, 2))
            equal("graphviz" in graph["no_picture"], True)
        finally:
            served.end()


def without_a_program_it_says_how_to_build(_, __):
    """Without a built program the script says the command that builds it, and fails."""
    ended = subprocess.run([sys.executable, PLAYGROUND, "--gcore", "/nowhere"], capture_output=True, text=True, timeout=60)
    equal((ended.returncode, "rt run" in ended.stderr), (1, True), ended.stderr)


ON_THEIR_OWN = (
    its_end_ends_what_it_started, runs_have_their_limits, all_commands_are_offered, without_dot_it_shows_tables,
    without_a_program_it_says_how_to_build,
)
