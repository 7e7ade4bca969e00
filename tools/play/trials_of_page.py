"""What the page of the playground has to do, tried in a browser."""
import json

from lib.examples import all_examples
from lib.repository import TOP, read
from play.browser import CONTROL, ENTER, TAB

READY = "return document.body.dataset.ready === 'yes'"
RAN = "return !document.getElementById('run').disabled && document.getElementById('note').textContent.includes(' s')"
OUT = "return document.getElementById('out').textContent"
NOTE = "return document.getElementById('note').textContent"
QUERY = "return document.querySelector('#query-editor textarea').value"
NODES = "return Array.from(document.querySelectorAll('.picture g.node'), (node) => node.id).sort()"
SLOW = "CONSTRUCT (a) MATCH (a), (b), (c) WHERE a.x + b.x + c.x = 1000000000"
PEOPLE = TOP + "/examples/people.json"
SOCIAL = TOP + "/examples/tour/social.json"
PICTURE_BYTES = 200 * 1024


def many_nodes(number):
    """A graph file of so many nodes without anything."""
    return json.dumps({"gcore": 1, "nodes": [{"id": at} for at in range(number)]})


class Page:
    """A page of the playground in the browser's window at hand."""

    def __init__(self, served, driver):
        self.served, self.driver = served, driver

    def open(self, fragment=""):
        """Opens the page anew, with a fragment or with what it has kept."""
        self.driver.open("about:blank")
        self.driver.open(self.served.address + fragment)
        self.driver.wait_for(READY)

    def fresh(self):
        """Opens the page as at a first visit."""
        self.open()
        self.driver.script("localStorage.clear()")
        self.open()

    def fill(self, query, graph):
        """Writes a query and the graph at hand."""
        self.driver.fill("#query-editor textarea", query)
        self.driver.fill("#graph-editor textarea", graph)

    def run(self):
        """Runs, and waits for the end."""
        self.driver.click("#run")
        self.driver.wait_for(RAN)

    def marked(self, editor):
        """The text that is marked in an editor."""
        text = "return Array.from(document.querySelectorAll(arguments[0] + ' .mark'), (it) => it.textContent).join('')"
        return self.driver.script(text, editor)

    def choose_example(self, at):
        """Chooses an example by its number in the menu."""
        self.driver.script(
            "const menu = document.getElementById('examples'); menu.value = String(arguments[0]);"
            "menu.dispatchEvent(new Event('change', {bubbles: true}));", at,
        )


def equal(seen, due, what=""):
    """Fails where two values differ."""
    if seen != due:
        raise AssertionError("%s\n  due  %r\n  seen %r" % (what, due, seen))


def try_example(page, at, example):
    """Runs one example from the menu: its text, its line, and the nodes of its picture."""
    page.choose_example(at)
    page.run()
    lines = example.answer().splitlines(keepends=True)
    graphs = [line for line in lines if not line.startswith("gcore: ")]
    refused = [line.strip() for line in lines if line.startswith("gcore: ")]
    equal(page.driver.script(OUT), "".join(graphs), example.name)
    if graphs:
        due = sorted("node-%d" % node["id"] for node in json.loads(graphs[-1])["nodes"])
        equal(page.driver.script(NODES), due, example.name)
    if refused:
        seen = page.driver.script("return document.querySelector('#refusal code').textContent")
        equal(seen.split(" in ")[0], refused[0].split(" in ")[0], example.name)


def examples_have_their_answers(page, screenshots):
    """Each example of the menu gives its answer, as text and as picture."""
    page.fresh()
    examples = all_examples()
    equal(page.driver.script("return document.querySelectorAll('#examples option').length"), len(examples) + 1)
    for at, example in enumerate(examples):
        if example.answer() is not None:
            try_example(page, at, example)
    page.driver.screenshot(screenshots + "/example.png")


def created_is_told_from_copied(page, screenshots):
    """What the query created has another class in the picture and another word in the table than what it copied."""
    page.fresh()
    page.fill("CONSTRUCT (n)-[:has]->(x GROUP n) MATCH (n:City)", read(PEOPLE))
    page.run()
    classes = "return Array.from(document.querySelectorAll('.picture g.node, .picture g.edge'), (it) => it.classList[1])"
    equal(sorted(page.driver.script(classes)), ["copied", "created", "created"])
    words = "return Array.from(document.querySelectorAll('tbody tr td:last-child'), (it) => it.textContent)"
    equal(sorted(page.driver.script(words)), ["copied", "created", "created"])
    page.driver.screenshot(screenshots + "/created.png")


def elements_tell_what_they_are(page, _):
    """An element of the picture that is pointed at tells its labels and properties."""
    page.fresh()
    page.fill("CONSTRUCT (n) MATCH (n:Teacher)", read(PEOPLE))
    page.run()
    page.driver.hover("#node-2")
    told = page.driver.script("return document.querySelector('.about').textContent")
    equal(told, '2  :Person:Teacher  employer = "CWI", "MIT", name = "Bob"')


def paths_are_lit_one_by_one(page, screenshots):
    """The paths of a graph are lit in its picture one by one."""
    page.fresh()
    page.fill("CONSTRUCT (n)-/@p/->(m) MATCH (n)-/@p/->(m)", read(SOCIAL))
    page.run()
    lit = "return Array.from(document.querySelectorAll('.lit'), (it) => it.id).sort()"
    buttons = "document.querySelectorAll('.walks button')[arguments[0]].click();"
    equal(page.driver.script(buttons + lit, 0), ["edge-12", "edge-13", "node-1", "node-3", "node-4"])
    page.driver.screenshot(screenshots + "/path.png")
    equal(page.driver.script(buttons + lit, 1), ["edge-12", "edge-14", "node-1", "node-3", "node-5"])
    equal(page.driver.script(buttons + lit, 1), [])


def refusals_are_marked(page, screenshots):
    """A refusal marks its token in the query or its item in the graph, and shows the sentence of its code."""
    page.fresh()
    page.fill('# é\nCONSTRUCT (n) MATCH (n) WHERE n.a = "é" AND m.a = 1', read(PEOPLE))
    page.run()
    equal(page.marked("#query-editor"), "m")
    told = page.driver.script("return document.getElementById('refusal').textContent")
    equal("S3 UnknownName 2:46" in told and "is no variable of the block" in told, True, told)
    page.driver.screenshot(screenshots + "/refused-query.png")
    bad = '{"id":2,"from":1,"to":3}'
    page.fill("CONSTRUCT (n) MATCH (n)", '{"gcore":1,"nodes":[{"id":1}],"edges":[ %s ]}' % bad)
    page.run()
    equal(page.marked("#graph-editor"), bad)
    told = page.driver.script("return document.getElementById('refusal').textContent")
    equal("G5 NoEnd edges[0] in graph g" in told and "is no node of the file" in told, True, told)
    page.driver.screenshot(screenshots + "/refused-graph.png")
    page.fill("CONSTRUCT (n {x := 1/0}) MATCH (n)", read(PEOPLE))
    page.run()
    equal(page.marked("#query-editor"), "x")


def texts_are_no_markup(page, _):
    """A text of a graph is shown as it stands, whatever it looks like to a page or to Graphviz."""
    page.fresh()
    text = '</text><script>document.title="changed"</script> \\N \\" &amp; \u0007'
    element = {"id": 1, "properties": {"k": text}}
    page.fill("CONSTRUCT (n)-/@p/->(m) MATCH (n)-/@p/->(m)", json.dumps(
        {"gcore": 1, "nodes": [element], "paths": [{**element, "id": 2, "walk": [1]}]}))
    page.run()
    equal(page.driver.script("return [document.title, document.querySelectorAll('#answer script').length]"), ["gcore playground", 0])
    drawn = "return Array.from(document.querySelectorAll('.picture text'), (it) => it.textContent)"
    shown = 'k = "%s"' % text.replace("\u0007", "\\u0007")
    equal(page.driver.script(drawn), ["2; %s…; walk 1" % shown[:39], "1", shown[:39] + "…"])
    cells = "return Array.from(document.querySelectorAll('td:nth-last-child(2)'), (it) => it.textContent)"
    equal(page.driver.script(cells), [shown, shown])


def graphs_come_and_go(page, _):
    """Graphs are added, named and removed, up to eight."""
    page.fresh()
    tabs = "return Array.from(document.querySelectorAll('#graph-tabs button'), (it) => it.textContent)"
    for _ in range(7):
        page.driver.script("Array.from(document.querySelectorAll('#graph-tabs button')).pop().click()")
    equal(page.driver.script(tabs), ["g", "g1", "g2", "g3", "g4", "g5", "g6", "g7"])
    page.driver.fill("#graph-name", "last")
    equal(page.driver.script(tabs)[-1], "last")
    for _ in range(7):
        page.driver.click("#remove-graph")
    equal(page.driver.script(tabs), ["g", "+"])
    equal(page.driver.script("return document.getElementById('remove-graph').disabled"), True)


def the_text_is_kept(page, _):
    """The text of graph and query is there again at the next visit."""
    page.fresh()
    page.fill("CONSTRUCT (kept) MATCH (kept)", many_nodes(2))
    page.open()
    equal(page.driver.script(QUERY), "CONSTRUCT (kept) MATCH (kept)")
    equal(page.driver.script("return document.querySelector('#graph-editor textarea').value"), many_nodes(2))


def a_link_holds_the_session(page, _):
    """The link of a session gives it back where nothing was kept."""
    page.fresh()
    page.fill('CONSTRUCT (n) MATCH (n) WHERE n.name = "Zoë 😀"', many_nodes(3))
    page.driver.click("#link")
    address = page.driver.script("return document.getElementById('link-text').value")
    page.driver.script("localStorage.clear()")
    page.open("#" + address.split("#", 1)[1])
    equal(page.driver.script(QUERY), 'CONSTRUCT (n) MATCH (n) WHERE n.name = "Zoë 😀"')
    equal(page.driver.script("return document.querySelector('#graph-editor textarea').value"), many_nodes(3))


def a_second_page_is_apart(page, _):
    """While a run of one page goes on, a second page gets its answer; the run of the first is stopped by its button."""
    page.fresh()
    first = page.driver.windows()[0]
    page.fill(SLOW, many_nodes(3000))
    second = page.driver.new_window()
    page.open()
    page.fill("CONSTRUCT (n) MATCH (n)", many_nodes(1))
    page.driver.to_window(first)
    page.driver.click("#run")
    page.driver.to_window(second)
    page.run()
    equal(page.driver.script(NODES), ["node-0"])
    page.driver.to_window(first)
    equal(page.driver.script(NOTE), "running ..")
    page.driver.click("#stop")
    page.driver.wait_for(RAN)
    equal(page.driver.script(NOTE).split(",")[0], "stopped")
    page.driver.to_window(second)
    page.driver.close_window()
    page.driver.to_window(first)


def keys_reach_everything(page, _):
    """Ctrl-Enter runs, and Tab comes to every control and every element of the picture."""
    page.fresh()
    page.fill("CONSTRUCT (n)-/@p/->(m) MATCH (n)-/@p/->(m)", read(PEOPLE))
    page.driver.script("document.querySelector('#query-editor textarea').focus()")
    page.driver.press(CONTROL, ENTER)
    page.driver.wait_for(RAN)
    page.driver.script("document.activeElement.blur(); getSelection().removeAllRanges()")
    seen = set()
    for _ in range(30):
        page.driver.press(TAB)
        here = "const it = document.activeElement; return it.id || it.getAttribute('aria-label') || it.textContent"
        seen.add(page.driver.script(here))
    due = {"examples", "command", "run", "link", "g", "add a graph", "graph-name", "look", "graph", "query", "node-1", "edge-11"}
    due |= {"path 21 :introduction; walk 1 11 2 12 4", "Text"}
    equal(due - seen, set(), "not reached by Tab")


def it_can_be_read_when_narrow(page, screenshots):
    """At a phone's width, and at half a window's, as 200 % gives it, nothing stands out of the page."""
    page.fresh()
    page.fill("CONSTRUCT (n)-[k]->(m) MATCH (n)-[k]->(m)", read(SOCIAL))
    page.run()
    for width, height in ((360, 740), (640, 400)):
        page.driver.resize(width, height)
        equal(page.driver.script("return document.documentElement.scrollWidth <= innerWidth"), True, "width %d" % width)
        page.driver.screenshot("%s/width-%d.png" % (screenshots, width))
    page.driver.resize(1280, 800)


def the_tour_is_pictured(page, screenshots):
    """The picture of README, from the social graph of the tour, is small enough for the repository."""
    page.fresh()
    page.driver.fill("#graph-name", "social")
    query = "# Who works where: a company for each employer.\nCONSTRUCT (n)-[:worksAt]->(c GROUP e :Company {name := e})\n"
    page.fill(query + "MATCH (n:Person {employer = e})", read(SOCIAL))
    page.run()
    page.driver.screenshot(screenshots + "/playground.png")
    with open(screenshots + "/playground.png", "rb") as file:
        equal(len(file.read()) <= PICTURE_BYTES, True, "size of the picture")


TRIALS = (
    examples_have_their_answers, created_is_told_from_copied, elements_tell_what_they_are, paths_are_lit_one_by_one,
    refusals_are_marked, texts_are_no_markup, graphs_come_and_go, the_text_is_kept, a_link_holds_the_session, a_second_page_is_apart,
    keys_reach_everything, it_can_be_read_when_narrow, the_tour_is_pictured,
)
