"""Drives Debian's headless Chromium through its driver, by the WebDriver protocol over HTTP.

Needs Debian's packages chromium and chromium-driver. All that the browser keeps lies in a folder that is handed in.
"""
import base64
import json
import os
import shutil
import signal
import subprocess
import time
import urllib.error
import urllib.request

ELEMENT = "element-6066-11e4-a52e-4f735466cecf"
PATIENCE = 60
CONTROL, ENTER, TAB = "\ue009", "\ue007", "\ue004"


class NoBrowser(Exception):
    """The browser or its driver is missing."""


def programs():
    """The paths of the driver and of the browser; NoBrowser where one is missing."""
    found = shutil.which("chromedriver"), shutil.which("chromium")
    if None in found:
        raise NoBrowser("Chromium is missing: apt-get install chromium chromium-driver")
    return found


class Driver:
    """The driver, on a port of its own choice, and the one session of a browser in it."""

    def __init__(self, folder):
        driver, browser = programs()
        surroundings = {**os.environ, "TMPDIR": folder, "HOME": folder}
        self.child = subprocess.Popen(
            [driver, "--port=0"], stdout=subprocess.PIPE, stderr=subprocess.DEVNULL, env=surroundings, start_new_session=True
        )
        try:
            self.address = "http://127.0.0.1:%d" % self.port()
            self.session = "/session/" + self.begin(browser, folder)
        except BaseException:
            self.kill()
            raise

    def port(self):
        """The port, as the driver tells it."""
        for line in self.child.stdout:
            words = line.decode().strip().rstrip(".").split()
            if b"started successfully" in line:
                return int(words[-1])
        raise NoBrowser("chromedriver did not start")

    def begin(self, browser, folder):
        """Starts the browser; the name of its session."""
        arguments = ["--headless=new", "--disable-gpu", "--disable-dev-shm-usage", "--window-size=1280,800"]
        arguments += ["--user-data-dir=" + os.path.join(folder, "profile"), "--no-first-run", "--disable-background-networking"]
        if os.geteuid() == 0:
            arguments.append("--no-sandbox")
        options = {"binary": browser, "args": arguments}
        wanted = {"capabilities": {"alwaysMatch": {"goog:chromeOptions": options}}}
        return self.call("POST", "/session", wanted)["sessionId"]

    def call(self, method, path, value=None):
        """One call of the protocol; the value that it answers."""
        body = None if method != "POST" else json.dumps(value or {}).encode()
        request = urllib.request.Request(self.address + path, body, {"Content-Type": "application/json"}, method=method)
        try:
            with urllib.request.urlopen(request, timeout=60) as answer:
                return json.load(answer)["value"]
        except urllib.error.HTTPError as error:
            raise AssertionError(json.load(error)["value"]["message"]) from None

    def end(self):
        """Ends the browser, and then the driver."""
        try:
            self.call("DELETE", self.session)
        finally:
            self.kill()

    def kill(self):
        """Ends the driver and what it has started."""
        try:
            os.killpg(self.child.pid, signal.SIGKILL)
        except ProcessLookupError:
            pass
        self.child.wait()
        self.child.stdout.close()

    def open(self, address):
        """Opens an address in the window at hand."""
        self.call("POST", self.session + "/url", {"url": address})

    def windows(self):
        """The names of the windows."""
        return self.call("GET", self.session + "/window/handles")

    def new_window(self):
        """Opens a further window, and goes to it; its name."""
        name = self.call("POST", self.session + "/window/new", {"type": "tab"})["handle"]
        self.to_window(name)
        return name

    def to_window(self, name):
        """Goes to a window."""
        self.call("POST", self.session + "/window", {"handle": name})

    def close_window(self):
        """Closes the window at hand."""
        self.call("DELETE", self.session + "/window")

    def resize(self, width, height):
        """Gives the page's inside a width and a height, as a device of that size has it."""
        metrics = {"width": width, "height": height, "deviceScaleFactor": 1, "mobile": False}
        command = {"cmd": "Emulation.setDeviceMetricsOverride", "params": metrics}
        self.call("POST", self.session + "/goog/cdp/execute", command)

    def script(self, text, *arguments):
        """What a script of the page returns."""
        return self.call("POST", self.session + "/execute/sync", {"script": text, "args": list(arguments)})

    def wait_for(self, text, *arguments):
        """Waits until a script of the page returns something true, and gives it."""
        end = time.monotonic() + PATIENCE
        while time.monotonic() < end:
            value = self.script(text, *arguments)
            if value:
                return value
            time.sleep(0.05)
        raise AssertionError("waited in vain for: %s %s" % (text, arguments))

    def element(self, selector):
        """The path of an element in the protocol."""
        wanted = {"using": "css selector", "value": selector}
        return self.session + "/element/" + self.call("POST", self.session + "/element", wanted)[ELEMENT]

    def click(self, selector):
        """Clicks an element."""
        self.call("POST", self.element(selector) + "/click")

    def write(self, selector, text):
        """Writes a text into a field by keys."""
        self.call("POST", self.element(selector) + "/value", {"text": text})

    def fill(self, selector, text):
        """Gives a field a text as if it were pasted."""
        self.script(
            "const field = document.querySelector(arguments[0]); field.value = arguments[1];"
            "field.dispatchEvent(new Event('input', {bubbles: true}));", selector, text,
        )

    def press(self, *keys):
        """Presses keys together, wherever the page's focus is."""
        moves = [{"type": "keyDown", "value": key} for key in keys] + [{"type": "keyUp", "value": key} for key in keys[::-1]]
        self.call("POST", self.session + "/actions", {"actions": [{"type": "key", "id": "keys", "actions": moves}]})

    def hover(self, selector):
        """Moves the pointer over an element."""
        path = self.element(selector)
        origin = {ELEMENT: path.rsplit("/", 1)[1]}
        move = {"type": "pointerMove", "duration": 0, "x": 0, "y": 0, "origin": origin}
        source = {"type": "pointer", "id": "mouse", "parameters": {"pointerType": "mouse"}, "actions": [move]}
        self.call("POST", self.session + "/actions", {"actions": [source]})

    def screenshot(self, path):
        """Writes a picture of the window at hand to a file."""
        with open(path, "wb") as file:
            file.write(base64.b64decode(self.call("GET", self.session + "/screenshot")))
