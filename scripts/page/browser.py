"""A browser that is driven over the WebDriver protocol (W3C), by the standard library alone."""

import json
import shutil
import socket
import subprocess
import time
import urllib.error
import urllib.request

ARGUMENTS = ["--headless=new", "--no-sandbox", "--disable-gpu", "--disable-dev-shm-usage", "--window-size=1440,1100"]
KEYS = {
    "Home": "\ue011", "End": "\ue010", "ArrowLeft": "\ue012", "ArrowUp": "\ue013", "ArrowRight": "\ue014",
    "ArrowDown": "\ue015", "Space": " ",
}


def missing():
    """The Debian packages that are not there."""
    wanted = {"chromium": "chromium", "chromedriver": "chromium-driver"}
    return [package for program, package in wanted.items() if not shutil.which(program)]


class NotStarted(Exception):
    """The browser is there, and cannot be driven here."""


def free_port():
    with socket.socket() as listener:
        listener.bind(("127.0.0.1", 0))
        return listener.getsockname()[1]


class Browser:
    """One session of Chromium; to be used in a `with`."""

    def __enter__(self):
        port = free_port()
        self.base = f"http://127.0.0.1:{port}"
        quiet = subprocess.DEVNULL
        self.driver = subprocess.Popen(["chromedriver", f"--port={port}", "--silent"], stdout=quiet, stderr=quiet)
        try:
            self._await_driver()
            options = {"args": ARGUMENTS, "binary": shutil.which("chromium")}
            wanted = {"goog:chromeOptions": options, "goog:loggingPrefs": {"browser": "ALL"}}
            made = self._session({"capabilities": {"alwaysMatch": wanted}})
            self.base += "/session/" + made["sessionId"]
            self._send("POST", "/timeouts", {"script": 300_000, "pageLoad": 300_000})
        except BaseException:
            self.driver.terminate()
            raise
        return self

    def __exit__(self, *_):
        try:
            self._send("DELETE", "")
        finally:
            self.driver.terminate()
            self.driver.wait()

    def _await_driver(self):
        for _ in range(200):
            try:
                if self._send("GET", "/status")["ready"]:
                    return
            except OSError:
                pass
            time.sleep(0.1)
        raise NotStarted("chromedriver does not answer")

    def _session(self, wanted):
        try:
            return self._send("POST", "/session", wanted)
        except SystemExit as refused:
            raise NotStarted(refused.code) from None

    def _send(self, method, path, body=None):
        data = None if body is None else json.dumps(body).encode()
        request = urllib.request.Request(self.base + path, data, {"Content-Type": "application/json"}, method=method)
        try:
            with urllib.request.urlopen(request, timeout=300) as answer:
                return json.load(answer)["value"]
        except urllib.error.HTTPError as refused:
            raise SystemExit(f"try-page: {path or 'the session'}: {refused.read().decode(errors='replace')[:400]}") from None

    def open(self, url):
        self._send("POST", "/url", {"url": url})

    def run(self, script, *arguments):
        """What a script returns."""
        return self._send("POST", "/execute/sync", {"script": script, "args": list(arguments)})

    def run_later(self, script, *arguments):
        """What a script hands to its last argument, a call."""
        return self._send("POST", "/execute/async", {"script": script, "args": list(arguments)})

    def press(self, *names):
        """Presses keys, each by its name or letter."""
        actions = []
        for name in names:
            key = KEYS.get(name, name)
            actions += [{"type": "keyDown", "value": key}, {"type": "keyUp", "value": key}]
        self._send("POST", "/actions", {"actions": [{"type": "key", "id": "keys", "actions": actions}]})

    def command(self, name, **parameters):
        """A command of Chromium's own protocol."""
        return self._send("POST", "/goog/cdp/execute", {"cmd": name, "params": parameters})

    def messages(self):
        """What the browser's console has said since the last call."""
        return [entry["message"] for entry in self._send("POST", "/se/log", {"type": "browser"})]
