"""Pages opened by a headless Chromium, which is driven by its DevTools protocol over one WebSocket a tab."""
import base64
import json
import os
import shutil
import signal
import socket
import struct
import subprocess
import tempfile
import time
import urllib.request

from shop import free_port

PROGRAM = shutil.which("chromium")


class Chromium:
    """A browser with an empty profile in a temporary folder, and its first tab."""

    def __init__(self):
        self.folder = tempfile.TemporaryDirectory(prefix="millicent-chromium-", ignore_cleanup_errors=True)
        self.port = free_port()
        words = ["--headless", "--no-sandbox", "--disable-gpu", "--no-first-run", "--user-data-dir=" + self.folder.name,
                 "--remote-debugging-port=%d" % self.port, "about:blank"]
        self.process = subprocess.Popen([PROGRAM, *words], stdout=subprocess.DEVNULL, stderr=subprocess.DEVNULL, start_new_session=True,
                                        env={**os.environ, "TMPDIR": self.folder.name})
        self.tabs = [Tab(self.port, first_page(self.port))]

    def __enter__(self):
        return self

    def __exit__(self, *_):
        for tab in self.tabs:
            tab.socket.close()
        # The group of the process that was started here, and of its own.
        os.killpg(self.process.pid, signal.SIGKILL)
        self.process.wait()
        self.folder.cleanup()

    def tab(self):
        """A new tab."""
        self.tabs.append(Tab(self.port, told(self.port, "new?about:blank", "PUT")))
        return self.tabs[-1]

    def open(self, url, fields):
        """A page's status and its text, opened in the first tab with these fields in its request."""
        tab = self.tabs[0]
        tab.call("Network.setExtraHTTPHeaders", headers=fields)
        return tab.load(url)[url].status, tab.text()


class Response:
    """What a browser was answered: the status, and the type that it took the contents for."""

    def __init__(self, told):
        self.status, self.type = told["status"], told["mimeType"]

    def __repr__(self):
        return "%d %s" % (self.status, self.type)


class Tab:
    def __init__(self, port, page):
        self.socket, self.numbers, self.events = websocket(port, path_of(page, port)), 0, []
        for domain in ("Network", "Page"):
            self.call(domain + ".enable")

    def begin(self, method, **words):
        """Has the browser do this, and waits for nothing."""
        self.numbers += 1
        send_text(self.socket, json.dumps({"id": self.numbers, "method": method, "params": words}))

    def call(self, method, **words):
        """What the browser answers. Events that come before are kept."""
        self.begin(method, **words)
        while (said := json.loads(receive_text(self.socket))).get("id") != self.numbers:
            self.events.append(said)
        assert "error" not in said, said
        return said["result"]

    def until(self, method):
        """The events up to the next one of this name. Answers to what was begun are dropped."""
        while not any(event.get("method") == method for event in self.events):
            self.events.append(json.loads(receive_text(self.socket)))
        at = next(i for i, event in enumerate(self.events) if event.get("method") == method) + 1
        past, self.events = self.events[:at], self.events[at:]
        return past

    def loaded(self):
        """What the browser was answered, by its address, up to the moment when the page is loaded."""
        told = [event["params"]["response"] for event in self.until("Page.loadEventFired")
                if event.get("method") == "Network.responseReceived"]
        return {response["url"]: Response(response) for response in told}

    def load(self, url):
        """Opens a page with all of its parts."""
        self.events.clear()
        self.begin("Page.navigate", url=url)
        return self.loaded()

    def reload(self, is_forced=False):
        self.events.clear()
        self.begin("Page.reload", ignoreCache=is_forced)
        return self.loaded()

    def value(self, expression):
        return self.call("Runtime.evaluate", expression=expression, awaitPromise=True, returnByValue=True)["result"].get("value")

    def text(self):
        return self.value("document.body.innerText")

    def picture(self, path):
        """Writes what the tab shows, as a PNG."""
        with open(path, "wb") as f:
            f.write(base64.b64decode(self.call("Page.captureScreenshot")["data"]))


def told(port, what, method="GET"):
    """What the browser tells of its pages."""
    asked = urllib.request.Request("http://127.0.0.1:%d/json/%s" % (port, what), method=method)
    with urllib.request.urlopen(asked, timeout=30) as reply:
        return json.load(reply)


def path_of(page, port):
    """The path of a page's WebSocket."""
    return page["webSocketDebuggerUrl"].split(str(port), 1)[1]


def first_page(port):
    """The first page, once the browser listens."""
    for _ in range(300):
        try:
            return next(page for page in told(port, "list") if page["type"] == "page")
        except (OSError, StopIteration):
            time.sleep(0.1)
    raise OSError("the browser does not listen")


def websocket(port, path):
    """A WebSocket (RFC 6455) to this path."""
    s = socket.create_connection(("127.0.0.1", port), 30)
    key = base64.b64encode(os.urandom(16)).decode()
    lines = ["GET %s HTTP/1.1" % path, "Host: 127.0.0.1:%d" % port, "Upgrade: websocket", "Connection: Upgrade",
             "Sec-WebSocket-Key: " + key, "Sec-WebSocket-Version: 13", "", ""]
    s.sendall("\r\n".join(lines).encode())
    head = b""
    while not head.endswith(b"\r\n\r\n"):
        head += s.recv(1)
    assert head.startswith(b"HTTP/1.1 101 "), head
    return s


def send_text(s, text):
    data, mask = text.encode(), os.urandom(4)
    size = len(data)
    length = bytes([0x80 | size]) if size < 126 else struct.pack(">BH", 0x80 | 126, size)
    s.sendall(b"\x81" + length + mask + bytes(b ^ mask[i % 4] for i, b in enumerate(data)))


def receive_text(s):
    text, last = b"", False
    while not last:
        first, size = receive(s, 2)
        last, size = first & 0x80, size & 0x7F
        if size >= 126:
            size = int.from_bytes(receive(s, 2 if size == 126 else 8), "big")
        text += receive(s, size)
    return text


def receive(s, count):
    data = b""
    while len(data) < count:
        more = s.recv(count - len(data))
        if not more:
            raise ConnectionError("the browser closed the connection")
        data += more
    return data
