"""Browsers driven with the standard library alone: they open a page, press keys, click, read, take pictures. A Chromium by its devtools pipe, a Firefox by
WebDriver BiDi.

CHROMIUM and FIREFOX name the programs; without them the first `chromium`, `chromium-browser` or `google-chrome`, and the first `firefox` or
`firefox-esr`, on the path are taken. `find_browser` and `find_firefox` return None where there is none.
"""
import base64
import json
import os
import re
import shutil
import socket
import subprocess
import tempfile
import time
from pathlib import Path

NAMES, FIREFOXES = ("chromium", "chromium-browser", "google-chrome"), ("firefox", "firefox-esr")
OPTIONS = ("--headless=new", "--no-sandbox", "--disable-gpu", "--remote-debugging-pipe", "--disable-background-networking", "--disable-component-update",
           "--no-first-run", "--disable-sync", "--force-color-profile=srgb")
KEY_NUMBERS = {"ArrowRight": 39, "ArrowLeft": 37, "ArrowDown": 40, "Home": 36, "End": 35, "PageUp": 33, "PageDown": 34,
               "Backspace": 8, "Enter": 13, "Tab": 9, " ": 32}
KEY_LETTERS = {"ArrowRight": "\ue014", "ArrowLeft": "\ue012", "ArrowDown": "\ue015", "Home": "\ue011", "End": "\ue010", "PageUp": "\ue00e",
               "PageDown": "\ue00f", "Backspace": "\ue003", "Enter": "\ue007", "Tab": "\ue004", "Shift": "\ue008"}
SHIFT = 8
# What a new Firefox is not to do: ask, or look for anything outside.
PREFERENCES = {"datareporting.policy.dataSubmissionEnabled": False, "app.update.disabledForTesting": True, "browser.shell.checkDefaultBrowser": False,
               "browser.startup.page": 0, "network.captive-portal-service.enabled": False, "network.connectivity-service.enabled": False,
               "remote.active-protocols": 1, "dom.events.asyncClipboard.readText": True}


def found(named, names):
    """The path of a program: the one that a variable names, else the first that is there; or None."""
    return shutil.which(named) if named else next(filter(None, map(shutil.which, names)), None)


def find_browser():
    """The path of a Chromium, or None."""
    return found(os.environ.get("CHROMIUM"), NAMES)


def find_firefox():
    """The path of a Firefox, or None."""
    return found(os.environ.get("FIREFOX"), FIREFOXES)


def key_code(key):
    """The name of the key that gives a character."""
    if len(key) > 1:
        return key
    return "Space" if key == " " else f"Digit{key}" if key.isdigit() else f"Key{key.upper()}"


class Page:
    """What is done in the same way in each browser. A browser gives `load`, `read`, `key`, `type`, `click_at` and `close`."""

    def open(self, url):
        """Opens a page afresh, and waits until it has loaded."""
        self.load("about:blank")
        self.load(url)
        self.wait("document.readyState === 'complete' && location.href !== 'about:blank'")

    def wait(self, code, seconds=240):
        """Waits until an expression is true in the page."""
        end = time.monotonic() + seconds
        while not self.is_so(code):
            if time.monotonic() > end:
                raise RuntimeError(f"not within {seconds} s: {code}")
            time.sleep(0.02)

    def is_so(self, code):
        """Whether an expression is true in the page. While a page takes the place of another, it is not."""
        try:
            return self.read(code)
        except RuntimeError as fault:
            if not re.search("Cannot find context|context was destroyed|navigated", str(fault)):
                raise
            return False

    def click(self, selector):
        """Clicks into the middle of what a selector names."""
        middle = (f"(() => {{ const one = document.querySelector({json.dumps(selector)}); one.scrollIntoView({{block: 'nearest'}}); "
                  "const box = one.getBoundingClientRect(); return [box.x + box.width / 2, box.y + box.height / 2]; })()")
        self.click_at(*self.read(middle))


class Browser(Page):
    """One page in a Chromium of its own. Events of the page are kept: `faults` and `requests` look through them."""
    name = "Chromium"

    def __init__(self, program, width=1280, height=720, is_dark=False):
        self.room = tempfile.TemporaryDirectory()
        self.buffer, self.number, self.events, self.session = b"", 0, [], None
        theirs_in, self.out = os.pipe()
        self.into, theirs_out = os.pipe()
        # the pipes get the numbers 3 and 4 in a shell, which then becomes the browser
        ends = f'exec "$0" "$@" 3<&{theirs_in} 4>&{theirs_out}'
        options = [*OPTIONS, f"--window-size={width},{height}", f"--user-data-dir={self.room.name}"]
        self.run = subprocess.Popen(["bash", "-c", ends, program, *options, "about:blank"],
                                    pass_fds=(theirs_in, theirs_out), stdin=subprocess.DEVNULL, stdout=subprocess.DEVNULL, stderr=subprocess.DEVNULL)
        os.close(theirs_in)
        os.close(theirs_out)
        target = self.call("Target.createTarget", url="about:blank")["targetId"]
        self.session = self.call("Target.attachToTarget", targetId=target, flatten=True)["sessionId"]
        for domain in ("Page", "Runtime", "Log", "Network"):
            self.call(f"{domain}.enable")
        self.resize(width, height)
        self.call("Emulation.setEmulatedMedia", features=[{"name": "prefers-color-scheme", "value": "dark" if is_dark else "light"}])

    def resize(self, width, height, ratio=1):
        """Makes the page so wide and high, in its own pixels, with so many of the screen's for each."""
        self.call("Emulation.setDeviceMetricsOverride", width=width, height=height, deviceScaleFactor=ratio, mobile=False)

    def call(self, method, **params):
        """Asks the browser for something, and returns what it answers."""
        self.number += 1
        words = {"id": self.number, "method": method, "params": params}
        if self.session:
            words["sessionId"] = self.session
        os.write(self.out, json.dumps(words).encode() + b"\0")
        while True:
            said = self.message()
            if said.get("id") != self.number:
                self.events.append(said)
            elif "error" in said:
                raise RuntimeError(f"{method}: {said['error']}")
            else:
                return said["result"]

    def message(self):
        while b"\0" not in self.buffer:
            piece = os.read(self.into, 1 << 16)
            if not piece:
                raise RuntimeError("the browser went away")
            self.buffer += piece
        said, self.buffer = self.buffer.split(b"\0", 1)
        return json.loads(said)

    def load(self, url):
        self.call("Page.navigate", url=url)

    def read(self, code):
        """The value of an expression in the page."""
        done = self.call("Runtime.evaluate", expression=code, awaitPromise=True, returnByValue=True)
        if "exceptionDetails" in done:
            raise RuntimeError(json.dumps(done["exceptionDetails"])[:600])
        return done["result"].get("value")

    def key(self, key, shift=False):
        """Presses a key and lets it go."""
        pressed = {"key": key, "code": key_code(key), "windowsVirtualKeyCode": KEY_NUMBERS.get(key, ord(key[0].upper())), "modifiers": SHIFT if shift else 0}
        self.call("Input.dispatchKeyEvent", type="keyDown", **pressed)
        self.call("Input.dispatchKeyEvent", type="keyUp", **pressed)

    def type(self, text):
        """Puts a text where the focus is."""
        self.call("Input.insertText", text=text)

    def click_at(self, x, y):
        for kind in ("mousePressed", "mouseReleased"):
            self.call("Input.dispatchMouseEvent", type=kind, x=x, y=y, button="left", clickCount=1)

    def picture(self, path):
        """Writes what is seen as a PNG."""
        with open(path, "wb") as file:
            file.write(base64.b64decode(self.call("Page.captureScreenshot", format="png")["data"]))

    def faults(self):
        """What went wrong in the page so far: exceptions, and errors that the browser logged, as a breach of the page's policy."""
        return [event for event in self.events if event.get("method") == "Runtime.exceptionThrown"
                or (event.get("method") == "Log.entryAdded" and event["params"]["entry"]["level"] == "error")]

    def requests(self):
        """The addresses that were asked for so far, files and empty pages left out."""
        urls = [event["params"]["request"]["url"] for event in self.events if event.get("method") == "Network.requestWillBeSent"]
        return [url for url in urls if not url.startswith(("file:", "about:", "data:", "blob:"))]

    def close(self):
        """Ends the browser."""
        try:
            self.call("Browser.close")
        except (RuntimeError, OSError):
            pass
        try:
            self.run.wait(10)
        except subprocess.TimeoutExpired:
            self.run.kill()
            self.run.wait()
        os.close(self.out)
        os.close(self.into)
        self.room.cleanup()


class Socket:
    """A WebSocket to a program of this machine, for texts."""

    def __init__(self, port):
        self.line = socket.create_connection(("127.0.0.1", port), 300)
        key = base64.b64encode(os.urandom(16)).decode()
        self.line.sendall(f"GET /session HTTP/1.1\r\nHost: 127.0.0.1:{port}\r\nUpgrade: websocket\r\nConnection: Upgrade\r\n"
                          f"Sec-WebSocket-Key: {key}\r\nSec-WebSocket-Version: 13\r\n\r\n".encode())
        answer = b""
        while not answer.endswith(b"\r\n\r\n"):
            answer += self.line.recv(1) or b"\r\n\r\n"
        if b" 101 " not in answer.split(b"\r\n")[0]:
            raise RuntimeError(f"no WebSocket: {answer[:80]!r}")

    def send(self, text):
        """Sends a text in one frame, masked as a client's has to be."""
        data, mask = text.encode(), os.urandom(4)
        many = 0 if len(data) < 126 else 2 if len(data) < 1 << 16 else 8  # bytes for the length: as few as do
        size = bytes([0x80 | {0: len(data), 2: 126, 8: 127}[many]]) + (len(data).to_bytes(many, "big") if many else b"")
        self.line.sendall(b"\x81" + size + mask + bytes(byte ^ mask[i % 4] for i, byte in enumerate(data)))

    def take(self):
        """The next text, of one frame or of several."""
        text = b""
        while True:
            first, size = self.exactly(2)
            size = int.from_bytes(self.exactly(2 if size == 126 else 8), "big") if size >= 126 else size
            data = self.exactly(size)
            if first & 15 == 8:
                raise RuntimeError("the browser went away")
            text += data if first & 15 in (0, 1) else b""
            if first & 0x80 and first & 15 in (0, 1):
                return text.decode()

    def exactly(self, count):
        data = b""
        while len(data) < count:
            piece = self.line.recv(count - len(data))
            if not piece:
                raise RuntimeError("the browser went away")
            data += piece
        return data


class Firefox(Page):
    """One page in a Firefox of its own, as `Browser` has it."""
    name = "Firefox"

    def __init__(self, program, width=1280, height=720, is_dark=False):
        self.room = tempfile.TemporaryDirectory(ignore_cleanup_errors=True)
        self.number, self.events = 0, []
        wishes = {**PREFERENCES, "layout.css.prefers-color-scheme.content-override": 0 if is_dark else 1}
        lines = [f"user_pref({json.dumps(name)}, {json.dumps(value)});\n" for name, value in wishes.items()]
        Path(self.room.name, "user.js").write_text("".join(lines), encoding="utf-8")
        words = [program, "--headless", "--no-remote", "--profile", self.room.name, "--remote-debugging-port", "0"]
        self.run = subprocess.Popen(words, stdin=subprocess.DEVNULL, stdout=subprocess.DEVNULL, stderr=subprocess.PIPE,
                                    text=True, errors="replace", env={**os.environ, "HOME": self.room.name})
        self.socket = None
        try:
            self.begin(width, height)
        except (RuntimeError, OSError):
            self.close()
            raise

    def begin(self, width, height):
        """Gets a session, and the page of it."""
        self.socket = Socket(self.port())
        self.call("session.new", capabilities={})
        self.call("session.subscribe", events=["log.entryAdded", "network.beforeRequestSent"])
        self.context = self.call("browsingContext.getTree")["contexts"][0]["context"]
        self.resize(width, height)

    def port(self):
        """The port at which it listens, which it says on standard error."""
        for line in self.run.stderr:
            said = re.search(r"BiDi listening on ws://[^:]*:(\d+)", line)
            if said:
                return int(said.group(1))
        raise RuntimeError("this Firefox says no port")

    def resize(self, width, height, ratio=1):
        """Makes the page so wide and high, in its own pixels, with so many of the screen's for each."""
        self.call("browsingContext.setViewport", context=self.context, viewport={"width": width, "height": height}, devicePixelRatio=ratio)

    def call(self, method, **params):
        """Asks the browser for something, and returns what it answers."""
        self.number += 1
        self.socket.send(json.dumps({"id": self.number, "method": method, "params": params}))
        while True:
            said = json.loads(self.socket.take())
            if said.get("type") == "event":
                self.events.append(said)
            elif said.get("id") == self.number:
                if said["type"] == "error":
                    raise RuntimeError(f"{method}: {said['error']}: {said['message']}")
                return said["result"]

    def load(self, url):
        """Goes to a page, and waits until a script can be run there: until then what is asked may be lost with the page before it."""
        self.call("browsingContext.navigate", context=self.context, url=url, wait="none")
        end = time.monotonic() + 60
        while self.address() != url.partition("#")[0]:
            if time.monotonic() > end:
                raise RuntimeError(f"not within 60 s: {url}")
            time.sleep(0.02)

    def address(self):
        """The address of the page that is there, once it is there whole; else None."""
        try:
            return self.read("document.readyState === 'complete' ? location.href.split('#')[0] : null")
        except RuntimeError:
            return None

    def read(self, code):
        """The value of an expression in the page."""
        spelled = f"(async () => JSON.stringify(await ({code})) ?? 'null')()"
        done = self.call("script.evaluate", expression=spelled, target={"context": self.context}, awaitPromise=True)
        if done["type"] != "success":
            raise RuntimeError(json.dumps(done["exceptionDetails"])[:600])
        return json.loads(done["result"]["value"])

    def act(self, kind, actions, **more):
        self.call("input.performActions", context=self.context, actions=[{"type": kind, "id": kind, "actions": actions, **more}])

    def key(self, key, shift=False):
        """Presses a key and lets it go."""
        letter, held = KEY_LETTERS.get(key, key), KEY_LETTERS["Shift"]
        pressed = [{"type": "keyDown", "value": letter}, {"type": "keyUp", "value": letter}]
        self.act("key", [{"type": "keyDown", "value": held}, *pressed, {"type": "keyUp", "value": held}] if shift else pressed)

    def type(self, text):
        """Puts a text where the focus is."""
        self.act("key", [{"type": kind, "value": letter} for letter in text for kind in ("keyDown", "keyUp")])

    def click_at(self, x, y):
        moves = [{"type": "pointerMove", "x": round(x), "y": round(y)}, {"type": "pointerDown", "button": 0}, {"type": "pointerUp", "button": 0}]
        self.act("pointer", moves, parameters={"pointerType": "mouse"})

    def picture(self, path):
        """Writes what is seen as a PNG."""
        with open(path, "wb") as file:
            file.write(base64.b64decode(self.call("browsingContext.captureScreenshot", context=self.context)["data"]))

    def faults(self):
        """What went wrong in the page so far: exceptions, and errors that were logged."""
        return [event["params"].get("text") for event in self.events if event["method"] == "log.entryAdded" and event["params"]["level"] == "error"]

    def requests(self):
        """The addresses that were asked for so far, files and empty pages left out."""
        urls = [event["params"]["request"]["url"] for event in self.events if event["method"] == "network.beforeRequestSent"]
        return [url for url in urls if not url.startswith(("file:", "about:", "data:", "blob:"))]

    def close(self):
        """Ends the browser."""
        try:
            self.call("browser.close") if self.socket else self.run.kill()
        except (RuntimeError, OSError):
            self.run.kill()
        try:
            self.run.wait(20)
        except subprocess.TimeoutExpired:
            self.run.kill()
            self.run.wait()
        self.run.stderr.close()
        self.room.cleanup()  # what Firefox started may still write there
