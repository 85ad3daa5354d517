"""A browser that a test drives: Chromium by its debugging pipe, Firefox by Marionette. Each opens a page, runs scripts in it, clicks and types as a hand does, takes pictures of it,
and tells what went wrong in it and what it asked the network for; a proxy hears what it asks for in all of its processes."""
import base64
import fcntl
import json
import os
import select
import shutil
import signal
import socket
import subprocess
import tempfile
import threading
import time

CHROMIUM, FIREFOX = ("chromium", "chromium-browser", "google-chrome"), ("firefox", "firefox-esr")
PATIENCE = 240  # seconds that a test waits for something at most
HIGH = 20  # descriptors from here on are no other's
# keep Chromium from asking for something of its own
QUIET = ("--disable-background-networking", "--disable-component-update", "--disable-default-apps", "--disable-sync", "--no-first-run", "--disable-domain-reliability", "--disable-client-side-phishing-detection")

# What is wrong with the words of the picture that is shown: two that overlap, one that goes over the edge of its card, of which a picture is the largest; and a page that is too wide.
LOOK = """
const boxes = (name) => [...document.querySelectorAll('figure ' + name)].map((it) => ({ said: it.textContent, ...it.getBoundingClientRect().toJSON() }));
const words = boxes('text'), cards = boxes('rect'), wrong = [];
const holds = (box, word) => box.left <= word.left + 1 && box.right >= word.left && box.top <= word.top + 1 && box.bottom >= word.bottom - 1;
words.forEach((a, n) => {
  const others = words.slice(n + 1).filter((b) => a.left < b.right && b.left < a.right && a.top + 1 < b.bottom && b.top + 1 < a.bottom), card = cards.filter((it) => holds(it, a)).sort((b, c) => b.width - c.width)[0];
  if (!card || a.right > card.right + 1) wrong.push(`'${a.said}' leaves its card`);
  wrong.push(...others.map((b) => `'${a.said}' and '${b.said}' overlap`));
});
if (document.documentElement.scrollWidth > innerWidth) wrong.push(`the page is ${document.documentElement.scrollWidth} pixels wide in a window of ${innerWidth}`);
return wrong;
"""


class Failed(Exception):
    """The browser ended, or a script threw."""


def found(names):
    """The path of the first of these programs that is there, or none."""
    return next(filter(None, map(shutil.which, names)), None)


def pipe():
    """The ends of a pipe, at descriptors that are no other's."""
    ends = os.pipe()
    high = [fcntl.fcntl(it, fcntl.F_DUPFD, HIGH) for it in ends]
    for it in ends:
        os.close(it)
    return high


class Proxy:
    """A proxy that notes the first line of each request, and answers none."""

    def __enter__(self):
        self.heard = []
        self.listener = socket.create_server(("127.0.0.1", 0))
        self.address = f"127.0.0.1:{self.listener.getsockname()[1]}"
        threading.Thread(target=self.listen, daemon=True).start()
        return self

    def __exit__(self, *_):
        self.listener.close()

    def listen(self):
        while True:
            try:
                taken, _ = self.listener.accept()
            except OSError:
                return
            with taken:
                taken.settimeout(5)
                try:
                    self.heard.append(taken.recv(4096).split(b"\r\n")[0].decode(errors="replace"))
                except OSError:
                    self.heard.append("a connection")


class Browser:
    """What both have in common. `js` returns what the body of an async function returns."""

    def wait(self, text, what):
        """Waits until a script's value is true, and returns it."""
        end = time.monotonic() + PATIENCE
        while time.monotonic() < end:
            value = self.js(f"return {text}")
            if value:
                return value
            time.sleep(0.05)
        raise Failed(f"waited for {what}: {text}")

    def picture(self, path):
        with open(path, "wb") as out:
            out.write(base64.b64decode(self.shot()))

    def __enter__(self):
        return self

    def __exit__(self, *_):
        for it in self.ends:
            os.close(it)
        self.process.terminate()
        try:
            self.process.wait(20)
        except subprocess.TimeoutExpired:
            self.process.kill()
            self.process.wait()
        if self.own:
            shutil.rmtree(self.profile, ignore_errors=True)


class Chromium(Browser):
    """`profile` is a folder that it keeps what it stores in, for a test that opens it again; `proxy` the address of a Proxy, which gets all that it asks for, also of this machine."""

    def __init__(self, width=1280, height=900, profile=None, dark=False, proxy=None):
        self.own, self.profile = profile is None, profile or tempfile.mkdtemp()
        self.sent, self.buffer, self.events = 0, b"", []
        words = [found(CHROMIUM), "--headless=new", "--no-sandbox", "--disable-gpu", "--disable-dev-shm-usage", "--hide-scrollbars", "--remote-debugging-pipe", f"--user-data-dir={self.profile}"]
        words += [f"--proxy-server={proxy}", "--proxy-bypass-list=<-loopback>", *QUIET] if proxy else []
        words.append("about:blank")
        (theirs, self.out), (self.into, answers) = pipe(), pipe()
        self.ends = (self.out, self.into)
        shell = f'exec "$@" 3<&{theirs} 4>&{answers}'  # the browser's descriptors 3 and 4
        self.process = subprocess.Popen(["bash", "-c", shell, "", *words], pass_fds=(theirs, answers), stdout=subprocess.DEVNULL, stderr=subprocess.DEVNULL, start_new_session=True)
        os.close(theirs)
        os.close(answers)
        target = self.send("Target.createTarget", {"url": "about:blank"})["targetId"]
        self.session = self.send("Target.attachToTarget", {"targetId": target, "flatten": True})["sessionId"]
        for name in ("Page", "Runtime", "Log", "Network"):
            self.tell(f"{name}.enable")
        self.resize(width, height)
        if dark:
            self.tell("Emulation.setEmulatedMedia", {"features": [{"name": "prefers-color-scheme", "value": "dark"}]})

    def kill(self):
        """Kills the browser with all its processes, at once."""
        os.killpg(self.process.pid, signal.SIGKILL)
        self.process.wait()

    def send(self, method, parameters=None, session=None):
        self.sent += 1
        message = {"id": self.sent, "method": method, "params": parameters or {}, **({"sessionId": session} if session else {})}
        os.write(self.out, json.dumps(message).encode() + b"\0")
        while True:
            answer = self.receive()
            if answer.get("id") == self.sent:
                if "error" in answer:
                    raise Failed(f"{method}: {answer['error']}")
                return answer["result"]
            self.events.append(answer)

    def receive(self):
        while b"\0" not in self.buffer:
            ready, _, _ = select.select([self.into], [], [], PATIENCE)
            got = os.read(self.into, 1 << 20) if ready else b""
            if not got:
                raise Failed("the browser ended" if ready else "the browser says nothing")
            self.buffer += got
        message, self.buffer = self.buffer.split(b"\0", 1)
        return json.loads(message)

    def tell(self, method, parameters=None):
        return self.send(method, parameters, self.session)

    def resize(self, width, height):
        self.tell("Emulation.setDeviceMetricsOverride", {"width": width, "height": height, "deviceScaleFactor": 1, "mobile": False})

    def open(self, url):
        self.tell("Page.navigate", {"url": "about:blank"})  # an address that differs in its # alone would not be loaded
        self.tell("Page.navigate", {"url": url})
        self.wait("document.readyState === 'complete' && location.href !== 'about:blank'", url)

    def js(self, text):
        done = self.tell("Runtime.evaluate", {"expression": f"(async () => {{{text}}})()", "awaitPromise": True, "returnByValue": True})
        if "exceptionDetails" in done:
            raise Failed(f"{text[:80]}: {json.dumps(done['exceptionDetails'])[:500]}")
        return done["result"].get("value")

    def click(self, selector):
        place = self.js(f"const it = document.querySelector({json.dumps(selector)}); if (!it) return null; it.scrollIntoView({{block: 'center'}}); const box = it.getBoundingClientRect(); return [box.x + box.width / 2, box.y + box.height / 2]")
        if place is None:
            raise Failed(f"there is no {selector}")
        for kind in ("mousePressed", "mouseReleased"):
            self.tell("Input.dispatchMouseEvent", {"type": kind, "x": place[0], "y": place[1], "button": "left", "clickCount": 1})

    def type(self, text):
        self.tell("Input.insertText", {"text": text})

    def key(self, name):
        for kind in ("keyDown", "keyUp"):
            self.tell("Input.dispatchKeyEvent", {"type": kind, "key": name, "code": name})

    def shot(self, whole=False):
        return self.tell("Page.captureScreenshot", {"format": "png", "captureBeyondViewport": whole})["data"]

    def problems(self):
        """What scripts threw, and what the console was told as an error."""
        self.js("return 1")
        wrong = [it["params"] for it in self.events if it["method"] == "Runtime.exceptionThrown" or (it["method"] == "Log.entryAdded" and it["params"]["entry"]["level"] == "error")]
        return [json.dumps(it)[:400] for it in wrong]

    def asked(self):
        """The addresses that were asked for."""
        self.js("return 1")
        return [it["params"]["request"]["url"] for it in self.events if it["method"] == "Network.requestWillBeSent"]


class Firefox(Browser):
    def __init__(self, width=1280, height=900, proxy=None):
        self.own, self.profile, self.sent, self.ends = True, tempfile.mkdtemp(), 0, ()
        with socket.socket() as free:
            free.bind(("127.0.0.1", 0))
            port = free.getsockname()[1]
        with open(f"{self.profile}/user.js", "w") as file:
            file.write(f'user_pref("marionette.port", {port});\nuser_pref("browser.shell.checkDefaultBrowser", false);\nuser_pref("datareporting.policy.dataSubmissionEnabled", false);\n')
            if proxy:
                host, at = proxy.split(":")
                file.writelines(f'user_pref("network.proxy.{kind}", "{host}");\nuser_pref("network.proxy.{kind}_port", {at});\n' for kind in ("http", "ssl"))
                file.write('user_pref("network.proxy.type", 1);\nuser_pref("network.proxy.allow_hijacking_localhost", true);\n')
        self.process = subprocess.Popen([found(FIREFOX), "--headless", "--no-remote", "--marionette", "--profile", self.profile, "--width", str(width), "--height", str(height)], stdout=subprocess.DEVNULL, stderr=subprocess.DEVNULL)
        end = time.monotonic() + PATIENCE
        while True:
            try:
                self.socket = socket.create_connection(("127.0.0.1", port), 1)
                break
            except OSError:
                if time.monotonic() > end:
                    raise
                time.sleep(0.2)
        self.socket.settimeout(PATIENCE)
        self.receive()
        self.send("WebDriver:NewSession", {"capabilities": {"alwaysMatch": {"acceptInsecureCerts": True}}})
        self.send("WebDriver:SetTimeouts", {"script": PATIENCE * 1000})

    def receive(self):
        head = b""
        while not head.endswith(b":"):
            head += self.some(1)
        text = b""
        while len(text) < int(head[:-1]):
            text += self.some(int(head[:-1]) - len(text))
        return json.loads(text)

    def some(self, most):
        got = self.socket.recv(most)
        if not got:
            raise Failed("the browser ended")
        return got

    def send(self, command, parameters):
        self.sent += 1
        text = json.dumps([0, self.sent, command, parameters]).encode()
        self.socket.sendall(b"%d:%s" % (len(text), text))
        _, _, error, result = self.receive()
        if error:
            raise Failed(f"{command}: {error['message'][:300]}")
        return result

    def open(self, url):
        self.send("WebDriver:Navigate", {"url": "about:blank"})
        self.send("WebDriver:Navigate", {"url": url})

    def js(self, text):
        script = f"const then = arguments[arguments.length - 1], {{ Page }} = window.wrappedJSObject || window; (async () => {{{text}}})().then((value) => then({{value}}), (why) => then({{why: String(why)}}));"
        done = self.send("WebDriver:ExecuteAsyncScript", {"script": script, "args": []})["value"]
        if "why" in done:
            raise Failed(f"{text[:80]}: {done['why']}")
        return done.get("value")

    def click(self, selector):
        element = self.send("WebDriver:FindElement", {"using": "css selector", "value": selector})["value"]
        self.send("WebDriver:ElementClick", {"id": next(iter(element.values()))})

    def type(self, text):
        element = self.send("WebDriver:GetActiveElement", {})["value"]
        self.send("WebDriver:ElementSendKeys", {"id": next(iter(element.values())), "text": text})

    def key(self, name):
        self.type({"ArrowLeft": "\ue012", "ArrowRight": "\ue014", "End": "\ue010", "Home": "\ue011"}[name])

    def shot(self):
        return self.send("WebDriver:TakeScreenshot", {"full": False})["value"]
