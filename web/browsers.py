"""Chromium and Firefox without a window, driven by their own protocols: what a test needs of them."""
import base64
import json
import os
import pathlib
import select
import shutil
import socket
import subprocess
import tempfile
import time

PROMPT = 600  # seconds for one answer: a code file that does not end takes minutes


class Lost(Exception):
    """The browser did not answer, or answered with an error."""


class Browser:
    """A browser with one page. `run` gives what an expression of JavaScript comes to, also of a promise."""

    def __init__(self):
        self.folder = tempfile.mkdtemp(prefix="seatlaw-browser-")
        self.downloads = os.path.join(self.folder, "downloads")
        os.mkdir(self.downloads)
        self.child = None

    def close(self):
        self.child.terminate()
        try:
            self.child.wait(20)
        except subprocess.TimeoutExpired:
            self.child.kill()
            self.child.wait()
        shutil.rmtree(self.folder, ignore_errors=True)

    def wait(self, expression, seconds=120):
        end = time.monotonic() + seconds
        while time.monotonic() < end:
            if self.run("Boolean(%s)" % expression):
                return
            time.sleep(0.05)
        raise Lost("never came to be: " + expression)

    def downloaded(self, name, seconds=20):
        """The bytes of a file that the page has saved."""
        path, end = pathlib.Path(self.downloads) / name, time.monotonic() + seconds
        while time.monotonic() < end:
            if path.exists() and path.stat().st_size and not list(path.parent.glob(name + ".*")):
                return path.read_bytes()
            time.sleep(0.1)
        raise Lost("never saved: " + name)

    def text(self, css):
        return self.run("document.querySelector(%s).textContent" % json.dumps(css))

    def count(self, css):
        return self.run("document.querySelectorAll(%s).length" % json.dumps(css))

    def middle(self, css):
        """Where the middle of an element stands in the window, after it was brought into sight."""
        return self.run("""(async () => {
            const part = document.querySelector(%s);
            part.scrollIntoView({ block: 'center' });
            await new Promise(resolve => setTimeout(resolve, 50));
            const at = part.getBoundingClientRect();
            return [at.x + at.width / 2, at.y + at.height / 2];
        })()""" % json.dumps(css))


class Chromium(Browser):
    name = "chromium"

    def __init__(self, language, width=1200, height=900, scheme="light"):
        super().__init__()
        self.number, self.attached, self.asked = 0, None, []
        to_child, self.out = os.pipe()
        self.into, from_child = os.pipe()
        words = ["chromium", "--headless=new", "--no-sandbox", "--disable-gpu", "--no-first-run", "--disable-background-networking",
                 "--user-data-dir=" + self.folder, "--window-size=%d,%d" % (width, height), "--remote-debugging-pipe", "about:blank"]
        shell = 'exec "$@" 3<&%d 4>&%d' % (to_child, from_child)
        self.child = subprocess.Popen(["bash", "-c", shell, "bash", *words], pass_fds=(to_child, from_child), stdout=subprocess.DEVNULL,
                                      stderr=subprocess.DEVNULL, env={**os.environ, "HOME": self.folder})
        os.close(to_child)
        os.close(from_child)
        self.rest = b""
        self.call("Browser.setDownloadBehavior", behavior="allow", downloadPath=self.downloads)
        target = self.call("Target.createTarget", url="about:blank")["targetId"]
        self.attached = self.call("Target.attachToTarget", targetId=target, flatten=True)["sessionId"]
        for domain in ("Page", "Runtime", "Network", "DOM"):
            self.call(domain + ".enable")
        self.scheme(scheme)
        self.call("Page.addScriptToEvaluateOnNewDocument", source="Object.defineProperty(navigator, 'language', { get: () => %s });" % json.dumps(language))

    def scheme(self, name):
        self.call("Emulation.setEmulatedMedia", features=[{"name": "prefers-color-scheme", "value": name}])

    def message(self):
        while b"\0" not in self.rest:
            if not select.select([self.into], [], [], PROMPT)[0]:
                raise Lost("chromium has not answered for %d seconds" % PROMPT)
            more = os.read(self.into, 1 << 20)
            if not more:
                raise Lost("chromium has ended")
            self.rest += more
        text, self.rest = self.rest.split(b"\0", 1)
        return json.loads(text)

    def call(self, method, **params):
        self.number += 1
        asked = {"id": self.number, "method": method, "params": params}
        if self.attached:
            asked["sessionId"] = self.attached
        data = json.dumps(asked).encode() + b"\0"
        while data:
            data = data[os.write(self.out, data):]
        while True:
            got = self.message()
            if got.get("method") == "Network.requestWillBeSent":
                self.asked.append(got["params"]["request"]["url"])
            elif got.get("method") == "Tracing.dataCollected":
                self.traced += got["params"]["value"]
            elif got.get("method") == "Tracing.tracingComplete":
                self.is_traced = True
            if got.get("id") == self.number:
                if "error" in got:
                    raise Lost("%s: %s" % (method, got["error"]))
                return got["result"]

    def longest(self, act):
        """The processor time of the longest task of the page's own thread while something is done, in milliseconds: a busy machine makes it little longer."""
        attached, self.traced, self.is_traced = self.attached, [], False
        self.attached = None
        self.call("Tracing.start", traceConfig={"includedCategories": ["toplevel"]}, transferMode="ReportEvents")
        self.attached = attached
        act()
        self.attached = None
        self.call("Tracing.end")
        while not self.is_traced:
            self.call("Browser.getVersion")
            time.sleep(0.05)
        self.attached = attached
        threads = {(one["pid"], one["tid"]): one["args"]["name"] for one in self.traced if one["name"] == "thread_name"}
        tasks = [one["tdur"] / 1000 for one in self.traced if one["name"].endswith("RunTask") and threads.get((one["pid"], one["tid"])) == "CrRendererMain" and "tdur" in one]
        return max(tasks, default=0)

    def open(self, url):
        self.call("Page.navigate", url=url)

    def run(self, expression):
        got = self.call("Runtime.evaluate", expression=expression, awaitPromise=True, returnByValue=True)
        if "exceptionDetails" in got:
            raise Lost(json.dumps(got["exceptionDetails"])[:400])
        return got["result"].get("value")

    def node(self, css):
        root = self.call("DOM.getDocument")["root"]["nodeId"]
        return self.call("DOM.querySelector", nodeId=root, selector=css)["nodeId"]

    def place(self, css):
        box = self.run("""(async () => {
            const part = document.querySelector(%s), frame = () => new Promise(resolve => { requestAnimationFrame(resolve); setTimeout(resolve, 500); });
            for (let i = 0; i < 3; i++) { part.scrollIntoView({ block: 'center' }); await frame(); }
            const at = part.getBoundingClientRect();
            return [at.x + at.width / 2, at.y + Math.min(at.height / 2, 20)];
        })()""" % json.dumps(css))
        return {"x": box[0], "y": box[1]}

    def click(self, css):
        at = self.place(css)
        for kind in ("mousePressed", "mouseReleased"):
            self.call("Input.dispatchMouseEvent", type=kind, button="left", clickCount=1, **at)

    def key(self, css, key):
        self.run("document.querySelector(%s).focus()" % json.dumps(css))
        self.press(key)

    def press(self, key, shift=False):
        code = {"Enter": 13, " ": 32, "ArrowLeft": 37, "ArrowUp": 38, "ArrowRight": 39, "ArrowDown": 40, "PageUp": 33, "PageDown": 34, "End": 35, "Home": 36, "Tab": 9}.get(key, 0)
        more = {"text": "\r"} if key == "Enter" else {"text": " "} if key == " " else {}
        how = {"key": key, "code": key, "windowsVirtualKeyCode": code, "modifiers": 8 if shift else 0}
        self.call("Input.dispatchKeyEvent", type="keyDown", **how, **more)
        self.call("Input.dispatchKeyEvent", type="keyUp", **how)

    def type(self, text):
        """Puts a text in where the focus is, as a paste does."""
        self.call("Input.insertText", text=text)

    def tap(self, x, y):
        self.call("Input.dispatchTouchEvent", type="touchStart", touchPoints=[{"x": x, "y": y}])
        self.call("Input.dispatchTouchEvent", type="touchEnd", touchPoints=[])

    def drag(self, spots, touch):
        """Drags by a mouse or a finger along these places of the window."""
        kinds = ["touchStart", *["touchMove"] * (len(spots) - 1)] if touch else ["mousePressed", *["mouseMoved"] * (len(spots) - 1)]
        for kind, (x, y) in zip(kinds, spots):
            if touch:
                self.call("Input.dispatchTouchEvent", type=kind, touchPoints=[{"x": x, "y": y}])
            else:
                self.call("Input.dispatchMouseEvent", type=kind, x=x, y=y, button="left", buttons=1, clickCount=1)
        if touch:
            self.call("Input.dispatchTouchEvent", type="touchEnd", touchPoints=[])
        else:
            self.call("Input.dispatchMouseEvent", type="mouseReleased", x=spots[-1][0], y=spots[-1][1], button="left", clickCount=1)

    def choose(self, css, path):
        self.call("DOM.setFileInputFiles", files=[str(path)], nodeId=self.node(css))

    def drop(self, css, path):
        at = self.place(css)
        data = {"items": [], "files": [str(path)], "dragOperationsMask": 1}
        for kind in ("dragEnter", "dragOver", "drop"):
            self.call("Input.dispatchDragEvent", type=kind, data=data, **at)

    def size(self, width, height):
        self.call("Emulation.setDeviceMetricsOverride", width=width, height=height, deviceScaleFactor=1, mobile=False)

    def picture(self, path, clip=None):
        got = self.call("Page.captureScreenshot", format="png")
        pathlib.Path(path).write_bytes(base64.b64decode(got["data"]))

    def paper(self):
        return base64.b64decode(self.call("Page.printToPDF", preferCSSPageSize=True, printBackground=True)["data"])


class Firefox(Browser):
    name = "firefox"

    def __init__(self, language, width=1200, height=900, scheme="light"):
        super().__init__()
        self.number, self.asked = 0, []
        with socket.socket() as free:
            free.bind(("127.0.0.1", 0))
            port = free.getsockname()[1]
        prefs = {"marionette.port": port, "layout.css.prefers-color-scheme.content-override": 0 if scheme == "dark" else 1, "intl.accept_languages": language, "browser.download.folderList": 2,
                 "browser.download.dir": self.downloads, "browser.download.useDownloadDir": True, "browser.download.always_ask_before_handling_new_types": False,
                 "datareporting.policy.dataSubmissionEnabled": False, "app.update.enabled": False,
                 "browser.shell.checkDefaultBrowser": False, "network.captive-portal-service.enabled": False, "network.connectivity-service.enabled": False}
        with open(os.path.join(self.folder, "user.js"), "w") as f:
            for name, value in prefs.items():
                f.write("user_pref(%s, %s);\n" % (json.dumps(name), json.dumps(value)))
        words = ["firefox-esr", "--headless", "--marionette", "--no-remote", "--profile", self.folder, "--width", str(width), "--height", str(height)]
        self.child = subprocess.Popen(words, stdout=subprocess.DEVNULL, stderr=subprocess.DEVNULL, env={**os.environ, "HOME": self.folder})
        self.socket = self.joined(port)
        self.file = self.socket.makefile("rb")
        self.message()
        self.call("WebDriver:NewSession", capabilities={"alwaysMatch": {"acceptInsecureCerts": False}})
        self.call("WebDriver:SetTimeouts", script=PROMPT * 1000)

    def joined(self, port):
        end = time.monotonic() + PROMPT
        while time.monotonic() < end:
            try:
                return socket.create_connection(("127.0.0.1", port), PROMPT)
            except OSError:
                time.sleep(0.2)
        raise Lost("firefox did not start")

    def message(self):
        length = b""
        while not length.endswith(b":"):
            more = self.file.read(1)
            if not more:
                raise Lost("firefox has ended")
            length += more
        return json.loads(self.file.read(int(length[:-1])))

    def call(self, command, **params):
        self.number += 1
        text = json.dumps([0, self.number, command, params]).encode()
        self.socket.sendall(b"%d:" % len(text) + text)
        while True:
            kind, number, error, result = self.message()
            if number == self.number:
                if error:
                    raise Lost("%s: %s" % (command, error))
                return result

    def open(self, url):
        self.call("WebDriver:Navigate", url=url)

    def run(self, expression):
        script = "const done = arguments[arguments.length - 1]; (async () => (%s))().then(v => done([v]), e => done([null, String(e)]));" % expression
        got = self.call("WebDriver:ExecuteAsyncScript", script=script, args=[], newSandbox=False, sandbox=None)["value"]
        if len(got) > 1:
            raise Lost(got[1])
        return got[0]

    def element(self, css):
        got = self.call("WebDriver:FindElement", using="css selector", value=css)["value"]
        return next(iter(got.values()))

    def click(self, css):
        self.run("document.querySelector(%s).scrollIntoView({ block: 'center' })" % json.dumps(css))
        self.call("WebDriver:ElementClick", id=self.element(css))

    def key(self, css, key):
        self.run("document.querySelector(%s).focus()" % json.dumps(css))
        self.press(key)

    def pointed(self, kind, actions):
        self.call("WebDriver:PerformActions", actions=[{"type": "pointer", "id": kind, "parameters": {"pointerType": kind}, "actions": actions}])
        self.call("WebDriver:ReleaseActions")

    def tap(self, x, y):
        self.pointed("touch", [{"type": "pointerMove", "x": round(x), "y": round(y)}, {"type": "pointerDown", "button": 0}, {"type": "pointerUp", "button": 0}])

    def drag(self, spots, touch):
        """Drags by a mouse or a finger along these places of the window."""
        moves = [{"type": "pointerMove", "x": round(x), "y": round(y), "duration": 20} for x, y in spots]
        self.pointed("touch" if touch else "mouse", [moves[0], {"type": "pointerDown", "button": 0}, *moves[1:], {"type": "pointerUp", "button": 0}])

    def press(self, key):
        value = {"Enter": "\ue007", "ArrowLeft": "\ue012", "ArrowRight": "\ue014", "PageUp": "\ue00e", "PageDown": "\ue00f", "Tab": "\ue004"}.get(key, key)
        actions = [{"type": "keyDown", "value": value}, {"type": "keyUp", "value": value}]
        self.call("WebDriver:PerformActions", actions=[{"type": "key", "id": "keys", "actions": actions}])

    def choose(self, css, path):
        self.call("WebDriver:ElementSendKeys", id=self.element(css), text=str(path))

    def drop(self, css, path):
        data = base64.b64encode(pathlib.Path(path).read_bytes()).decode()
        self.run("(() => { const bytes = Uint8Array.from(atob(%s), c => c.charCodeAt(0)); const carried = new DataTransfer();"
                 " carried.items.add(new File([bytes], %s)); document.querySelector(%s).dispatchEvent(new DragEvent('drop',"
                 " { dataTransfer: carried, bubbles: true, cancelable: true })); })()" % (json.dumps(data), json.dumps(pathlib.Path(path).name), json.dumps(css)))

    def size(self, width, height):
        self.call("WebDriver:SetWindowRect", width=width, height=height)

    def picture(self, path):
        got = self.call("WebDriver:TakeScreenshot", full=False)["value"]
        pathlib.Path(path).write_bytes(base64.b64decode(got))


BROWSERS = {"chromium": Chromium, "firefox": Firefox}
