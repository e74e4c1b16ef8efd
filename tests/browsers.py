"""Chromium and Firefox without a window, each with one page, driven by their own protocols.

That is Chromium's over a pipe, and Firefox's Marionette over a socket.
"""
import json
import os
import re
import shutil
import socket
import subprocess
import tempfile
import threading
import time
from pathlib import Path

# How long a page may take to be ready, and a browser to be asked all.
SECONDS, MOST_SECONDS = 60, 900
IS_READY = 'document.body?.dataset.ready === "yes" || !(document.getElementById("fault")?.hidden ?? true)'
# The first Firefox with a memory of 64 bits for WebAssembly.
FIREFOX = 134


def found(*names):
    """The first of these programs that is on the path."""
    return next(filter(None, map(shutil.which, names)), None)


class Browser:
    """What can be done with a page of either browser; `told` has what was told on its console of errors."""

    def start(self, words, **how):
        self.rest, self.number = b"", 0
        quiet = {"stdin": subprocess.DEVNULL, "stdout": subprocess.DEVNULL, "stderr": subprocess.DEVNULL}
        self.process = subprocess.Popen(words, **quiet, **how)
        self.limit = threading.Timer(MOST_SECONDS, self.process.kill)
        self.limit.daemon = True
        self.limit.start()

    def more(self, piece):
        """Keeps bytes that came from the browser."""
        if not piece:
            raise OSError("the browser has ended")
        self.rest += piece

    def wait(self, code, seconds=SECONDS):
        """Waits until an expression holds, and returns whether it did."""
        end = time.monotonic() + seconds
        while not self.run(code):
            if time.monotonic() > end:
                return False
            time.sleep(0.05)
        return True

    def open(self, address):
        """Opens an address, and gives the page the functions of page.js."""
        self.navigate("about:blank")
        self.navigate(address)
        if not self.wait(IS_READY):
            raise OSError(f"{address} isn't ready: {self.told}")
        self.run(Path(__file__).with_name("page.js").read_text(encoding="utf-8"))

    def ask(self, name, *words):
        """What a function of page.js answers."""
        return self.run(f"asked.{name}({', '.join(map(json.dumps, words))})")

    def close(self):
        self.end()
        self.process.wait()
        self.limit.cancel()
        shutil.rmtree(self.folder, ignore_errors=True)


class Chromium(Browser):
    name = "Chromium"

    @staticmethod
    def program():
        return found("chromium", "chromium-browser", "google-chrome")

    def __init__(self):
        self.folder = tempfile.mkdtemp()
        their_in, self.to = os.pipe()
        self.back, their_out = os.pipe()

        def as_three_and_four():
            os.dup2(their_in, 90), os.dup2(their_out, 91)
            os.dup2(90, 3), os.dup2(91, 4)

        options = ["--headless=new", "--no-sandbox", "--disable-gpu", "--disable-dev-shm-usage"]
        options += ["--remote-debugging-pipe", f"--user-data-dir={self.folder}"]
        self.start([self.program(), *options, "about:blank"], preexec_fn=as_three_and_four, pass_fds=(3, 4))
        os.close(their_in), os.close(their_out)
        self.session, self.told = None, []
        target = self.call("Target.createTarget", url="about:blank")["targetId"]
        self.session = self.call("Target.attachToTarget", targetId=target, flatten=True)["sessionId"]
        for domain in ("Runtime", "Log", "Page"):
            self.call(f"{domain}.enable")

    def message(self):
        while b"\0" not in self.rest:
            self.more(os.read(self.back, 1 << 20))
        one, _, self.rest = self.rest.partition(b"\0")
        return json.loads(one)

    def call(self, method, **words):
        self.number += 1
        asked = {"id": self.number, "method": method, "params": words}
        if self.session:
            asked["sessionId"] = self.session
        os.write(self.to, json.dumps(asked).encode() + b"\0")
        while (got := self.message()).get("id") != self.number:
            self.listen(got.get("method"), got.get("params", {}))
        if "error" in got:
            raise OSError(f"{method}: {got['error']}")
        return got["result"]

    def listen(self, method, words):
        """Keeps what is told of errors."""
        if method == "Runtime.exceptionThrown":
            self.told.append(words["exceptionDetails"].get("exception", {}).get("description", str(words)))
        elif method == "Runtime.consoleAPICalled" and words["type"] in ("error", "warning", "assert"):
            self.told.append(str([it.get("value") for it in words["args"]]))
        elif method == "Log.entryAdded" and words["entry"]["level"] in ("error", "warning"):
            self.told.append(words["entry"]["text"])

    def forget(self):
        """What was told on the console up to now was to be expected."""
        self.run("0")
        self.told.clear()

    def run(self, code):
        """The value of an expression, awaited."""
        got = self.call("Runtime.evaluate", expression=code, awaitPromise=True, returnByValue=True)
        if "exceptionDetails" in got:
            raise OSError(f"{code[:80]}: {got['exceptionDetails']}")
        return got["result"].get("value")

    def navigate(self, address):
        self.call("Page.navigate", url=address)

    def size(self, wide, high):
        self.call("Emulation.setDeviceMetricsOverride", width=wide, height=high, deviceScaleFactor=1, mobile=False)

    def key(self, key):
        for kind in ("keyDown", "keyUp"):
            text = key if kind == "keyDown" and len(key) == 1 else ""
            self.call("Input.dispatchKeyEvent", type=kind, key=key, text=text)

    def click(self, x, y):
        for kind in ("mousePressed", "mouseReleased"):
            self.call("Input.dispatchMouseEvent", type=kind, x=x, y=y, button="left", clickCount=1)

    def end(self):
        self.session = None
        self.call("Browser.close")


class Firefox(Browser):
    name = "Firefox"
    keys = {"Home": "\ue011", "End": "\ue010"}

    @staticmethod
    def program():
        """Firefox, if it is on the path and has a memory of 64 bits for WebAssembly."""
        program = found("firefox", "firefox-esr")
        told = subprocess.run([program, "--version"], capture_output=True).stdout.decode() if program else ""
        version = re.search(r"(\d+)\.", told)
        return program if version and int(version[1]) >= FIREFOX else None

    def __init__(self):
        self.folder = tempfile.mkdtemp()
        settings = {"marionette.port": 0, "browser.shell.checkDefaultBrowser": False, "app.update.auto": False}
        settings["datareporting.policy.dataSubmissionEnabled"] = False
        lines = [f'user_pref("{key}", {json.dumps(value)});\n' for key, value in settings.items()]
        Path(self.folder, "user.js").write_text("".join(lines), encoding="utf-8")
        options = ["--headless", "--no-remote", "--marionette", "--remote-allow-system-access"]
        sizes = {"MOZ_HEADLESS_WIDTH": "1440", "MOZ_HEADLESS_HEIGHT": "1200"}
        words = [self.program(), *options, "--profile", self.folder, "about:blank"]
        self.start(words, env={**os.environ, "HOME": self.folder, **sizes})
        self.socket = socket.create_connection(("127.0.0.1", self.port()))
        self.message()
        limits = {"script": 1000 * MOST_SECONDS, "pageLoad": 1000 * MOST_SECONDS}
        self.call("WebDriver:NewSession", capabilities={"alwaysMatch": {"timeouts": limits}})

    def port(self):
        """The port that Firefox writes into its folder once it listens there."""
        path, end = Path(self.folder, "MarionetteActivePort"), time.monotonic() + SECONDS
        while not (path.exists() and path.stat().st_size):
            if time.monotonic() > end or self.process.poll() is not None:
                raise OSError("Firefox can't be driven")
            time.sleep(0.05)
        return int(path.read_text())

    def message(self):
        while b":" not in self.rest:
            self.more(self.socket.recv(1 << 20))
        length, _, self.rest = self.rest.partition(b":")
        while len(self.rest) < int(length):
            self.more(self.socket.recv(1 << 20))
        one, self.rest = self.rest[: int(length)], self.rest[int(length) :]
        return json.loads(one)

    def call(self, method, **words):
        self.number += 1
        asked = json.dumps([0, self.number, method, words]).encode()
        self.socket.sendall(b"%d:%s" % (len(asked), asked))
        _, _, error, result = self.message()
        if error:
            raise OSError(f"{method}: {error.get('message')} {str(words)[:200]}")
        return result

    def run(self, code):
        # The page's own variables are seen by code of its own, which 'eval' of its window is.
        script = """const [code, done] = arguments; Promise.resolve(window.eval(code)).then(
            (it) => done(JSON.stringify([it ?? null])), (fault) => done(`fault: ${fault}`));"""
        words = {"script": script, "args": [code], "sandbox": None, "newSandbox": False}
        got = self.call("WebDriver:ExecuteAsyncScript", **words)["value"]
        if got.startswith("fault"):
            raise OSError(f"{code[:80]}: {got}")
        return json.loads(got)[0]

    def navigate(self, address):
        self.call("WebDriver:Navigate", url=address)

    def size(self, wide, high):
        """The size of what a page is seen in, which is smaller than the window by what stands around it."""
        for _ in range(2):
            inner = self.run("[innerWidth, innerHeight, outerWidth, outerHeight]")
            self.call("WebDriver:SetWindowRect", width=wide + inner[2] - inner[0], height=high + inner[3] - inner[1])

    def chrome(self, script, *args):
        self.call("Marionette:SetContext", value="chrome")
        got = self.call("WebDriver:ExecuteScript", script=script, args=list(args))["value"]
        self.call("Marionette:SetContext", value="content")
        return got

    @property
    def told(self):
        is_own = "it instanceof Ci.nsIScriptError && /^(file|http):/.test(it.sourceName)"
        messages = f"Services.console.getMessageArray().filter((it) => {is_own})"
        return self.chrome(f"return {messages}.map((it) => it.errorMessage)")

    def forget(self):
        """What was told on the console up to now was to be expected."""
        self.chrome("Services.console.reset()")

    def act(self, kind, *actions, **more):
        self.call("WebDriver:PerformActions", actions=[{"type": kind, "id": kind, "actions": actions, **more}])

    def key(self, key):
        self.act("key", *({"type": kind, "value": self.keys.get(key, key)} for kind in ("keyDown", "keyUp")))

    def click(self, x, y):
        move = {"type": "pointerMove", "x": round(x), "y": round(y), "origin": "viewport"}
        press = [{"type": kind, "button": 0} for kind in ("pointerDown", "pointerUp")]
        self.act("pointer", move, *press, parameters={"pointerType": "mouse"})

    def end(self):
        self.call("Marionette:Quit", flags=["eForceQuit"])
        self.socket.close()
