"""Two browsers, driven without packages: Chromium by its debugging pipe, Firefox by Marionette. Both open a file,
evaluate an expression in it, press keys, take another size and a picture, and tell what went wrong in the page."""
import base64
import json
import os
import shutil
import socket
import subprocess
import tempfile
import time

# The seconds that a page may take until it says that it is ready, and a browser until it answers at all.
PATIENCE = 300
SHIFT = 8
QUIET = {"stdin": subprocess.DEVNULL, "stdout": subprocess.DEVNULL, "stderr": subprocess.DEVNULL}
READY = "document.body && document.body.dataset.ready || ''"


class Failed(Exception):
    """What a browser says that it couldn't do."""


class Browser:
    """What both have in common. A suite gives it `looks`, an object in JavaScript whose functions look at a page."""

    looks = "{}"

    def until_ready(self):
        """Waits until the page says that it is shown."""
        end = time.time() + PATIENCE
        while time.time() < end:
            if self.js(READY) == "1":
                return
            time.sleep(0.02)
        raise Failed(f"the page isn't ready: {self.faults()}")

    def look(self, name, *values):
        """What a function of `looks` gives."""
        return self.js(f"({self.looks}).{name}({', '.join(json.dumps(it) for it in values)})")

    def end(self):
        """Waits for the browser's end, and removes what it kept."""
        try:
            self.process.wait(30)
        except subprocess.TimeoutExpired:
            self.process.kill()
            self.process.wait()
        shutil.rmtree(self.folder, ignore_errors=True)


class Chromium(Browser):
    """Chromium, with pipes as its file descriptors 3 and 4 for messages that end in a zero byte."""

    name = "chromium"
    WORDS = (
        "--headless=new",
        "--no-sandbox",
        "--disable-gpu",
        "--disable-dev-shm-usage",
        "--no-first-run",
        "--hide-scrollbars",
        "--disable-background-networking",
        "--remote-debugging-pipe",
    )

    def __init__(self, program, width=1280, height=800):
        self.folder = tempfile.mkdtemp()
        read, self.out = os.pipe()
        self.into, write = os.pipe()

        def hand_over():
            os.dup2(read, 203), os.dup2(write, 204)
            os.dup2(203, 3), os.dup2(204, 4)

        self.process = subprocess.Popen(
            [program, *self.WORDS, f"--user-data-dir={self.folder}", "about:blank"],
            preexec_fn=hand_over,
            close_fds=False,
            **QUIET,
        )
        os.close(read), os.close(write)
        self.number, self.kept, self.events, self.session = 0, b"", [], None
        page = next(it for it in self.call("Target.getTargets")["targetInfos"] if it["type"] == "page")
        self.session = self.call("Target.attachToTarget", targetId=page["targetId"], flatten=True)["sessionId"]
        for domain in ("Page", "Runtime", "Log", "Network"):
            self.call(f"{domain}.enable")
        self.size(width, height)

    def message(self):
        """The next message."""
        while b"\0" not in self.kept:
            got = os.read(self.into, 1 << 20)
            if not got:
                raise Failed("the browser ended")
            self.kept += got
        message, _, self.kept = self.kept.partition(b"\0")
        return json.loads(message)

    def call(self, method, **parameters):
        """Calls a method of the protocol; events that come meanwhile are kept."""
        self.number += 1
        request = {"id": self.number, "method": method, "params": parameters}
        if self.session:
            request["sessionId"] = self.session
        left = json.dumps(request).encode() + b"\0"
        while left:
            left = left[os.write(self.out, left) :]
        while True:
            answer = self.message()
            if answer.get("id") == self.number:
                if "error" in answer:
                    raise Failed(answer["error"])
                return answer["result"]
            self.events.append(answer)

    def size(self, width, height):
        """Gives the window another size."""
        self.call("Emulation.setDeviceMetricsOverride", width=width, height=height, deviceScaleFactor=1, mobile=False)

    def open(self, path, anchor=""):
        """Opens a file, and waits for it."""
        self.events.clear()
        self.call("Page.navigate", url="about:blank")
        self.call("Page.navigate", url=f"file://{path}{anchor}")
        self.until_ready()

    def js(self, expression):
        """The value of an expression in the page."""
        result = self.call("Runtime.evaluate", expression=expression, returnByValue=True)
        if "exceptionDetails" in result:
            raise Failed(result["exceptionDetails"])
        return result["result"].get("value")

    def key(self, key, shift=False):
        """Presses a key."""
        code = {"ArrowLeft": 37, "ArrowRight": 39, "Home": 36, "End": 35, "Enter": 13,
                "Tab": 9, "Escape": 27}.get(key) or ord(key.upper())
        for kind in ("keyDown", "keyUp"):
            text = {"text": key} if len(key) == 1 and kind == "keyDown" else {}
            self.call("Input.dispatchKeyEvent", type=kind, key=key, windowsVirtualKeyCode=code,
                      modifiers=SHIFT * shift, **text)

    def picture(self, path):
        """Writes what is seen to a PNG file."""
        with open(path, "wb") as file:
            file.write(base64.b64decode(self.call("Page.captureScreenshot", format="png")["data"]))

    def faults(self):
        """Errors and refusals that the page or the browser told since the page was opened."""
        return [it["params"] for it in self.events if it["method"] in ("Runtime.exceptionThrown", "Log.entryAdded")]

    def requests(self):
        """What was asked for since the page was opened."""
        return [it["params"]["request"]["url"] for it in self.events if it["method"] == "Network.requestWillBeSent"]

    def unnamed(self):
        """The roles of what a screen reader would meet without a name."""
        nodes = self.call("Accessibility.getFullAXTree")["nodes"]
        roles = ("button", "slider", "textbox", "image", "table", "combobox", "checkbox", "region")
        return [
            it["role"]["value"]
            for it in nodes
            if not it.get("ignored") and it["role"]["value"] in roles and not it.get("name", {}).get("value")
        ]

    def close(self):
        """Ends the browser."""
        try:
            self.call("Browser.close")
        except (Failed, OSError):
            pass
        os.close(self.out), os.close(self.into)
        self.end()


class Firefox(Browser):
    """Firefox, whose messages go over a socket with their length before them."""

    name = "firefox-esr"
    KEYS = {"ArrowLeft": "\ue012", "ArrowRight": "\ue014", "Home": "\ue011", "End": "\ue010", "Enter": "\ue007",
            "Tab": "\ue004", "Escape": "\ue00c"}

    def __init__(self, program, width=1280, height=800):
        self.folder = tempfile.mkdtemp()
        with open(f"{self.folder}/user.js", "w", encoding="ascii") as file:
            file.write(
                'user_pref("marionette.port", 0);\n'
                'user_pref("datareporting.policy.dataSubmissionEnabled", false);\n'
                'user_pref("browser.shell.checkDefaultBrowser", false);\n'
                'user_pref("network.captive-portal-service.enabled", false);\n'
            )
        self.process = subprocess.Popen(
            [program, "--headless", "--marionette", "--no-remote", "--profile", self.folder],
            env={**os.environ, "HOME": self.folder, "MOZ_HEADLESS_WIDTH": "3000", "MOZ_HEADLESS_HEIGHT": "2000"},
            **QUIET,
        )
        self.socket, self.kept, self.number = self.connect(), b"", 0
        self.message()
        self.call("WebDriver:NewSession", capabilities={})
        self.size(width, height)

    def connect(self):
        """The socket at the port that the browser chose."""
        end = time.time() + PATIENCE
        while time.time() < end:
            try:
                with open(f"{self.folder}/MarionetteActivePort", encoding="ascii") as file:
                    return socket.create_connection(("127.0.0.1", int(file.read())), PATIENCE)
            except (OSError, ValueError):
                time.sleep(0.1)
        self.process.kill()
        raise Failed("Firefox opens no port")

    def message(self):
        """The next message."""
        while b":" not in self.kept:
            self.kept += self.socket.recv(1 << 16)
        length, _, self.kept = self.kept.partition(b":")
        while len(self.kept) < int(length):
            self.kept += self.socket.recv(1 << 20)
        message, self.kept = self.kept[: int(length)], self.kept[int(length) :]
        return json.loads(message)

    def call(self, method, **parameters):
        """Calls a command, and returns what it gives."""
        self.number += 1
        request = json.dumps([0, self.number, method, parameters]).encode()
        self.socket.sendall(f"{len(request)}:".encode() + request)
        _, _, error, result = self.message()
        if error:
            raise Failed(f"{method}: {error.get('message')}")
        return result.get("value") if isinstance(result, dict) and "value" in result else result

    def size(self, width, height):
        """Gives the window a size whose inside is as wide and high."""
        self.call("WebDriver:SetWindowRect", width=width, height=height)
        inside = self.js("[innerWidth, innerHeight]")
        self.call("WebDriver:SetWindowRect", width=2 * width - inside[0], height=2 * height - inside[1])

    def open(self, path, anchor=""):
        """Opens a file, and waits for it."""
        self.call("WebDriver:Navigate", url="about:blank")
        self.call("WebDriver:Navigate", url=f"file://{path}{anchor}")
        self.until_ready()

    def js(self, expression):
        """The value of an expression in the page."""
        return self.call("WebDriver:ExecuteScript", script=f"return ({expression})", args=[], sandbox=None)

    def key(self, key, shift=False):
        """Presses a key."""
        value = self.KEYS.get(key, key)
        around = (lambda it: [{"type": it, "value": "\ue008"}]) if shift and value != key else lambda it: []
        presses = [*around("keyDown"), {"type": "keyDown", "value": value}, {"type": "keyUp", "value": value},
                   *around("keyUp")]
        self.call("WebDriver:PerformActions", actions=[{"type": "key", "id": "keyboard", "actions": presses}])

    def picture(self, path):
        """Writes what is seen to a PNG file."""
        with open(path, "wb") as file:
            file.write(base64.b64decode(self.call("WebDriver:TakeScreenshot", full=False, hash=False)))

    def faults(self):
        """Firefox tells them to nobody here; a page whose script stops isn't ready."""
        return []

    def close(self):
        """Ends the browser."""
        try:
            self.call("Marionette:Quit", flags=["eForceQuit"])
        except (Failed, OSError):
            pass
        self.socket.close()
        self.end()
