"""Browsers for tests, without other packages: Chromium by way of chromedriver, and Firefox by the protocol that it speaks itself.

A browser starts without a window, in a folder of its own, and ends at the end of `with`. Both take the commands of WebDriver.
"""
import base64
import contextlib
import json
import os
import re
import shutil
import socket
import subprocess
import time
import urllib.error
import urllib.request

from harness import differs

KEYS = {"Enter": "\ue007", "Escape": "\ue00c", "PageUp": "\ue00e", "PageDown": "\ue00f", "End": "\ue010", "Home": "\ue011",
        "ArrowLeft": "\ue012", "ArrowUp": "\ue013", "ArrowRight": "\ue014", "ArrowDown": "\ue015", "Tab": "\ue004", "Control": "\ue009"}
# how long a command and the start of a browser may take, and what a page should do, in seconds: much, as the machine may have other work
SECONDS, SOON = 600, 300
WIDTH, HEIGHT = 1400, 1143


def comes(what, find, expected, seconds=SOON):
    """Waits until something is as expected, since a browser follows a key, an address, a wheel or a preference when it likes. Returns
    what is wrong where it never is."""
    end = time.monotonic() + seconds
    while (found := find()) != expected and time.monotonic() < end:
        time.sleep(0.02)
    return differs(found, expected, what)


class Browser:
    """What both have in common. `command` sends a command of WebDriver and returns its result."""

    def run(self, script, *arguments):
        """Returns what a script returns; a promise is waited for."""
        return self.command("ExecuteScript", "POST", "execute/sync", {"script": script, "args": arguments})

    def settle(self):
        """Sets how long scripts and pages may take, and the size of the window."""
        self.command("SetTimeouts", "POST", "timeouts", {"script": SECONDS * 1000, "pageLoad": SECONDS * 1000})
        self.command("SetWindowRect", "POST", "window/rect", {"width": WIDTH, "height": HEIGHT})

    def open(self, address):
        self.command("Navigate", "POST", "url", {"url": address})

    def act(self, *sources):
        self.command("PerformActions", "POST", "actions", {"actions": list(sources)})

    def press(self, *keys):
        """Presses keys one after another, each a letter or a name."""
        actions = [{"type": kind, "value": KEYS.get(key, key)} for key in keys for kind in ("keyDown", "keyUp")]
        self.act({"type": "key", "id": "keys", "actions": actions})

    def click(self, x, y):
        self.point(x, y, {"type": "pointerDown", "button": 0}, {"type": "pointerUp", "button": 0})

    def point(self, x, y, *then):
        move = {"type": "pointerMove", "x": int(x), "y": int(y), "duration": 0}
        self.act({"type": "pointer", "id": "mouse", "actions": [move, *then]})

    def wheel(self, x, y, down):
        """Turns the wheel while the control key is held."""
        wait, (held, free) = {"type": "pause", "duration": 0}, ({"type": kind, "value": KEYS["Control"]} for kind in ("keyDown", "keyUp"))
        turn = {"type": "scroll", "x": int(x), "y": int(y), "deltaX": 0, "deltaY": down, "duration": 0}
        self.act({"type": "key", "id": "keys", "actions": [held, wait, free]}, {"type": "wheel", "id": "wheel", "actions": [wait, turn]})

    def resize(self, width, height, zoom=1):
        """Shows pages as in a window of this size, at this zoom."""
        raise NotImplementedError

    def picture(self):
        return base64.b64decode(self.command("TakeScreenshot", "GET", "screenshot", None))

    def darken(self, is_dark):
        """Sets whether a reader prefers the dark, and waits until the page has drawn itself so."""
        self.prefer_dark(is_dark)
        self.run("""const isDark = arguments[0], frame = () => new Promise(requestAnimationFrame);
            const agrees = () => matchMedia("(prefers-color-scheme: dark)").matches === isDark;
            return (async () => { do { await frame(); await frame(); } while (!agrees()); await frame(); return 1; })()""", is_dark)

    def prefer_dark(self, is_dark):
        """Sets whether a reader prefers the dark; the page may learn of it later."""
        raise NotImplementedError

    def printed(self):
        """Returns a PDF file of the page."""
        options = {"orientation": "landscape", "background": True}
        return base64.b64decode(self.command("Print", "POST", "print", options))


class Chromium(Browser):
    NEEDS = ("chromium", "chromedriver")

    def __init__(self, folder):
        self.driver = subprocess.Popen(["chromedriver", "--port=0"], stdout=subprocess.PIPE, stderr=subprocess.DEVNULL, encoding="utf-8")
        port = next(found[1] for line in self.driver.stdout for found in [re.search(r"successfully on port (\d+)", line)] if found)
        self.address = f"http://127.0.0.1:{port}/session"
        words = ["--headless=new", "--no-sandbox", "--disable-gpu", "--disable-dev-shm-usage", f"--user-data-dir={folder}",
                 f"--window-size={WIDTH},{HEIGHT}", "--disable-background-networking", "--force-color-profile=srgb"]
        capabilities = {"alwaysMatch": {"browserName": "chrome", "goog:chromeOptions": {"binary": shutil.which("chromium"), "args": words},
                                        "goog:loggingPrefs": {"browser": "ALL"}}}
        try:
            self.address += "/" + self.request("POST", "", {"capabilities": capabilities})["sessionId"]
        except (OSError, RuntimeError):
            self.driver.terminate()
            raise
        self.settle()
        self.chrome("Page.setDownloadBehavior", behavior="allow", downloadPath=folder)
        self.downloads = folder

    def chrome(self, name, **parameters):
        """Sends a command of Chromium's own protocol."""
        return self.request("POST", "/goog/cdp/execute", {"cmd": name, "params": parameters})

    def resize(self, width, height, zoom=1):
        size = {"width": width // zoom, "height": height // zoom, "deviceScaleFactor": zoom, "mobile": False}
        self.chrome("Emulation.setDeviceMetricsOverride", **size)

    def printed(self):
        # its own command, since that of WebDriver has a limit of ten seconds
        return base64.b64decode(self.chrome("Page.printToPDF", landscape=True, printBackground=True, preferCSSPageSize=True)["data"])

    def request(self, method, path, body):
        data = None if body is None else json.dumps(body).encode()
        request = urllib.request.Request(self.address + path, data, {"Content-Type": "application/json"}, method=method)
        try:
            with urllib.request.urlopen(request, timeout=SECONDS) as answer:
                return json.load(answer)["value"]
        except urllib.error.HTTPError as fault:
            raise RuntimeError(json.load(fault)["value"]["message"]) from fault

    def command(self, _, method, path, body):
        return self.request(method, "/" + path, body)

    def prefer_dark(self, is_dark):
        self.prefer("prefers-color-scheme", "dark" if is_dark else "light")

    def prefer(self, name, value):
        """Sets what a reader prefers."""
        self.chrome("Emulation.setEmulatedMedia", features=[{"name": name, "value": value}])

    def close(self):
        with contextlib.suppress(OSError, RuntimeError):
            self.request("DELETE", "", None)
        self.driver.terminate()
        self.driver.wait(SECONDS)
        self.driver.stdout.close()


class Firefox(Browser):
    NEEDS = ("firefox",)

    def __init__(self, folder):
        with open(os.path.join(folder, "user.js"), "w", encoding="utf-8") as file:
            file.write('user_pref("marionette.port", 0);\nuser_pref("datareporting.policy.dataSubmissionEnabled", false);\n'
                       'user_pref("app.update.enabled", false);\nuser_pref("browser.shell.checkDefaultBrowser", false);\n'
                       'user_pref("browser.download.folderList", 2);\nuser_pref("browser.download.alwaysOpenPanel", false);\n'
                       f'user_pref("browser.download.dir", "{folder}");\n'
                       # where a page answers late, the wheel would zoom it
                       'user_pref("mousewheel.with_control.action", 0);\n')
        self.downloads = folder
        words = ["firefox", "--headless", "--marionette", "--no-remote", "--remote-allow-system-access", "--profile", folder]
        environment = {**os.environ, "HOME": folder, "MOZ_HEADLESS_WIDTH": str(WIDTH), "MOZ_HEADLESS_HEIGHT": str(HEIGHT)}
        self.browser = subprocess.Popen(words, stdout=subprocess.DEVNULL, stderr=subprocess.DEVNULL, env=environment)
        place, until = os.path.join(folder, "MarionetteActivePort"), time.monotonic() + SECONDS
        while not os.path.exists(place) or not os.path.getsize(place):
            if time.monotonic() > until or self.browser.poll() is not None:
                self.browser.kill()
                raise RuntimeError("Firefox doesn't start")
            time.sleep(0.05)
        with open(place, encoding="ascii") as file:
            self.socket = socket.create_connection(("127.0.0.1", int(file.read())), SECONDS)
        self.count = 0
        self.receive()
        self.send("WebDriver:NewSession", {})
        self.settle()

    def receive(self):
        size = b""
        while not size.endswith(b":"):
            size += self.read(1)
        data = b""
        while len(data) < int(size[:-1]):
            data += self.read(int(size[:-1]) - len(data))
        return json.loads(data)

    def read(self, most):
        held = self.socket.recv(most)
        if not held:
            raise RuntimeError("Firefox has ended")
        return held

    def send(self, name, parameters):
        self.count += 1
        packet = json.dumps([0, self.count, name, parameters]).encode()
        self.socket.sendall(b"%d:%s" % (len(packet), packet))
        answered = 0
        while answered != self.count:  # or it answers a command that wasn't waited for
            _, answered, fault, result = self.receive()
        if fault:
            raise RuntimeError(fault["message"])
        return result.get("value", result) if isinstance(result, dict) else result

    def command(self, name, _, __, body):
        if name == "ExecuteScript":
            body = {**body, "sandbox": None}
        return self.send("WebDriver:" + name, {"full": False} if body is None else body)

    def chrome(self, script, *arguments):
        """Runs a script in the window of the browser itself."""
        self.send("Marionette:SetContext", {"value": "chrome"})
        try:
            return self.run(script, *arguments)
        finally:
            self.send("Marionette:SetContext", {"value": "content"})

    def prefer_dark(self, is_dark):
        self.chrome(f"Services.prefs.setIntPref('layout.css.prefers-color-scheme.content-override', {0 if is_dark else 1})")

    def resize(self, width, height, zoom=1):
        # the window can't be as narrow as a phone, so there the page is made larger
        scale = 2 if width < 500 else zoom
        self.chrome("gBrowser.selectedBrowser.fullZoom = arguments[0]", scale)
        frame = self.chrome("""const it = gBrowser.selectedBrowser.getBoundingClientRect();
            return [window.outerWidth - it.width, window.outerHeight - it.height]""")
        sizes = [int(size * scale / zoom + more) for size, more in zip((width, height), frame)]
        self.command("SetWindowRect", "POST", "window/rect", dict(zip(("width", "height"), sizes)))

    def close(self):
        with contextlib.suppress(OSError, RuntimeError, ValueError):
            self.send("Marionette:Quit", {"flags": ["eForceQuit"]})
        self.socket.close()
        with contextlib.suppress(subprocess.TimeoutExpired):
            self.browser.wait(10)
        self.browser.kill()
        self.browser.wait()
