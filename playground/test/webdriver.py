"""A browser driven over WebDriver's HTTP, with python's own library only."""
import base64
import json
import shutil
import socket
import subprocess
import tempfile
import time
import urllib.error
import urllib.request

ELEMENT = "element-6066-11e4-a52e-4f735466cecf"
PATIENCE = 30


class Keys:
    ENTER, TAB, SPACE, BACKSPACE = "\ue007", "\ue004", " ", "\ue003"
    HOME, END, UP, DOWN, LEFT, RIGHT = "\ue011", "\ue010", "\ue013", "\ue015", "\ue012", "\ue014"
    CONTROL, SHIFT, NULL = "\ue009", "\ue008", "\ue000"


class Failed(Exception):
    pass


def free_port():
    with socket.socket() as place:
        place.bind(("127.0.0.1", 0))
        return place.getsockname()[1]


class Browser:
    """One window of Chromium without a screen, with a profile of its own."""

    def __init__(self, width=1280, height=900, dark=False):
        self.port = free_port()
        self.folder = tempfile.mkdtemp(prefix="playground-")
        driver = shutil.which("chromedriver")
        self.driver = subprocess.Popen([driver, f"--port={self.port}"], stdout=subprocess.DEVNULL, stderr=subprocess.DEVNULL)
        self.session = None
        self.begin(width, height, dark)

    def begin(self, width, height, dark):
        words = ["--headless=new", "--no-sandbox", "--disable-gpu", "--hide-scrollbars", "--force-device-scale-factor=1",
                 f"--window-size={width},{height}", f"--user-data-dir={self.folder}/profile", "--disable-dev-shm-usage"]
        options = {"args": words, "binary": shutil.which("chromium"),
                   "prefs": {"download.default_directory": self.folder, "download.prompt_for_download": False}}
        wanted = {"capabilities": {"alwaysMatch": {"browserName": "chrome", "goog:chromeOptions": options, "goog:loggingPrefs": {"browser": "ALL"}}}}
        end = time.monotonic() + PATIENCE
        while True:
            try:
                self.session = self.ask("POST", "/session", wanted)["sessionId"]
                break
            except (urllib.error.URLError, ConnectionError):
                if time.monotonic() > end:
                    raise
                time.sleep(0.1)
        self.scheme(dark)
        self.size(width, height)

    def ask(self, method, path, given=None):
        url = f"http://127.0.0.1:{self.port}{path if self.session is None else f'/session/{self.session}{path}'}"
        body = None if method == "GET" else json.dumps(given or {}).encode()
        request = urllib.request.Request(url, body, {"Content-Type": "application/json"}, method=method)
        try:
            with urllib.request.urlopen(request, timeout=180) as answer:
                return json.load(answer)["value"]
        except urllib.error.HTTPError as error:
            value = json.load(error)["value"]
            raise Failed(f"{value['error']}: {value['message'].splitlines()[0]}") from None

    def close(self):
        try:
            self.ask("DELETE", "")
        except (Failed, OSError):
            pass
        self.driver.terminate()
        self.driver.wait()
        shutil.rmtree(self.folder, ignore_errors=True)

    # The window.

    def devtools(self, command, **given):
        return self.ask("POST", "/goog/cdp/execute", {"cmd": command, "params": given})

    def size(self, width, height):
        self.devtools("Emulation.setDeviceMetricsOverride", width=width, height=height, deviceScaleFactor=1, mobile=False)

    def scheme(self, dark):
        self.devtools("Emulation.setEmulatedMedia", features=[{"name": "prefers-color-scheme", "value": "dark" if dark else "light"}])

    def go(self, url):
        self.ask("POST", "/url", {"url": url})

    def reload(self):
        self.ask("POST", "/refresh")

    def picture(self):
        """All of the page, as high as it is, as a PNG."""
        view = self.devtools("Page.getLayoutMetrics")["cssContentSize"]
        clip = {"x": 0, "y": 0, "width": view["width"], "height": view["height"], "scale": 1}
        shot = self.devtools("Page.captureScreenshot", format="png", captureBeyondViewport=True, clip=clip)
        return base64.b64decode(shot["data"])

    def console(self):
        return [line for line in self.ask("POST", "/se/log", {"type": "browser"}) if line["level"] in ("SEVERE", "WARNING")]

    # What is on it.

    def run(self, script, *given):
        return self.ask("POST", "/execute/sync", {"script": script, "args": list(given)})

    def run_later(self, script, *given):
        return self.ask("POST", "/execute/async", {"script": script, "args": list(given)})

    def find(self, css):
        return self.ask("POST", "/element", {"using": "css selector", "value": css})[ELEMENT]

    def click(self, css):
        self.ask("POST", f"/element/{self.find(css)}/click")

    def type(self, css, words):
        self.ask("POST", f"/element/{self.find(css)}/value", {"text": words})

    def press(self, *keys):
        """Keys pressed wherever the focus is; a tuple is held together."""
        moves = []
        for key in keys:
            held = key if isinstance(key, tuple) else (key,)
            moves += [{"type": "keyDown", "value": one} for one in held] + [{"type": "keyUp", "value": one} for one in reversed(held)]
        self.ask("POST", "/actions", {"actions": [{"type": "key", "id": "keyboard", "actions": moves}]})

    def text(self, css):
        return self.run("return document.querySelector(arguments[0])?.innerText ?? null", css)

    def value(self, css):
        return self.run("return document.querySelector(arguments[0]).value", css)

    def wait(self, script, *given, why="it did not come"):
        """Waits until a script gives something that is true."""
        end = time.monotonic() + PATIENCE
        while time.monotonic() < end:
            found = self.run(script, *given)
            if found:
                return found
            time.sleep(0.02)
        raise Failed(f"{why}: {script}")
