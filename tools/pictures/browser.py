"""A headless Chromium that is driven through a pipe, by its DevTools protocol: no packages, no network."""
import base64
import json
import os
import select
import shutil
import subprocess
import tempfile
import time

NAMES = ("chromium", "chromium-browser", "google-chrome", "google-chrome-stable", "chrome", "headless_shell")
INSTALL = """no Chromium is here, so that no page was opened. To install one:
    Debian, Ubuntu:  apt-get install chromium          Fedora:  dnf install chromium
    macOS:           brew install --cask chromium      or name one that is here: CHROMIUM=/path/to/chrome"""


def find():
    named = os.environ.get("CHROMIUM")
    if named:
        return named if os.access(named, os.X_OK) else None
    return next((found for found in map(shutil.which, NAMES) if found), None)


class Browser:
    def __init__(self, program, width=1400, height=1000):
        self.home = tempfile.mkdtemp()
        commands, self.out = os.pipe()
        self.answers, answers = os.pipe()

        def place():
            # The browser reads commands from file 3 and writes answers to file 4.
            first, second = os.dup(commands), os.dup(answers)
            os.dup2(first, 3)
            os.dup2(second, 4)

        words = [
            program, "--headless=new", "--remote-debugging-pipe", "--disable-gpu", "--hide-scrollbars", "--no-first-run",
            f"--user-data-dir={self.home}", f"--window-size={width},{height}", "about:blank",
        ]
        if os.getuid() == 0:
            words.insert(1, "--no-sandbox")
        self.process = subprocess.Popen(
            words, stdin=subprocess.DEVNULL, stdout=subprocess.DEVNULL, stderr=subprocess.DEVNULL, close_fds=False,
            preexec_fn=place,
        )
        os.close(commands)
        os.close(answers)
        self.buffer, self.count, self.events = b"", 0, []
        target = self.call("Target.createTarget", url="about:blank", session=None)["targetId"]
        self.session = self.call("Target.attachToTarget", targetId=target, flatten=True, session=None)["sessionId"]
        self.call("Page.enable")
        self.call("Runtime.enable")
        self.call("Log.enable")

    def __enter__(self):
        return self

    def __exit__(self, *_):
        try:
            self.call("Browser.close", session=None)
            self.process.wait(10)
        except (OSError, RuntimeError, subprocess.TimeoutExpired):
            self.process.kill()
            self.process.wait()
        os.close(self.out)
        os.close(self.answers)
        shutil.rmtree(self.home, ignore_errors=True)

    def read_message(self, until):
        while b"\0" not in self.buffer:
            left = until - time.monotonic()
            if left <= 0 or not select.select([self.answers], [], [], left)[0]:
                raise RuntimeError("the browser doesn't answer")
            piece = os.read(self.answers, 1 << 20)
            if not piece:
                raise RuntimeError("the browser ended")
            self.buffer += piece
        message, self.buffer = self.buffer.split(b"\0", 1)
        return json.loads(message)

    def call(self, method, session="own", seconds=60, **parameters):
        self.count += 1
        number = self.count
        message = {"id": number, "method": method, "params": parameters}
        if session == "own":
            message["sessionId"] = self.session
        os.write(self.out, json.dumps(message).encode() + b"\0")
        until = time.monotonic() + seconds
        while True:
            answer = self.read_message(until)
            if answer.get("id") == number:
                if "error" in answer:
                    raise RuntimeError(f"{method}: {answer['error']['message']}")
                return answer.get("result", {})
            self.events.append(answer)

    def open(self, path):
        """Seconds until the page has drawn itself: its script sets the mark, and one more frame is over."""
        self.events.clear()
        begun = time.monotonic()
        self.call("Page.navigate", url="file://" + os.path.abspath(path))
        self.value(
            "new Promise((done) => { const look = () => document.documentElement?.dataset.ready"
            " ? requestAnimationFrame(() => setTimeout(done, 0, true)) : setTimeout(look, 5); look(); })"
        )
        return time.monotonic() - begun

    def value(self, expression):
        """What the expression gives in the page; of a promise what it is kept with."""
        for _ in range(200):
            try:
                found = self.call("Runtime.evaluate", expression=expression, returnByValue=True, awaitPromise=True)
            except RuntimeError as fault:
                # The page that it was asked of went while it was loaded.
                if "navigated" not in str(fault) and "context" not in str(fault):
                    raise
                time.sleep(0.02)
                continue
            if "exceptionDetails" in found:
                raise RuntimeError(str(found["exceptionDetails"].get("exception", {}).get("description", found)))
            return found["result"].get("value")
        raise RuntimeError("the page doesn't load")

    def press(self, key, code=0, text=""):
        self.call("Input.dispatchKeyEvent", type="keyDown", key=key, windowsVirtualKeyCode=code, text=text)
        self.call("Input.dispatchKeyEvent", type="keyUp", key=key, windowsVirtualKeyCode=code)

    def drawn(self):
        """Waits for the frame in which a step is drawn."""
        self.value("new Promise((done) => requestAnimationFrame(() => setTimeout(done, 0, true)))")

    def faults(self):
        """What the console shows: exceptions, what the script writes there, and what the browser has to say."""
        found = []
        for event in self.events:
            told = event.get("params", {})
            if event.get("method") == "Runtime.exceptionThrown":
                found.append(told["exceptionDetails"].get("text", ""))
            elif event.get("method") == "Runtime.consoleAPICalled":
                found.append(" ".join(str(word.get("value", word.get("description"))) for word in told["args"]))
            elif event.get("method") == "Log.entryAdded":
                found.append(told["entry"]["text"])
        return found

    def photograph(self, path, whole=True):
        found = self.call("Page.captureScreenshot", format="png", captureBeyondViewport=whole)
        with open(path, "wb") as file:
            file.write(base64.b64decode(found["data"]))
