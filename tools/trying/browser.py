"""A browser without a screen, driven over its own protocol by two pipes: Debian's chromium-headless-shell, or chromium."""
import contextlib
import fcntl
import json
import os
import select
import shutil
import subprocess
import tempfile
import time

NAMES = ("chromium-headless-shell", "chromium")
SECONDS = 30
KEYS = {"Tab": 9, "Enter": 13, "ArrowDown": 40, "ArrowUp": 38, "Home": 36, "End": 35, "Escape": 27, " ": 32}


class Browser:
    def __init__(self):
        self.folder = tempfile.TemporaryDirectory()
        name = next(name for name in NAMES if shutil.which(name))
        (low, out), (taken, high) = os.pipe(), os.pipe()
        given, answers = (fcntl.fcntl(end, fcntl.F_DUPFD_CLOEXEC, 10) for end in (low, high))
        os.close(low)
        os.close(high)
        # It reads what it is told at 3, and answers at 4. As a browser with a screen does, it has a process for each origin.
        command = ["bash", "-c", f"exec \"$@\" 3<&{given} 4>&{answers} {given}<&- {answers}>&-", "bash", name, "--headless", "--no-sandbox",
                   "--remote-debugging-pipe", "--disable-gpu", "--disable-dev-shm-usage", "--no-first-run", "--hide-scrollbars",
                   "--site-per-process", "--disable-background-networking", "--disable-component-update",
                   f"--user-data-dir={self.folder.name}", "about:blank"]
        self.process = subprocess.Popen(command, pass_fds=(given, answers), stdin=subprocess.DEVNULL, stdout=subprocess.DEVNULL,
                                        stderr=subprocess.DEVNULL, start_new_session=True)
        os.close(given)
        os.close(answers)
        self.out, self.taken, self.number, self.rest, self.events, self.session = out, taken, 0, b"", [], None

    def close(self):
        with contextlib.suppress(ProcessLookupError):
            os.killpg(self.process.pid, 9)
        self.process.wait()
        os.close(self.out)
        os.close(self.taken)
        self.folder.cleanup()

    def messages(self, end):
        """The next whole messages."""
        while b"\0" not in self.rest:
            if not select.select([self.taken], [], [], max(end - time.monotonic(), 0))[0]:
                raise TimeoutError("the browser doesn't answer")
            piece = os.read(self.taken, 1 << 20)
            if not piece:
                raise EOFError("the browser has ended")
            self.rest += piece
        *whole, self.rest = self.rest.split(b"\0")
        return [json.loads(each) for each in whole]

    def ask(self, method, **given):
        self.number += 1
        asked = {"id": self.number, "method": method, "params": given} | ({"sessionId": self.session} if self.session else {})
        os.write(self.out, json.dumps(asked).encode() + b"\0")
        end, answer = time.monotonic() + SECONDS, None
        while answer is None:
            for message in self.messages(end):
                if message.get("id") == self.number:
                    answer = message
                elif "method" in message:
                    self.events.append(message)
        if "error" in answer:
            raise RuntimeError(f"{method}: {answer['error']['message']}")
        return answer["result"]

    def open(self, address):
        """A new page of this address; what it asks for and what goes wrong is kept in `events`."""
        self.session = None
        target = self.ask("Target.createTarget", url="about:blank")["targetId"]
        self.session = self.ask("Target.attachToTarget", targetId=target, flatten=True)["sessionId"]
        for domain in ("Page", "Runtime", "Network", "Log"):
            self.ask(f"{domain}.enable")
        self.window(1280, 900)
        self.go(address)

    def go(self, address):
        self.ask("Page.navigate", url=address)
        self.until("document.documentElement.dataset.ready === 'yes'")

    def window(self, width, height):
        self.ask("Emulation.setDeviceMetricsOverride", width=width, height=height, deviceScaleFactor=1, mobile=False)

    def dark(self, is_dark):
        self.ask("Emulation.setEmulatedMedia", features=[{"name": "prefers-color-scheme", "value": "dark" if is_dark else "light"}])

    def value(self, expression):
        told = self.ask("Runtime.evaluate", expression=expression, returnByValue=True, awaitPromise=True)
        if "exceptionDetails" in told:
            raise RuntimeError(f"{expression}: {told['exceptionDetails'].get('exception', {}).get('description')}")
        return told["result"].get("value")

    def until(self, expression):
        """Waits until the expression holds."""
        end = time.monotonic() + SECONDS
        while True:
            with contextlib.suppress(RuntimeError):  # a page that is being left
                if self.value(f"Boolean({expression})"):
                    return
            if time.monotonic() > end:
                raise TimeoutError(f"never: {expression}")
            time.sleep(0.02)

    def click(self, selector):
        """Presses the mouse in the middle of the element, and again where an answer that came in between has moved it away."""
        element = f"document.querySelector({json.dumps(selector)})"
        end = time.monotonic() + SECONDS
        while time.monotonic() < end:
            place = self.value(f"(() => {{ const e = {element}; e.scrollIntoView({{block: 'center'}}); const b = e.getBoundingClientRect();"
                               "const told = document.documentElement.dataset; told.clicked = 'no';"
                               "e.addEventListener('click', () => { told.clicked = 'yes'; }, {capture: true, once: true});"
                               "return [b.x + b.width / 2, b.y + b.height / 2]; })()")
            for kind in ("mousePressed", "mouseReleased"):
                self.ask("Input.dispatchMouseEvent", type=kind, x=place[0], y=place[1], button="left", clickCount=1)
            try:
                missed = self.value("document.documentElement.dataset.clicked") == "no"
            except RuntimeError:
                missed = False  # a page that is being left
            if not missed:
                return
        raise TimeoutError(f"never clicked: {selector}")

    def key(self, key, control=False):
        given = {"key": key, "windowsVirtualKeyCode": KEYS[key], "modifiers": 2 if control else 0}
        text = {"Enter": "\r", " ": " "}.get(key)
        self.ask("Input.dispatchKeyEvent", type="keyDown", **given, **({"text": text} if text and not control else {}))
        self.ask("Input.dispatchKeyEvent", type="keyUp", **given)

    def type(self, text):
        self.ask("Input.insertText", text=text)
