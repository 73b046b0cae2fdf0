"""Headless Chromium, used by keys, touches and scripts, over the DevTools protocol. It is installed from Debian's packages if it
is missing."""
import base64
import fcntl
import json
import os
import shutil
import subprocess
import time

BOUND = 30  # seconds that any wait takes at most
CODES = {"Enter": 13, "Escape": 27, "Tab": 9, " ": 32, "ArrowRight": 39, "ArrowDown": 40, "F2": 113, "F3": 114, "F4": 115, "F6": 117, "F7": 118, "F8": 119, "F9": 120, "F10": 121}
CTRL, SHIFT = 2, 8
# Each text whose contrast to what it stands on is too low: 4.5, of large letters 3 (WCAG 1.4.3).
CONTRAST = """
(() => {
  const parts = color => color.match(/[\\d.]+/g).map(Number);
  const light = ([r, g, b]) => [r, g, b].map(it => it / 255).map(it => it <= 0.04045 ? it / 12.92 : ((it + 0.055) / 1.055) ** 2.4).reduce((sum, it, place) => sum + it * [0.2126, 0.7152, 0.0722][place], 0);
  const ground = it => { for (; it; it = it.parentElement) { const color = parts(getComputedStyle(it).backgroundColor); if (color[3] !== 0) return color } return [255, 255, 255] };
  const bad = [];
  for (const it of document.querySelectorAll('body *')) {
    if (![...it.childNodes].some(node => node.nodeType === 3 && node.textContent.trim()) || !it.checkVisibility({ checkVisibilityCSS: true }) || it.closest('.off, dialog:not([open])')) continue;
    const style = getComputedStyle(it), size = parseFloat(style.fontSize), large = size >= 24 || (size >= 18.66 && style.fontWeight >= 700);
    const [one, other] = [light(parts(style.color)), light(ground(it))], ratio = (Math.max(one, other) + 0.05) / (Math.min(one, other) + 0.05);
    if (ratio < (large ? 3 : 4.5)) bad.push([it.textContent.slice(0, 40), ratio]);
  }
  return bad;
})()
"""


def have_chromium():
    """Whether Chromium is there, installed now if it is not and can be."""
    if not shutil.which("chromium") and shutil.which("apt-get") and os.geteuid() == 0:
        subprocess.run(["apt-get", "install", "-y", "chromium"], stdout=subprocess.DEVNULL, timeout=600)
    return shutil.which("chromium") is not None


def pipe():
    """A pipe whose ends are no 3 and 4: those are Chromium's."""
    ends = os.pipe()
    others = [fcntl.fcntl(it, fcntl.F_DUPFD_CLOEXEC, 10) for it in ends]
    for it in ends:
        os.close(it)
    return others


class Browser:
    """A page in Chromium, by the DevTools protocol over pipes. `early` is a script that runs before those of each page. Keys come at a
    scanner's speed; without `scans` at their own moments, as they must where a key changes the address: else Chromium fails."""

    def __init__(self, folder, early="", language="en", scans=True):
        (read, self.commands), (self.events, write) = pipe(), pipe()
        words = ["chromium", "--headless=new", "--no-sandbox", "--disable-gpu", "--hide-scrollbars", "--remote-debugging-pipe", f"--user-data-dir={folder}", f"--lang={language}", f"--accept-lang={language}"]
        shell = ["bash", "-c", f'exec "$@" 3<&{read} 4>&{write}', "bash", *words]
        self.process = subprocess.Popen(shell, pass_fds=(read, write), stdout=subprocess.DEVNULL, stderr=subprocess.DEVNULL, env={**os.environ, "LANGUAGE": language})
        os.close(read)
        os.close(write)
        self.number, self.rest, self.session, self.faults, self.early, self.moment, self.scans = 0, b"", None, [], early, time.time(), scans
        self.tab()

    def tab(self):
        """Opens an empty tab, and goes on with it."""
        self.session = None
        self.target = self.call("Target.createTarget", url="about:blank")["targetId"]
        self.session = self.call("Target.attachToTarget", targetId=self.target, flatten=True)["sessionId"]
        for part in ("Page", "Runtime", "Log", "Accessibility"):
            self.call(f"{part}.enable")
        self.call("Page.addScriptToEvaluateOnNewDocument", source=self.early)

    def close_tab(self):
        self.call("Target.closeTarget", targetId=self.target)

    def call(self, method, **given):
        self.number += 1
        command = {"id": self.number, "method": method, "params": given, **({"sessionId": self.session} if self.session and not method.startswith("Target.") else {})}
        os.write(self.commands, json.dumps(command).encode() + b"\0")
        while True:
            while b"\0" not in self.rest:
                read = os.read(self.events, 1 << 20)
                if not read:
                    raise RuntimeError("Chromium has ended")
                self.rest += read
            text, _, self.rest = self.rest.partition(b"\0")
            event = json.loads(text)
            if event.get("id") == self.number:
                if "error" in event:
                    raise RuntimeError(f"{method}: {event['error']}")
                return event["result"]
            if event.get("method") == "Inspector.targetCrashed":
                raise RuntimeError("the page has crashed")
            if event.get("method") == "Runtime.exceptionThrown":
                self.faults.append(event["params"]["exceptionDetails"].get("exception", {}).get("description"))
            if event.get("method") == "Log.entryAdded" and not event["params"]["entry"]["text"].startswith("Failed to load resource"):
                self.faults.append(event["params"]["entry"]["text"])

    def value(self, expression):
        return self.call("Runtime.evaluate", expression=expression, returnByValue=True, awaitPromise=True)["result"].get("value")

    def key(self, key, modifiers=0, pause=0.005):
        """Presses a key, this number of seconds after the last one, at a scanner's speed."""
        self.moment += pause
        timestamp = {"timestamp": self.moment} if self.scans else {}
        text = {"text": key} if len(key) == 1 and not modifiers else {"text": "\r"} if key == "Enter" else {}
        for kind in ("keyDown", "keyUp"):
            more = text if kind == "keyDown" else {}
            self.call("Input.dispatchKeyEvent", type=kind, key=key, modifiers=modifiers, windowsVirtualKeyCode=CODES.get(key, 0), **timestamp, **more)

    def keys(self, text):
        """Types as a scanner that sends the separator as Ctrl+]."""
        for character in text:
            self.key("]", CTRL) if character == "\x1d" else self.key(character)

    def type(self, text):
        self.keys(text)
        self.key("Enter")

    def touch(self, selector):
        """Touches the middle of an element, as a finger does."""
        place = self.value(f"{{ const it = document.querySelector({json.dumps(selector)}); it.scrollIntoView({{ block: 'nearest' }}); const {{ x, y, width, height }} = it.getBoundingClientRect(); ({{ x: x + width / 2, y: y + height / 2 }}) }}")
        for kind in ("mousePressed", "mouseReleased"):
            self.call("Input.dispatchMouseEvent", type=kind, button="left", clickCount=1, **place)

    def until(self, expression, wanted, seconds=BOUND):
        """The value of an expression, once it is this one, or after this number of seconds."""
        end = time.monotonic() + seconds
        while (got := self.value(expression)) != wanted and time.monotonic() < end:
            time.sleep(0.02)
        return got

    def picture(self, path, **more):
        time.sleep(0.15)
        path.write_bytes(base64.b64decode(self.call("Page.captureScreenshot", format="png", **more)["data"]))

    def end(self, kill=False):
        self.process.kill() if kill else self.process.terminate()
        self.process.wait(BOUND)
        os.close(self.commands)
        os.close(self.events)
