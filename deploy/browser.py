"""A real headless browser and its one page, for try_page.py: what is typed, clicked and read there,
and whether its texts can be read.

It needs chromium and openssl, and otherwise only the standard library of Python.
"""

import base64
import hashlib
import json
import os
import subprocess
import sys
import time

HERE = os.path.dirname(os.path.abspath(__file__))
sys.path.insert(0, os.path.join(os.path.dirname(HERE), "tools"))

from served import Failure

# How long anything may take, in seconds, on a machine that is busy. No check measures speed.
PATIENCE = 180
KEYS = {"Tab": 9, "Enter": 13, "ArrowRight": 39, "ArrowDown": 40}


class Browser:
    """A headless browser that is controlled by pipes. It has one page, and trusts one
    certificate."""

    def __init__(self, room, certificate):
        to_read, self.output = os.pipe()
        self.input, to_write = os.pipe()

        def pipes():
            # the browser reads requests from descriptor 3, and answers on 4
            reading, writing = os.dup(to_read), os.dup(to_write)
            os.dup2(reading, 3)
            os.dup2(writing, 4)

        words = [
            "chromium", "--headless=new", "--no-sandbox", "--remote-debugging-pipe",
            "--disable-gpu",
            f"--ignore-certificate-errors-spki-list={key_hash(certificate)}",
            "--disable-background-networking", "--no-first-run", f"--user-data-dir={room}/browser",
        ]
        self.child = subprocess.Popen(
            words, preexec_fn=pipes, close_fds=False, stdin=subprocess.DEVNULL,
            stdout=subprocess.DEVNULL, stderr=subprocess.DEVNULL,
            env={**os.environ, "TZ": "Asia/Kolkata", "HOME": room},
        )
        os.close(to_read)
        os.close(to_write)
        self.count, self.unread, self.events, self.session = 0, b"", [], None
        self.downloads = os.path.join(room, "downloads")
        self.call("Browser.setDownloadBehavior", behavior="allow", downloadPath=self.downloads)
        target = self.call("Target.createTarget", url="about:blank")["targetId"]
        session = self.call("Target.attachToTarget", targetId=target, flatten=True)
        self.session = session["sessionId"]
        for part in ("Page", "Network", "Runtime", "Accessibility", "Log"):
            self.call(f"{part}.enable")

    def call(self, method, **words):
        """The result of a call. Events that come meanwhile go to `events`."""
        self.count += 1
        message = {"id": self.count, "method": method, "params": words}
        if self.session:
            message["sessionId"] = self.session
        os.write(self.output, json.dumps(message).encode() + b"\0")
        while True:
            while b"\0" not in self.unread:
                piece = os.read(self.input, 1 << 20)
                if not piece:
                    raise Failure("the browser ended")
                self.unread += piece
            text, _, self.unread = self.unread.partition(b"\0")
            reply = json.loads(text)
            if reply.get("id") != self.count:
                self.events.append(reply)
            elif "error" in reply:
                raise Failure(f"{method}: {reply['error']}")
            else:
                return reply["result"]

    def value(self, script):
        """The value of an expression in the page."""
        words = {"expression": script, "returnByValue": True, "awaitPromise": True}
        done = self.call("Runtime.evaluate", **words)
        if "exceptionDetails" in done:
            raise Failure(f"{script}: {done['exceptionDetails']}")
        return done["result"].get("value")

    def await_that(self, what, script):
        """Waits until an expression is true in the page."""
        end = time.monotonic() + PATIENCE
        while not self.value(f"document.readyState == 'complete' && !!({script})"):
            if time.monotonic() > end:
                fault = self.value("document.getElementById('fault')?.innerText")
                raise Failure(f"{what}: not within {PATIENCE} seconds: {script}; fault: {fault!r}")
            time.sleep(0.1)
        print(f"  {what}: as it should be", flush=True)

    def size(self, width, height, is_touch, scheme="light", scale=1):
        features = [{"name": "prefers-color-scheme", "value": scheme}]
        self.call("Emulation.setEmulatedMedia", features=features)
        self.call("Emulation.setDeviceMetricsOverride", width=width, height=height,
                  deviceScaleFactor=scale, mobile=is_touch)

    def open(self, url):
        """Loads a page anew."""
        self.call("Page.navigate", url="about:blank")
        self.await_that("an empty page", "location.href == 'about:blank'")
        self.call("Page.navigate", url=url)

    def key(self, name):
        text = {"text": "\r"} if name == "Enter" else {}
        for kind in ("keyDown" if text else "rawKeyDown", "keyUp"):
            more = text if kind == "keyDown" else {}
            self.call("Input.dispatchKeyEvent", type=kind, key=name, code=name,
                      windowsVirtualKeyCode=KEYS[name], **more)

    def tab_to(self, identifier):
        """Presses the tab key until an element has the focus."""
        for _ in range(80):
            if self.value("document.activeElement.id") == identifier:
                return
            self.key("Tab")
        raise Failure(f"the tabulator does not come to {identifier}")

    def type(self, text):
        self.value("document.activeElement.select?.()")
        self.call("Input.insertText", text=text)

    def click(self, script):
        """Clicks at the middle of the element that an expression gives."""
        middle = f"""(() => {{
            const element = {script};
            element.scrollIntoView({{ block: "center" }});
            const box = element.getBoundingClientRect();
            return [box.left + box.width / 2, box.top + box.height / 2];
        }})()"""
        x, y = self.value(middle)
        for kind in ("mousePressed", "mouseReleased"):
            self.call("Input.dispatchMouseEvent", type=kind, x=x, y=y, button="left", clickCount=1)

    def events_of(self, method):
        """The parameters of all events of a kind."""
        return [event["params"] for event in self.events if event.get("method") == method]

    def picture(self, path):
        done = self.call("Page.captureScreenshot", format="png", captureBeyondViewport=False)
        with open(path, "wb") as file:
            file.write(base64.b64decode(done["data"]))

    def close(self):
        self.child.kill()
        self.child.wait()
        os.close(self.input)
        os.close(self.output)


def key_hash(certificate):
    """The digest by which the browser identifies the key of a certificate."""
    words = ["openssl", "x509", "-in", certificate, "-noout", "-pubkey"]
    text = subprocess.run(words, check=True, capture_output=True, timeout=60).stdout.decode()
    key = base64.b64decode("".join(text.split("-----")[2].split()))
    return base64.b64encode(hashlib.sha256(key).digest()).decode()


# ---- expressions of the page


def text_at(identifier):
    return f"document.getElementById('{identifier}').innerText"


def each(selector, value):
    """The values of an expression, where `one` is each of the elements that a selector finds."""
    return f"[...document.querySelectorAll({selector!r})].map((one) => {value})"


# Texts of drawings that are too small, cut or over one another, and a page that is too wide.
FITS = """(() => {
    const faults = [], page = document.documentElement;
    if (page.scrollWidth > page.clientWidth) faults.push(`${page.scrollWidth} wide`);
    for (const svg of document.querySelectorAll("#chart svg, #map svg, #scale svg")) {
        const outer = svg.getBoundingClientRect(), seen = [];
        if (outer.width > svg.parentNode.clientWidth) faults.push(`${outer.width} wide`);
        for (const text of svg.querySelectorAll("text")) {
            const box = text.getBoundingClientRect(), name = text.textContent;
            const size = parseFloat(getComputedStyle(text).fontSize) * text.getScreenCTM().a;
            if (size < 12) faults.push(`${name} has ${size}`);
            const isCut = box.left < outer.left || box.right > outer.right ||
                box.top < outer.top || box.bottom > outer.bottom;
            if (isCut) faults.push(`${name} is cut`);
            for (const [other, beside] of seen) {
                const isApart = box.right <= beside.left || box.left >= beside.right ||
                    box.bottom - 3 <= beside.top || box.top + 3 >= beside.bottom;
                if (!isApart) faults.push(`${name} over ${other}`);
            }
            seen.push([name, box]);
        }
    }
    return faults;
})()"""

# Texts whose contrast with their background is below 4.5 to 1 (WCAG 2.1, 1.4.3).
CONTRAST = """(() => {
    const numbers = (text) => (text.match(/[\\d.]+/g) ?? []).map(Number);
    const part = (value) =>
        value <= 10.31 ? value / 255 / 12.92 : ((value / 255 + 0.055) / 1.055) ** 2.4;
    const light = ([red, green, blue]) =>
        0.2126 * part(red) + 0.7152 * part(green) + 0.0722 * part(blue);
    const behind = (element) => {
        for (let one = element; one; one = one.parentElement) {
            const colour = numbers(getComputedStyle(one).backgroundColor);
            if (colour.length && (colour[3] ?? 1) > 0) return colour;
        }
        return [255, 255, 255];
    };
    const faults = [];
    let count = 0;
    for (const element of document.querySelectorAll("body *")) {
        const parts = [...element.childNodes];
        const isText = parts.some((node) => node.nodeType === 3 && node.data.trim());
        const isOther = ["title", "SCRIPT", "OPTION"].includes(element.tagName);
        if (!isText || isOther || !element.checkVisibility()) continue;
        const style = getComputedStyle(element), isDrawn = element instanceof SVGElement;
        const sea = isDrawn && element.ownerSVGElement.querySelector(".sea");
        const back = light(sea ? numbers(getComputedStyle(sea).fill) : behind(element));
        const front = light(numbers(isDrawn ? style.fill : style.color));
        const contrast = (Math.max(back, front) + 0.05) / (Math.min(back, front) + 0.05);
        count += 1;
        if (contrast < 4.5) faults.push(`${element.textContent.slice(0, 40)}: ${contrast}`);
    }
    return [count > 50, faults];
})()"""
