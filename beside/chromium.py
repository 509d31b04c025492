"""Chromium, driven by its pipe: pages, keys, what is logged, and what its main thread worked."""

import json
import os
import subprocess
import time

OPTIONS = "--headless --no-sandbox --disable-gpu --remote-debugging-pipe"
NARROW = 760
LOGS = ("Runtime.exceptionThrown", "Log.entryAdded", "Runtime.consoleAPICalled")
# Whether the newest question of a page is answered, and whether all pictures of bugs are drawn.
SETTLED = """typeof isBusy === "boolean" ? !isBusy && !waits && !!document.body?.dataset.answered
    : !!document.body?.dataset.drawn"""
CATEGORIES = {"includedCategories": ["toplevel", "devtools.timeline"], "excludedCategories": ["*"]}


def address_of(event):
    """The address of the script that an event of a trace is about."""
    return str(event.get("args", {}).get("data", {}).get("url", ""))


class Browser:
    """One browser. What it logs is kept."""

    def __init__(self):
        there, self.asks = os.pipe()
        self.answers, here = os.pipe()
        for pipe in (there, here):
            os.set_inheritable(pipe, True)
        words = f"exec chromium {OPTIONS} about:blank 3<&{there} 4>&{here} >/dev/null 2>&1"
        self.process = subprocess.Popen(["bash", "-c", words], pass_fds=(there, here))
        os.close(there)
        os.close(here)
        self.number, self.rest, self.session, self.logged, self.traced = 0, b"", None, [], []

    def event(self):
        while b"\0" not in self.rest:
            part = os.read(self.answers, 1 << 20)
            if not part:
                raise OSError("chromium has ended")
            self.rest += part
        one, self.rest = self.rest.split(b"\0", 1)
        told = json.loads(one)
        if told.get("method") in LOGS:
            self.logged.append(json.dumps(told["params"])[:400])
        if told.get("method") == "Tracing.dataCollected":
            self.traced += told["params"]["value"]
        return told

    def call(self, method, **params):
        self.number += 1
        message = {"id": self.number, "method": method, "params": params}
        if self.session and not method.startswith("Tracing."):
            message["sessionId"] = self.session
        os.write(self.asks, json.dumps(message).encode() + b"\0")
        while True:
            told = self.event()
            if told.get("id") == self.number:
                if "error" in told:
                    raise OSError(f"{method}: {told['error']}")
                return told["result"]

    def open(self, url, width=1440, colours="light"):
        """A new page at this address."""
        self.session = None
        target = self.call("Target.createTarget", url="about:blank")["targetId"]
        self.session = self.call("Target.attachToTarget", targetId=target, flatten=True)["sessionId"]
        size = {"width": width, "height": 900, "deviceScaleFactor": 1, "mobile": width < NARROW}
        self.call("Emulation.setDeviceMetricsOverride", **size)
        self.call("Emulation.setEmulatedMedia", features=[{"name": "prefers-color-scheme", "value": colours}])
        for domain in ("Page", "Runtime", "Log"):
            self.call(f"{domain}.enable")
        self.call("Page.navigate", url=url)
        self.settle()

    def run(self, words):
        """The value of an expression in the page."""
        told = self.call("Runtime.evaluate", expression=words, awaitPromise=True, returnByValue=True)
        if "exceptionDetails" in told:
            raise OSError(f"{words[:80]}: {json.dumps(told['exceptionDetails'])[:300]}")
        return told["result"].get("value")

    def settle(self, limit=60):
        """Waits until the page has answered."""
        end = time.monotonic() + limit
        while time.monotonic() < end:
            if self.run(SETTLED):
                return
            time.sleep(0.02)
        raise OSError("the page doesn't answer")

    def put(self, text):
        """Writes this text, as if it were typed."""
        self.run(f"text.value = {json.dumps(text)}; text.dispatchEvent(new Event('input')); 0")
        self.settle()

    def press(self, key, code=None, modifiers=0):
        """One key."""
        words = {"key": key, "code": code or key, "modifiers": modifiers}
        if key == "Tab":
            words["windowsVirtualKeyCode"] = 9
        for kind in ("rawKeyDown", "keyUp"):
            self.call("Input.dispatchKeyEvent", type=kind, **words)

    def longest_task(self, work):
        """How long the page's main thread worked on one task, while this ran."""
        return max(self.tasks(work, "CrRendererMain"))

    def tasks(self, work, thread):
        """How long threads of this name of the page worked on each task, while this ran: in milliseconds of a processor,
        since others may have it meanwhile."""
        self.traced = []
        self.call("Tracing.start", traceConfig=CATEGORIES)
        work()
        self.call("Tracing.end")
        while self.event().get("method") != "Tracing.tracingComplete":
            pass
        # The browser has other pages: ours is the one with functions of a file.
        ours = {it["pid"] for it in self.traced if it["name"] == "FunctionCall" and address_of(it).startswith("file:")}
        threads = {(it["pid"], it["tid"]) for it in self.traced
                   if it["name"] == "thread_name" and it["args"]["name"] == thread and it["pid"] in ours}
        tasks = [it["tdur"] / 1000 for it in self.traced
                 if (it["pid"], it["tid"]) in threads and it["name"].endswith("RunTask") and "tdur" in it]
        if not tasks:
            raise OSError(f"the trace has no task of the page's {thread}")
        return tasks

    def end(self):
        self.session = None
        self.call("Browser.close")
        self.process.wait(30)
