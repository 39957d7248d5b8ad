"""A page in Chromium, spoken to by the DevTools protocol over two pipes: keys are pressed, and the tree that a screen reader is given is read."""

import fcntl
import json
import os
import select
import subprocess
import time

SECONDS = 60


class Page:
    """A page that is open in a browser of its own. Each message is JSON with a zero byte after it."""

    def __init__(self, program, folder, address):
        near, far = [os.pipe() for _ in range(2)]
        given = [fcntl.fcntl(it, fcntl.F_DUPFD, 10) for it in (near[0], far[1])]
        words = [program, "--headless", "--no-sandbox", "--disable-gpu", "--window-size=1400,900"]
        words += ["--remote-debugging-pipe", f"--user-data-dir={folder}/spoken"]
        said = ["bash", "-c", f'exec "$@" 3<&{given[0]} 4>&{given[1]}', "bash", *words, "about:blank"]
        self.ran = subprocess.Popen(said, pass_fds=given, stdout=subprocess.DEVNULL, stderr=subprocess.DEVNULL)
        for it in (near[0], far[1], *given):
            os.close(it)
        self.out, self.back, self.count, self.came, self.session = near[1], far[0], 0, b"", None
        try:
            self.open(address)
        except BaseException:
            self.close()
            raise

    def open(self, address):
        ends, pages = time.monotonic() + SECONDS, []
        while not pages and time.monotonic() < ends:
            pages = [it["targetId"] for it in self.ask("Target.getTargets")["targetInfos"] if it["type"] == "page"]
        self.session = self.ask("Target.attachToTarget", targetId=(pages or [""])[0], flatten=True)["sessionId"]
        self.ask("Accessibility.enable")
        self.go(address)

    def go(self, address):
        """Opens a page in the place of the one that is open."""
        self.value("delete document.documentElement?.dataset.ready")
        self.ask("Page.navigate", url=address)
        self.until("document.documentElement?.dataset.ready")

    def ask(self, method, **params):
        """What the browser answers. Raises `RuntimeError` where it does not do it."""
        self.count += 1
        said = {"id": self.count, "method": method, "params": params, **({"sessionId": self.session} if self.session else {})}
        os.write(self.out, json.dumps(said).encode() + b"\0")
        until = time.monotonic() + SECONDS
        while True:
            answer = self.next(until)
            if answer.get("id") == self.count:
                if "error" in answer:
                    raise RuntimeError(f"{method}: {answer['error'].get('message')}")
                return answer["result"]

    def next(self, until):
        while b"\0" not in self.came:
            if not select.select([self.back], [], [], max(0, until - time.monotonic()))[0]:
                raise TimeoutError("the browser does not answer")
            more = os.read(self.back, 65536)
            if not more:
                raise RuntimeError("the browser ended")
            self.came += more
        message, _, self.came = self.came.partition(b"\0")
        return json.loads(message)

    def value(self, script):
        """What a script comes to. The policy of the page is for its own scripts, and not for this one."""
        found = self.ask("Runtime.evaluate", expression=script, returnByValue=True, awaitPromise=True)
        if "exceptionDetails" in found:
            raise RuntimeError(f"{script}: {found['exceptionDetails'].get('text')}")
        return found["result"].get("value")

    def until(self, script):
        """Waits until a script comes to what is true."""
        ends = time.monotonic() + SECONDS
        while not self.value(script):
            if time.monotonic() > ends:
                raise TimeoutError(script)
            time.sleep(0.05)

    def press(self, key, code=0, shift=False):
        """Presses a key, and lets it go, as a user does: the focus goes where the browser has it go."""
        text = {"text": key} if len(key) == 1 else {"text": "\r"} if key == "Enter" else {}
        for kind in ("keyDown", "keyUp"):
            self.ask("Input.dispatchKeyEvent", type=kind, key=key, windowsVirtualKeyCode=code, modifiers=8 * shift, **(text if kind == "keyDown" else {}))

    def tree(self):
        """The nodes of the accessibility tree that are not passed over, each after those that it is in."""
        return [Node(it) for it in self.ask("Accessibility.getFullAXTree")["nodes"] if not it.get("ignored")]

    def close(self):
        os.close(self.out)
        os.close(self.back)
        self.ran.terminate()
        try:
            self.ran.wait(10)
        except subprocess.TimeoutExpired:
            self.ran.kill()
            self.ran.wait()


def processor_seconds(program, folder, path, place):
    """What the thread of a page takes of a processor until the page is ready. A clock counts what other programs take too."""
    small = path.with_name("small.html")
    small.write_text('<!doctype html><html data-ready="0">', encoding="utf-8")
    page = Page(program, folder, small.as_uri())
    try:
        page.ask("Accessibility.disable")
        page.ask("Performance.enable", timeDomain="threadTicks")
        page.go(f"{path.as_uri()}{place}")
        return next(it["value"] for it in page.ask("Performance.getMetrics")["metrics"] if it["name"] == "ThreadTime")
    finally:
        page.close()


class Node:
    """A node: its role, its name, its description, and its other properties by their names."""

    def __init__(self, told):
        self.id, self.inside = told["nodeId"], told.get("childIds", [])
        self.role, self.name = (told.get(it, {}).get("value", "") for it in ("role", "name"))
        self.description, self.value = (told.get(it, {}).get("value", "") for it in ("description", "value"))
        self.properties = {it["name"]: it["value"].get("value") for it in told.get("properties", [])}

    def __repr__(self):
        return f"{self.role} {self.name!r}" + (f" ({self.description})" if self.description else "")
