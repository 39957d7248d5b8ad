"""A browser without a window, for tests of pages."""

import base64
import hashlib
import shutil
import subprocess
from pathlib import Path

NAMES = ("chromium", "chromium-browser", "google-chrome")


def program(words):
    """The browser that the words name, or what stands on the path under one of its names; `None` where there is none."""
    return words[0] if words else next(filter(None, map(shutil.which, NAMES)), None)


class Browser:
    """Chromium without a window; each page is opened anew. `check` counts a test, as that of try_page.py does."""

    def __init__(self, program, folder, check):
        self.program, self.folder, self.check, self.tries = program, Path(folder), check, 1

    def works(self):
        """Whether it opens a page at all: there may be none, or one that cannot run here."""
        try:
            return self.program is not None and "is drawn" in self.run("<!doctype html><p>is drawn", "", "--dump-dom").stdout
        except (OSError, subprocess.TimeoutExpired):
            return False

    def run(self, text, place, *words):
        path = self.folder / "page.html"
        path.write_text(text, encoding="utf-8")
        fixed = [self.program, "--headless", "--no-sandbox", "--disable-gpu", "--enable-logging=stderr", f"--user-data-dir={self.folder}/user"]
        words = words if any(it.startswith("--window-size") for it in words) else ("--window-size=1400,900", *words)
        return subprocess.run([*fixed, *words, f"{path.as_uri()}{place}"], capture_output=True, text=True, errors="replace", timeout=120)

    def opened(self, name, text, place=""):
        """The document as the script left it; tests that no error was told."""
        ran = self.run(text, place, "--dump-dom")
        said = [line for line in ran.stderr.splitlines() if "CONSOLE" in line]
        self.check(f"opened: {name}", 'data-ready="' in ran.stdout and not said, *said, ran.stderr[-500:] if not ran.stdout else "")
        # the data is in the document too: what is drawn stands before it
        return ran.stdout.split('<script type="application/json"')[0]

    def driven(self, name, text, script, place=""):
        """The document after a script of the test, which the policy lets in for that."""
        return self.opened(name, with_script(text, script), place)

    def driven_again(self, text, script):
        """The same, without a test."""
        return self.run(with_script(text, script), "", "--dump-dom").stdout

    def picture(self, text):
        path = self.folder / "page.png"
        self.run(text, "", f"--screenshot={path}")
        return path.stat().st_size if path.exists() else 0


def with_script(text, script):
    known = base64.b64encode(hashlib.sha256(script.encode()).digest()).decode()
    return text.replace("script-src ", f"script-src 'sha256-{known}' ", 1).replace("</body>", f"<script>{script}</script></body>", 1)
