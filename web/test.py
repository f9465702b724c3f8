#!/usr/bin/python3
"""Tests the page in headless Chromium: web/test.py [--idle] [--shots FOLDER] [--only WORD] [PAGE]

PAGE is dist/web/index.html where it is left out. It is opened without a server, but for the test that looks at a
server's log. --idle: nothing else runs on the machine, so large files are held to seconds. FOLDER gets pictures of
the page, light and dark, wide and narrow. It needs the Debian packages chromium, chromium-driver and python3-selenium.

Here are the tests that nothing leaves the page; those of texts, files, causes, dialects, access, and of what it
takes in and gives out are in web/test.
"""
import argparse
import functools
import http.server
import json
import os
import sys
import threading
import time
import unittest

sys.path.insert(0, os.path.dirname(os.path.abspath(__file__)) + "/test")
from access import Access  # noqa: E402 (found by the line above)
from causes import Causes  # noqa: E402
from chromium import Page, Quiet  # noqa: E402
from dialects import Dialects  # noqa: E402
from files import Files  # noqa: E402
from give import Give  # noqa: E402
from many import Many  # noqa: E402
from selenium.webdriver.common.by import By  # noqa: E402
from texts import Texts  # noqa: E402

TOP = os.path.dirname(os.path.dirname(os.path.abspath(__file__)))
# The tests that unittest.main finds in this module besides its own.
TESTS = (Texts, Files, Access, Give, Causes, Dialects, Many)

# What a page could send or load, and the directive of the policy that refuses it.
LEAVING = {
    "connect-src": [
        "fetch('http://127.0.0.1:9/a').catch(() => {})",
        "new XMLHttpRequest().open('GET', 'http://127.0.0.1:9/b'); x = new XMLHttpRequest();"
        " x.open('GET', 'http://127.0.0.1:9/b'); x.send()",
        "navigator.sendBeacon('http://127.0.0.1:9/c', 'x')",
        "new WebSocket('ws://127.0.0.1:9/d')",
        "new EventSource('http://127.0.0.1:9/e')",
    ],
    "img-src": ["new Image().src = 'http://127.0.0.1:9/f'"],
    "script-src-elem": [
        "s = document.createElement('script'); s.src = 'http://127.0.0.1:9/g'; document.head.append(s)",
        "s = document.createElement('script'); s.textContent = '1'; document.head.append(s)",
    ],
    "style-src-elem": [
        "s = document.createElement('link'); s.rel = 'stylesheet'; s.href = 'http://127.0.0.1:9/h';"
        " document.head.append(s)"
    ],
    "frame-src": ["s = document.createElement('iframe'); s.src = 'http://127.0.0.1:9/i'; document.body.append(s)"],
    "font-src": ["new FontFace('x', 'url(http://127.0.0.1:9/j)').load().catch(() => {})"],
    "form-action": [
        "s = document.createElement('form'); s.action = 'http://127.0.0.1:9/k'; document.body.append(s); s.submit()"
    ],
}


class Whole(Page):
    def test_nothing_leaves(self):
        server = http.server.ThreadingHTTPServer(
            ("127.0.0.1", 0), functools.partial(Quiet, directory=os.path.dirname(os.path.abspath(self.page)))
        )
        threading.Thread(target=server.serve_forever, daemon=True).start()
        self.driver.get_log("performance")
        address = f"http://127.0.0.1:{server.server_port}/{os.path.basename(self.page)}"
        self.open(page=address)
        self.type("POINT(1 2)")
        self.drop(self.file("POINT(1 2)\n" * 50000))
        self.assertIn("accepted", self.read())
        self.assertEqual([], self.console())
        sent = [json.loads(line["message"])["message"] for line in self.driver.get_log("performance")]
        urls = {
            event["params"]["request"]["url"].split("#")[0]
            for event in sent
            if event["method"] == "Network.requestWillBeSent"
        }
        self.assertEqual({address}, {url for url in urls if not url.startswith(("blob:", "data:", "about:"))})
        self.assertEqual(1, len(Quiet.asked), Quiet.asked)
        self.script(
            "window.refused = [];"
            "addEventListener('securitypolicyviolation', (event) => window.refused.push(event.effectiveDirective))"
        )
        for directive, tries in LEAVING.items():
            for attempt in tries:
                with self.subTest(attempt):
                    self.script("window.refused.length = 0")
                    self.script(f"let x, s; {attempt}")
                    self.wait(lambda directive=directive: directive in self.script("return window.refused"))
        self.assertEqual(1, len(Quiet.asked), Quiet.asked)
        self.driver.get("about:blank")
        self.console()
        server.shutdown()
        server.server_close()

    def test_no_console_error(self):
        self.open()
        self.console()
        for button in self.driver.find_elements(By.CSS_SELECTOR, "#example-list button"):
            self.choose_example(button.get_attribute("textContent"))
        for name in ("in", "out-zoom", "fit", "copy", "copy-link", "theme", "clear"):
            self.by_id(name).click() if self.by_id(name).is_displayed() else None
        self.assertEqual([], self.console())
        self.script("localStorage.clear()")


class Shots(Page):
    """Pictures for people, in a folder."""

    folder_of_shots = None

    @classmethod
    def setUpClass(cls):
        if not cls.folder_of_shots:
            raise unittest.SkipTest("not asked for")
        super().setUpClass()

    def test_shots(self):
        self.open()
        self.script("localStorage.clear()")
        for theme in ("light", "dark"):
            for width in (1280, 390):
                self.driver.execute_cdp_cmd(
                    "Emulation.setDeviceMetricsOverride",
                    {"width": width, "height": 800, "deviceScaleFactor": 1, "mobile": False},
                )
                self.driver.execute_cdp_cmd(
                    "Emulation.setEmulatedMedia", {"features": [{"name": "prefers-color-scheme", "value": theme}]}
                )
                for state in self.states():
                    self.assertLessEqual(self.script("return document.documentElement.scrollWidth"), width)
                    if width == 390:
                        height = self.script("return document.documentElement.scrollHeight")
                        self.driver.execute_cdp_cmd(
                            "Emulation.setDeviceMetricsOverride",
                            {"width": width, "height": height, "deviceScaleFactor": 1, "mobile": False},
                        )
                    time.sleep(0.3)
                    self.driver.save_screenshot(f"{self.folder_of_shots}/{state}-{theme}-{width}.png")
        for command in ("clearDeviceMetricsOverride", "setEmulatedMedia"):
            self.driver.execute_cdp_cmd(
                "Emulation." + command, {"features": []} if command == "setEmulatedMedia" else {}
            )


if __name__ == "__main__":
    parser = argparse.ArgumentParser(description=__doc__.split("\n")[0])
    parser.add_argument("--idle", action="store_true")
    parser.add_argument("--shots")
    parser.add_argument("--only", help="the tests whose names have this word")
    parser.add_argument("page", nargs="?", default=TOP + "/dist/web/index.html")
    arguments = parser.parse_args()
    Page.page, Files.idle, Shots.folder_of_shots = arguments.page, arguments.idle, arguments.shots
    unittest.main(argv=[sys.argv[0], *(["-k", arguments.only] if arguments.only else [])])
