#!/usr/bin/python3
"""Tests the page in Firefox, by hand: web/test/firefox.py [--only WORD] [PAGE]

They are the tests of web/test.py, and PAGE is as there. Those that ask Chromium for something that Firefox doesn't have
are passed over, and say so. It needs the Debian packages firefox-esr and python3-selenium. Debian has no geckodriver,
so this speaks Firefox's own protocol, Marionette.
"""
import argparse
import base64
import json
import os
import runpy
import socket
import subprocess
import sys
import time
import unittest

from selenium import webdriver
from selenium.common import exceptions
from selenium.webdriver.remote.command import Command

sys.path.insert(0, os.path.dirname(os.path.abspath(__file__)))
from chromium import Page  # noqa: E402 (found by the line above)

TOP = os.path.dirname(os.path.dirname(os.path.dirname(os.path.abspath(__file__))))
PREFS = {
    "browser.download.folderList": 2,
    "browser.download.dir": None,
    "browser.download.alwaysOpenPanel": False,
    "browser.helperApps.neverAsk.saveToDisk": "text/plain,text/csv,application/geo+json,application/octet-stream",
    "datareporting.policy.dataSubmissionEnabled": False,
}
# What Selenium asks for, as Marionette calls it, and what has to be called otherwise in its parameters.
COMMANDS = {
    Command.NEW_SESSION: "NewSession",
    Command.GET: "Navigate",
    Command.GET_CURRENT_URL: "GetCurrentURL",
    Command.REFRESH: "Refresh",
    Command.FIND_ELEMENT: "FindElement",
    Command.FIND_ELEMENTS: "FindElements",
    Command.FIND_CHILD_ELEMENT: "FindElement",
    Command.FIND_CHILD_ELEMENTS: "FindElements",
    Command.W3C_GET_ACTIVE_ELEMENT: "GetActiveElement",
    Command.CLICK_ELEMENT: "ElementClick",
    Command.SEND_KEYS_TO_ELEMENT: "ElementSendKeys",
    Command.GET_ELEMENT_TEXT: "GetElementText",
    Command.GET_ELEMENT_TAG_NAME: "GetElementTagName",
    Command.GET_ELEMENT_RECT: "GetElementRect",
    Command.GET_ELEMENT_ATTRIBUTE: "GetElementAttribute",
    Command.GET_ELEMENT_PROPERTY: "GetElementProperty",
    Command.GET_ELEMENT_ARIA_ROLE: "GetComputedRole",
    Command.GET_ELEMENT_ARIA_LABEL: "GetComputedLabel",
    Command.IS_ELEMENT_ENABLED: "IsElementEnabled",
    Command.IS_ELEMENT_SELECTED: "IsElementSelected",
    Command.W3C_EXECUTE_SCRIPT: "ExecuteScript",
    Command.W3C_ACTIONS: "PerformActions",
    Command.SCREENSHOT: "TakeScreenshot",
}
ERRORS = {
    "stale element reference": exceptions.StaleElementReferenceException,
    "no such element": exceptions.NoSuchElementException,
    "element not interactable": exceptions.ElementNotInteractableException,
}
DROP = """
const fileOf = ([name, text]) => new File([Uint8Array.from(atob(text), (c) => c.charCodeAt(0))], name);
const event = new Event('drop', { cancelable: true });
event.dataTransfer = { files: arguments[0].map(fileOf), types: ['Files'] };
dispatchEvent(event);
"""


class Marionette:
    """Firefox, as Selenium asks a browser."""

    def __init__(self, folder):
        self.profile = os.path.join(folder, "profile")
        os.mkdir(self.profile)
        with socket.socket() as free:
            free.bind(("127.0.0.1", 0))
            port = free.getsockname()[1]
        with open(self.profile + "/user.js", "w", encoding="utf-8") as file:
            for name, value in {**PREFS, "browser.download.dir": folder, "marionette.port": port}.items():
                file.write(f"user_pref({json.dumps(name)}, {json.dumps(value)});\n")
        command = ["firefox-esr", "--headless", "--marionette", "--no-remote", "--profile", self.profile]
        self.process = subprocess.Popen(
            [*command, "--width", "1280", "--height", "885"], stdout=subprocess.DEVNULL, stderr=subprocess.DEVNULL
        )
        end = time.time() + 120
        while True:
            try:
                self.socket = socket.create_connection(("127.0.0.1", port))
                break
            except OSError:
                assert time.time() < end and self.process.poll() is None, "Firefox doesn't start"
                time.sleep(0.2)
        self.stream = self.socket.makefile("rb")
        self.told()

    def told(self):
        length = b""
        while (c := self.stream.read(1)) != b":":
            length += c
        return json.loads(self.stream.read(int(length)))

    def execute(self, command, asked):
        if command == Command.QUIT:
            self.process.terminate()
            self.process.wait()
            return {"value": None}
        if command not in COMMANDS:
            raise unittest.SkipTest(f"not in Firefox: {command}")
        asked = {name: value for name, value in asked.items() if name != "sessionId"}
        if command == Command.NEW_SESSION:
            asked = {"capabilities": {}}
        elif command.startswith("findChild"):
            asked["element"] = asked.pop("id")
        words = json.dumps([0, 1, "WebDriver:" + COMMANDS[command], asked]).encode()
        self.socket.sendall(b"%d:%s" % (len(words), words))
        _, _, error, result = self.told()
        if error:
            raise ERRORS.get(error["error"], exceptions.WebDriverException)(error["message"])
        if command == Command.NEW_SESSION:
            return {"value": result}
        return {"value": result["value"] if isinstance(result, dict) and "value" in result else result}

    def close(self):
        self.socket.close()


def firefox(folder):
    driver = webdriver.Remote(command_executor=Marionette(folder), options=webdriver.FirefoxOptions())
    driver.execute_cdp_cmd = lambda name, asked: Page.skipTest(Page, f"Firefox has no {name}")
    driver.get_log = lambda name: Page.skipTest(Page, f"Firefox has no log of its {name}")
    return driver


class InFirefox:
    """What is done otherwise there."""

    browser = staticmethod(firefox)

    def metrics(self, *names):
        self.skipTest(f"Firefox has no figures of {', '.join(names)}")

    def drop(self, *paths):
        files = []
        for path in paths:
            if os.path.isdir(path):
                self.skipTest("Firefox is given files, and no folder")
            with open(path, "rb") as file:
                files.append([os.path.basename(path), base64.b64encode(file.read()).decode()])
        self.script(DROP, files)


if __name__ == "__main__":
    parser = argparse.ArgumentParser(description=__doc__.split("\n", maxsplit=1)[0])
    parser.add_argument("--only", help="the tests whose names have this word")
    parser.add_argument("page", nargs="?", default=TOP + "/dist/web/index.html")
    arguments = parser.parse_args()
    Page.page = arguments.page
    for name in ("browser", "metrics", "drop"):
        setattr(Page, name, vars(InFirefox)[name])
    tests = runpy.run_path(TOP + "/web/test.py", run_name="tests")
    module = type(sys)("tests")
    vars(module).update({name: it for name, it in tests.items() if isinstance(it, type) and issubclass(it, Page)})
    sys.modules["tests"] = module
    only = ["-k", arguments.only] if arguments.only else []
    unittest.main(module="tests", argv=[sys.argv[0], "-v", *only])
