"""A page in headless Chromium, and what tests do with it."""
import http.server
import os
import sys
import tempfile
import time
import unittest

from selenium import webdriver
from selenium.webdriver.chrome.service import Service
from selenium.webdriver.common.by import By
from selenium.webdriver.common.keys import Keys

# The least contrast between a text and what is behind it, by element; in two colours.
CONTRAST = """
const pixel = document.createElement('canvas').getContext('2d', { willReadFrequently: true });
const rgba = (color) => {
  pixel.clearRect(0, 0, 1, 1);
  pixel.fillStyle = color;
  pixel.fillRect(0, 0, 1, 1);
  const d = pixel.getImageData(0, 0, 1, 1).data;
  return [d[0], d[1], d[2], d[3] / 255];
};
const over = (a, b) => [0, 1, 2].map((i) => a[i] * a[3] + b[i] * (1 - a[3])).concat(1);
const light = (c) => [0.2126, 0.7152, 0.0722].reduce((sum, k, i) => {
  const v = c[i] / 255;
  return sum + k * (v <= 0.04045 ? v / 12.92 : ((v + 0.055) / 1.055) ** 2.4);
}, 0);
const white = [255, 255, 255, 1];
const behind = (node) =>
  node ? over(rgba(getComputedStyle(node).backgroundColor), behind(node.parentElement)) : white;
const poor = [];
const texts = document.createTreeWalker(document.body, NodeFilter.SHOW_TEXT);
while (texts.nextNode()) {
  const node = texts.currentNode.parentElement;
  const style = getComputedStyle(node);
  if (!texts.currentNode.data.trim() || !node.checkVisibility()) continue;
  if (node.closest('.mirror, .quiet, [disabled], script, .drop, .skip')) continue;
  const back = behind(node);
  const { color } = style;
  const [a, b] = [light(over(rgba(color), back)), light(back)].sort((x, y) => y - x);
  const ratio = (a + 0.05) / (b + 0.05);
  if (ratio < 4.5) poor.push(`${node.tagName} ${texts.currentNode.data.slice(0, 30)}: ${ratio.toFixed(2)}`);
}
return poor;
"""

# Whether the page is busy, and what an element says.
SAID = """
const [verdict, it] = ['verdict', arguments[0]].map((id) => document.getElementById(id));
return [verdict.getAttribute('aria-busy') === 'true', it.innerText];
"""
# The field that is shown: a textarea, or the one of many lines, which stand in blocks.
FIELD = "const field = ['text', 'many'].map((id) => document.getElementById(id)).find((e) => e.checkVisibility());"
# The picture as bytes: red, green, blue, alpha.
PIXELS = """
const c = document.getElementById('canvas');
const to = new OffscreenCanvas(c.width, c.height).getContext('2d', { willReadFrequently: true });
to.drawImage(c, 0, 0);
const { data, width, height } = to.getImageData(0, 0, c.width, c.height);
"""
# The box around the pixels of a colour.
BOX = """
const color = document.createElement('canvas').getContext('2d');
color.fillStyle = getComputedStyle(document.documentElement).getPropertyValue(arguments[0]).trim();
const wanted = parseInt(color.fillStyle.slice(1), 16);
let box = null;
for (let y = 0, i = 0; y < height; y++) {
  for (let x = 0; x < width; x++, i += 4) {
    if (data[i + 3] < 32 || data[i] * 65536 + data[i + 1] * 256 + data[i + 2] !== wanted) continue;
    box = box ? [Math.min(box[0], x), box[1], Math.max(box[2], x), y] : [x, y, x, y];
  }
}
return box;
"""


def browser(downloads):
    options = webdriver.ChromeOptions()
    options.binary_location = "/usr/bin/chromium"
    for word in (
        "headless=new",
        "no-sandbox",
        "disable-gpu",
        "disable-dev-shm-usage",
        "window-size=1280,800",
        "hide-scrollbars",
    ):
        options.add_argument("--" + word)
    options.set_capability("goog:loggingPrefs", {"browser": "ALL", "performance": "ALL"})
    driver = webdriver.Chrome(service=Service("/usr/bin/chromedriver"), options=options)
    driver.execute_cdp_cmd("Browser.setDownloadBehavior", {"behavior": "allow", "downloadPath": downloads})
    return driver


class Quiet(http.server.SimpleHTTPRequestHandler):
    """A server that says nothing, and keeps what it was asked for."""

    asked = []

    def log_message(self, *_):
        self.asked.append(self.path)


class Page(unittest.TestCase):
    """Tests of the page whose path is `page`, in a browser that `browser` starts."""

    page = None
    browser = staticmethod(browser)

    @classmethod
    def setUpClass(cls):
        cls.folder = tempfile.TemporaryDirectory()
        cls.driver = cls.browser(cls.folder.name)

    @classmethod
    def tearDownClass(cls):
        cls.driver.quit()
        cls.folder.cleanup()

    def script(self, text, *given):
        return self.driver.execute_script(text, *given)

    def wait(self, test, seconds=120):
        """Waits until the test gives something, and returns that."""
        end = time.time() + seconds
        while time.time() < end:
            found = test()
            if found:
                return found
            time.sleep(0.05)
        return self.fail(f"waited for {seconds} s; the page says: {self.said('say')}; {self.said('why')}")

    def open(self, behind="", page=None):
        self.driver.get("about:blank")
        self.driver.get((page or "file://" + os.path.abspath(self.page)) + behind)
        self.wait(lambda: self.script("return document.documentElement.dataset.ready"))

    def note(self, words):
        print(words, file=sys.stderr)

    def by_id(self, name):
        return self.driver.find_element(By.ID, name)

    def said(self, name="verdict", seconds=60):
        """What an element says, as soon as what stands in the field is answered."""
        end = time.time() + seconds
        while (it := self.script(SAID, name))[0] and time.time() < end:
            time.sleep(0.02)
        return it[1].replace("\u200b", "")

    def read(self, seconds=120):
        """What the page says of a file, as soon as it has read it, or can't."""
        self.wait(lambda: not self.script("return document.getElementById('stop').checkVisibility()"), seconds)
        return self.said("say")

    def type(self, text):
        """Types a text, key by key, in place of what stands in the field."""
        self.field().send_keys(Keys.CONTROL, "a")
        self.field().send_keys(text)

    def paste(self, text):
        """Puts a text in the field at once, and waits until it is answered and drawn."""
        before = self.painted()
        self.script(
            "const t = document.getElementById('text'); t.value = arguments[0]; t.dispatchEvent(new Event('input'))",
            text,
        )
        self.said()
        self.wait(lambda: self.painted() > before)
        self.still()

    def painted(self):
        """How often the picture was drawn."""
        return int(self.script("return document.getElementById('canvas').painted") or 0)

    def still(self):
        """Waits until nothing more is drawn."""
        last = -1
        while last != (last := self.painted()):
            time.sleep(0.3)

    def box(self, name):
        """Where a colour of the page is in the picture: left, top, right, bottom; None where it isn't."""
        return self.script(PIXELS + BOX, name)

    def is_drawn(self, x, y):
        """Whether more than a faint line is drawn at a place of the picture."""
        return self.script(PIXELS + "return data[4 * (width * arguments[1] + arguments[0]) + 3] >= 32", x, y)

    def main_thread(self):
        """The processor time of the page's main thread so far, in milliseconds; nothing that its workers take."""
        return 1000 * self.metric("TaskDuration")

    def metrics(self, *names):
        """Some of Chromium's figures; ProcessTime is the processor time of all threads of the page, in seconds."""
        self.driver.execute_cdp_cmd("Performance.enable", {"timeDomain": "threadTicks"})
        found = self.driver.execute_cdp_cmd("Performance.getMetrics", {})["metrics"]
        return [next(it["value"] for it in found if it["name"] == name) for name in names]

    def metric(self, name):
        return self.metrics(name)[0]

    def press(self, *keys):
        webdriver.ActionChains(self.driver).send_keys(*keys).perform()

    def field(self):
        """The field that has the text."""
        return self.script(FIELD + "return field")

    def hold(self, *keys):
        """Presses the last key, while the others are held, where the focus is."""
        chain = webdriver.ActionChains(self.driver)
        for key in keys[:-1]:
            chain.key_down(key)
        chain.send_keys(keys[-1])
        for key in keys[:-1]:
            chain.key_up(key)
        chain.perform()

    def undo(self):
        self.field().send_keys(Keys.CONTROL, "z")

    def pasted(self):
        """What the clipboard has, as the field takes it."""
        self.field().send_keys(Keys.CONTROL, "av")
        return self.value()

    def hear(self, name):
        """Keeps what an element says from now on, however shortly: `heard` has it."""
        self.script(
            "const e = document.getElementById(arguments[0]); window.heard = [];"
            " new MutationObserver(() => window.heard.push(e.textContent))"
            ".observe(e, { childList: true, subtree: true, characterData: true })",
            name,
        )

    def heard(self):
        return self.script("return window.heard")

    def value(self):
        blocks = "[...field.children].map((block) => block.textContent).join('\\n')"
        return self.script(FIELD + "return field.value ?? " + blocks)

    def drop(self, *paths):
        """Drops files on the page, as a file manager does."""
        for kind in ("dragEnter", "dragOver", "drop"):
            self.driver.execute_cdp_cmd(
                "Input.dispatchDragEvent",
                {
                    "type": kind,
                    "x": 300,
                    "y": 300,
                    "data": {"items": [], "files": list(paths), "dragOperationsMask": 1},
                },
            )
            # Once it is dropped the page has begun to read it.
            over = kind != "drop"
            self.wait(lambda over=over: self.script("return document.body.classList.contains('dropping')") == over)

    def file(self, text, name="texts.wkt"):
        path = os.path.join(self.folder.name, name)
        with open(path, "wb") as out:
            out.write(text if isinstance(text, bytes) else text.encode())
        return path

    def facts(self):
        return " ".join(self.said("facts").split())

    def choose_example(self, name):
        self.by_id("examples-button").click()
        for button in self.driver.find_elements(By.CSS_SELECTOR, "#example-list button"):
            if button.text == name:
                button.click()
                return
        self.fail(f"no example {name}")

    def console(self):
        return [line["message"] for line in self.driver.get_log("browser") if line["level"] in ("SEVERE", "WARNING")]

    def states(self):
        """The page in each of its states, by their names."""
        self.open()
        yield "accepted"
        self.choose_example("Refused, and why")
        yield "refused"
        self.paste("\n".join(f"POINT({n} {n * n})" if n % 7 else f"POINT({n}" for n in range(300)))
        yield "many"
        line = ",".join(f"{n} {n * n / 40}" for n in range(-40, 41))
        self.drop(self.file(f"LINESTRING({line})\nPOINT(1)\n" * 500))
        self.read()
        yield "file"
