"""What the page takes in and gives out, what it says of a place in the picture, and how fluent it is."""
import json
import math
import os
import time

from chromium import Page
from many import SELECT
from selenium.webdriver import ActionChains
from selenium.webdriver.common.by import By
from selenium.webdriver.support.ui import Select

LINES = "POINT(0.10 2)\nLINESTRING(1 2)\nPOLYGON((0 0,0 1,1 1,0 0))\nPOINT(1)\nPOINT M(1 2 3)"
# The table of their refusals, by docs/names.tsv.
REFUSALS = [
    "line,place,expected,cause,hint,message,text",
    '4,8,a second number,expected_y,,"a second number was expected, and not )",POINT(1)',
    "",
]
# A text; the words on the button; what stands in the field then.
TAKEN = [
    ("\ufeffPOINT(1 2)", "Take it off", "POINT(1 2)"),
    ('{"type":"Feature","geometry":{"type":"Point","coordinates":[0.1,2]}}', "Turn it into WKT", "POINT(0.1 2)"),
    ('id,geom\n1,"LINESTRING(0 0,1 1)"\n2,POINT(1 2)', "Take column “geom”", "LINESTRING(0 0,1 1)\nPOINT(1 2)"),
    ("'POINT(1 2)',\n'POINT(3 4)'", "Take them off", "POINT(1 2)\nPOINT(3 4)"),
]
# The most milliseconds that a key takes in ten thousand lines: of the main thread, and by the clock until the answer.
# Where a key takes longer than BARE in a bare field, it may take as many times more: so half as long as there, where it
# was 0.26 to 0.33 times as long. The least of KEYS counts, and all is measured again up to ROUNDS times, so that the
# bounds hold on a busy machine too.
MAIN, ANSWERED, BARE, KEYS, ROUNDS = 16, 50, 32, 10, 3
LINES_OF_TYPING = "\n".join(f"POLYGON(({n} 0,4.25 0,2.125 4,{n} 0))" for n in range(10000))
# Whether there is nothing left to answer.
IDLE = "return document.getElementById('verdict')?.getAttribute('aria-busy') !== 'true'"
# Counts the elements that are made, and keeps what the page says when a character is typed.
MADE = """
[window.made, window.atOnce] = [0, ''];
new MutationObserver((all) => all.forEach(({ addedNodes }) =>
  { window.made += [...addedNodes].filter((node) => node.nodeType === 1).length; }))
  .observe(document, { subtree: true, childList: true });
addEventListener('beforeinput', () => { window.atOnce = document.getElementById('out').textContent; });
"""
# Keeps how long each answer took after its key.
ANSWERS = """
window.answered = [];
let begun = 0;
const verdict = document.getElementById('verdict');
addEventListener('beforeinput', () => { begun = performance.now() }, true);
new MutationObserver(() => verdict.getAttribute('aria-busy') === 'false' && begun &&
  window.answered.push(performance.now() - begun)).observe(verdict, { attributeFilter: ['aria-busy'] });
"""


class Give(Page):
    def choose(self, **chosen):
        for name, value in chosen.items():
            Select(self.by_id("give-" + name)).select_by_value(value)

    def saved(self, name):
        path = os.path.join(self.folder.name, name)
        self.by_id("give-save").click()
        self.wait(lambda: os.path.exists(path) and os.path.getsize(path) > 0 and self.said("given").startswith("Saved"))
        with open(path, encoding="utf-8", newline="") as file:
            text = file.read()
        os.remove(path)
        return text

    def test_given(self):
        self.open()
        self.paste(LINES)
        self.assertEqual(
            "POINT(0.1 2)\nLINESTRING(1 2)\nPOLYGON((0 0,0 1,1 1,0 0))\nPOINT M(1 2 3)\n",
            self.saved("texts.canonical.wkt"),
        )
        self.assertIn("1 refused line left out", self.said("given"))
        self.choose(form="geojson", m="drop")
        features = json.loads(self.saved("texts.geojson"))["features"]
        self.assertEqual([1, 3, 5], [it["properties"]["line"] for it in features])
        self.assertEqual([[[0, 0], [1, 1], [0, 1], [0, 0]]], features[1]["geometry"]["coordinates"])  # RFC 7946, 3.1.6
        self.assertEqual([1, 2], features[2]["geometry"]["coordinates"])
        self.assertIn("line 2: a line has less than two positions", self.said("given"))
        self.choose(form="csv")
        self.assertEqual(REFUSALS, self.saved("texts.refusals.csv").split("\r\n"))
        self.choose(form="wkt", refused="keep")
        self.by_id("give-copy").click()
        self.wait(lambda: self.said("given").startswith("Copied"))
        self.wait(lambda: (self.pasted().split("\n") + [""] * 4)[3] == "refused", 30)

    def test_given_of_a_file(self):
        self.open()
        self.drop(self.file("\n".join(["POINT(1 2)", "POINT(1)"] * 30000)))
        self.assertEqual("30,000 of 60,000 lines refused", self.read())
        self.choose(form="geojson", refused="drop")
        self.hear("given")
        features = json.loads(self.saved("texts.geojson"))["features"]
        self.assertEqual(["Saved. 30,000 refused lines left out."], list(filter(None, self.heard())))
        self.assertEqual((30000, 59999), (len(features), features[-1]["properties"]["line"]))
        self.choose(form="csv")
        self.assertEqual(20001, self.saved("texts.refusals.csv").count("\r\n"))
        self.assertIn("the first 20,000 of 30,000 refusals", self.said("given"))

    def test_taken(self):
        self.open()
        for text, words, wanted in TAKEN:
            with self.subTest(words):
                self.paste(text)
                (button,) = self.driver.find_elements(By.CSS_SELECTOR, "#offer button")
                self.assertEqual(words, button.text)
                button.click()
                self.wait(lambda wanted=wanted: self.value() == wanted)
                self.assertIn("ccepted", self.said("say"))
                self.undo()
                self.assertEqual("", self.value().replace(text, ""))
        self.paste("POINT(1 2)")
        self.assertFalse(self.by_id("offer").is_displayed())
        self.paste('[{"type":"Point","coordinates":[1,2]},{"type":"Feature","geometry":null}]')
        self.driver.find_element(By.CSS_SELECTOR, "#offer button").click()
        self.wait(lambda: "1 left out: feature 2: it has no geometry." in self.said("offer"))
        # Why a text isn't turned is said once, and of no other text.
        self.paste('{"type":"Point","coordinates":[1,2]')
        for _ in range(2):
            self.driver.find_element(By.CSS_SELECTOR, "#offer button").click()
            self.wait(lambda: self.said("offer").count("JSON: it ends too early") == 1)
            time.sleep(0.3)
        self.assertEqual(1, self.said("offer").count("JSON: it ends too early"))
        self.paste('{"type":"Point","coordinates":[1,2]}')
        self.assertNotIn("JSON:", self.said("offer"))

    def test_file_taken(self):
        self.open()
        rows = "".join(f'{n},"POINT({n}.0 1)"\r\n' for n in range(30000))
        self.drop(self.file("id,wkt\r\n" + rows + "30000,POINT(1)\r\n", "table.csv"))
        self.assertIn("refused", self.read())
        self.driver.find_element(By.CSS_SELECTOR, "#file-out .offer button").click()
        self.assertEqual("1 of 30,001 lines refused", self.read())
        self.assertIn("line 30,002, column 8", self.said("file-out"))
        self.drop(self.file("POLYGON((0 0,\n1 0,1 1,0 0))\n" * 20000 + "POINT(1\n"))
        self.assertEqual("1 of 20,001 lines refused", self.read())
        self.assertIn("line 40,001", self.said("file-out"))
        # A byte order mark is taken off, and what stands behind it stays what it was.
        for text, before, after in (
            ("POLYGON((0 0,\n1 0,1 1,0 0))\n" * 20000, "1 of 20,000 lines refused", "All 20,000 lines accepted"),
            ("LINESTRING(0 0,\n" + "1 1,\n" * 80000 + "2 2)", "The text is refused", "The text is accepted"),
        ):
            with self.subTest(after):
                self.drop(self.file("\ufeff" + text))
                self.assertEqual(before, self.read())
                self.driver.find_element(By.CSS_SELECTOR, "#file-out .offer button").click()
                self.assertEqual(after, self.read())

    def test_readout(self):
        self.open()
        self.paste("POLYGON((0 0,30 0,30 40.50,0 0))\nPOINT(1 1)")
        self.driver.find_element(By.CSS_SELECTOR, "#rows td").click()
        self.by_id("canvas").send_keys("")
        for _ in range(3):
            self.press(".")
        self.wait(lambda: "30 40.5" in self.said("vertex"))
        self.assertEqual("30 40.5 · vertex 3 of 4 vertices · ring: length 120.901 · line 1", self.said("vertex"))
        self.press(",")
        self.wait(lambda: "30 0 · vertex 2 of 4" in self.said("vertex"))
        left, top, right, bottom = self.box("--c0")
        canvas = self.by_id("canvas")
        size = canvas.size
        x, y = (left + right) / 2 - size["width"] / 2, bottom - 6 - size["height"] / 2
        ActionChains(self.driver).move_to_element_with_offset(canvas, round(x), round(y)).perform()
        readout = "return document.getElementById('readout').textContent"
        self.wait(lambda: "4 vertices in the ring" in self.script(readout))

    def test_vertex_out_of_view(self):
        """A vertex to which a key goes is seen, also where the picture is magnified."""
        self.open()
        self.paste("LINESTRING(0 0,30 40,60 0)")
        for _ in range(8):
            self.by_id("in").click()
        self.by_id("canvas").send_keys("")
        for wanted in ("0 0", "30 40", "60 0"):
            self.press(".")
            self.wait(lambda wanted=wanted: self.said("vertex").startswith(wanted))
            self.still()
            self.wait(lambda: self.box("--ink"), 30)

    def test_spoken_once(self):
        """The live region speaks when one has stopped typing, and not at each key."""
        self.open()
        self.type("P")
        self.wait(lambda: "expected" in self.script("return document.getElementById('spoken').textContent"))
        self.hear("spoken")
        self.script(
            "const t = document.getElementById('text'); for (const c of 'OINT(1 2)') { t.value += c;"
            " t.dispatchEvent(new Event('input')); }"
        )
        self.wait(lambda: "Accepted" in "".join(self.heard()))
        time.sleep(1)
        # On a busy machine it may say before that it is at work.
        said = [words for words in self.heard() if not words.startswith("Checking")]
        self.assertEqual(["Accepted: Point. It has 1 point."], said)
        live = self.script("return [...document.querySelectorAll('[role=status], [aria-live]')].map((e) => e.id)")
        self.assertEqual(["spoken", "vertex", "given"], sorted(live, key=["spoken", "vertex", "given"].index))

    def test_labels(self):
        """Labels of numbers of 20 digits don't overlap."""
        self.open()
        for text in (
            "LINESTRING(12345678901234567890 1,12345678901234569999 2)",
            "MULTIPOINT(-0.00000000012345 5,1000000000.123456789 6)",
        ):
            self.paste(text)
            labels = self.script("return document.getElementById('canvas').labels")
            self.assertGreater(len(labels), 1)
            for i, (x, y, width) in enumerate(labels):
                for other, at, wide in labels[:i]:
                    self.assertFalse(abs(y - at) < 11 and x < other + wide and other < x + width, text)

    def key(self, *kinds):
        """Milliseconds of the main thread, and of its scripts, from a key on until it is answered."""
        names = ("TaskDuration", "ScriptDuration")
        before = self.metrics(*names)
        for kind in kinds:
            key = {"type": kind, "key": "5", **({"text": "5"} if kind == "keyDown" else {})}
            self.driver.execute_cdp_cmd("Input.dispatchKeyEvent", key)
        time.sleep(0.4)
        self.wait(lambda: self.script(IDLE))
        return [1000 * (now - then) for now, then in zip(self.metrics(*names), before)]

    def least(self):
        """The least that a key takes of some, without what asking for it takes."""
        asking = zip(*(self.key() for _ in range(KEYS)))
        keys = zip(*(self.key("keyDown", "keyUp") for _ in range(KEYS)))
        return [min(times) - min(without) for times, without in zip(keys, asking)]

    def least_in_the_page(self, text):
        """The same in the page, in the middle of what is seen; and the least until an answer."""
        self.open()
        self.paste(text)
        self.assertLess(len(self.driver.find_elements(By.CSS_SELECTOR, "#rows tr, #mirror > div")), 120)
        self.script(ANSWERS)
        self.script(SELECT, [10, 10], [10, 10])
        page = self.least()
        answered = self.script("return window.answered")
        self.assertGreaterEqual(len(answered), KEYS)
        return page, min(answered)

    def least_in_a_field(self, text):
        field = "<textarea id=text spellcheck=false style='width:600px;height:300px;white-space:pre'>"
        self.driver.get("data:text/html," + field)
        self.script("const t = document.getElementById('text'); t.value = arguments[0]; t.focus()", text)
        self.script("document.getElementById('text').setSelectionRange(400, 400)")
        return self.least()

    def test_what_a_key_changes(self):
        """A character is answered at once, and no element is made anew."""
        self.open()
        self.paste(LINES_OF_TYPING)
        self.script(SELECT, [10, 10], [10, 10])
        self.press("5")
        self.said()
        self.script(MADE)
        self.press("6")
        wanted = "POLYGON((1560 0,4.25 0,2.125 4,10 0))"
        self.assertEqual([0, wanted], self.script("return [window.made, window.atOnce]"))
        self.still()
        self.assertEqual([0, wanted], [self.script("return window.made"), self.said("out")])
        self.assertIn(wanted, self.said("rows"))

    def test_typing(self):
        """What a key takes in ten thousand lines; few of the lines stand in the document beside the field."""
        text = LINES_OF_TYPING
        least = [math.inf] * 3
        for _ in range(ROUNDS):
            ((main, scripts), answered), (bare, _) = self.least_in_the_page(text), self.least_in_a_field(text)
            self.note(
                f"a key in 10,000 lines: {main:.1f} ms of the main thread, {scripts:.1f} of them by scripts,"
                f" {answered:.0f} until the answer; {bare:.1f} in a bare field"
            )
            least = [min(pair) for pair in zip(least, (main, answered, bare))]
            slower = max(1, least[2] / BARE)
            if least[0] < MAIN * slower and least[1] < ANSWERED * slower:
                return
        self.fail(f"a key took more than {MAIN} ms of the main thread, or {ANSWERED} until the answer")
