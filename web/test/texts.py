"""Texts in the field: what is said of them, and what is drawn."""
import os
import re

from chromium import Page
from selenium.webdriver.common.by import By
from selenium.webdriver.common.keys import Keys
from selenium.webdriver.support.ui import Select

# The messages of the Rust crate, which may be about another place than the page says.
with open(os.path.join(os.path.dirname(__file__), "../../docs/names.tsv"), encoding="utf-8") as rows:
    MESSAGES = [row.split("\t")[3].strip() for row in rows if row.startswith("message\t")]
# A text; the head of the answer; its words; the marked part of the text; words of the hint.
REFUSED = [
    ("POINT (1 2", "Refused at line 1, column 11", "The text ends there, and ) was expected.", "", ""),
    ("POINT(1)", "Refused at line 1, column 8", "It says ), and a second number was expected.", ")", ""),
    ("point z ( 1.50 -0 two )", "Refused at line 1, column 19", "It says two, and a number z was expected.", "two", ""),
    ("POINT (7.1 50.73 64)", "Refused at line 1, column 18", "It says 64, and ) was expected.", "64",
     "a third number needs Z or M"),
    ("SRID=4326;POINT(1 2)", "Refused at line 1, column 1",
     "It says SRID=4326;POINT, and a kind of geometry, such as POINT, was expected.", "SRID=4326;POINT",
     "ST_AsText leaves it out"),
    ("POINT (1e-7 50)", "Refused at line 1, column 8", "It says 1e-7, and a first number", "1e-7",
     "exponents are not read"),
    ("POINT(1,5 2,5)", "Refused at line 1, column 8", "It says ,, and a second number was expected.", ",",
     "decimals have a point"),
    ("'POINT(1 2)'", "Refused at line 1, column 1", "It says 'POINT, and a kind of geometry", "'POINT",
     "quotes are not read"),
    ("POLYGON(0 0,1 0,0 1,0 0)", "Refused at line 1, column 9", "It says 0, and ( or EMPTY was expected.", "0",
     "numbers stand in parentheses"),
    ("POINT(1 2) POINT(3 4)", "Refused at line 1, column 12", "It says POINT(3, and the end of the text was expected.",
     "POINT(3 4)", ""),
    ("POLYGON ((0 0, 4 0,\n 2 4, 0 0)", "Refused at line 2, column 11", "The text ends there, and , or ) was expected.",
     "", ""),
]  # fmt: skip
# A text; the head of the answer; its canonical text; facts, as words of the page.
ACCEPTED = [
    ("point z ( 1.50 -0 2.0 ) ", "Accepted: Point with Z", "POINT Z(1.5 0 2)",
     ["Dimension XYZ", "Points 1", "x 1.5 to 1.5 · y 0 to 0 · z 2 to 2"]),
    ("POLYGON((0 0,10 0,10 10,0 10,0 0),(2 2,2 4,4 4,4 2,2 2))", "Accepted: Polygon",
     "POLYGON((0 0,10 0,10 10,0 10,0 0),(2 2,2 4,4 4,4 2,2 2))",
     ["Points 10", "Polygons 1", "Rings 2", "x 0 to 10 · y 0 to 10"]),
    ("GEOMETRYCOLLECTION (\nPOINT(1 2),\nPOINT(3 4)\n)", "Accepted: GeometryCollection",
     "GEOMETRYCOLLECTION(POINT(1 2),POINT(3 4))", ["Members 2", "Points 2"]),
    ("linestring m empty", "Accepted: LineString with M", "LINESTRING M EMPTY", ["Points 0", "Empty parts 1"]),
    ("POINT(0.1 0.100000000000000001)", "Accepted: Point", "POINT(0.1 0.100000000000000001)",
     ["y 0.100000000000000001 to 0.100000000000000001"]),
]  # fmt: skip


class Texts(Page):
    def test_refusals(self):
        self.open()
        for text, head, why, marked, hint in REFUSED:
            with self.subTest(text):
                self.type(text)
                self.assertEqual(head, self.said("say"))
                self.assertIn(why, self.said("why"))
                mark = self.driver.find_element(By.CSS_SELECTOR, "#mirror mark")
                self.assertEqual(marked, mark.get_attribute("textContent"))
                self.assertGreaterEqual(mark.rect["width"], 2)
                line = self.said("caret").split("\n")
                column = int(re.search(r"column (\d+)", head)[1])
                self.assertEqual(column - 1, len(line[1]) - len(line[1].lstrip()), line)
                self.assertEqual(text.split("\n")[-1], line[0])
                self.assertIn(hint, self.said("hint") if hint else "")
                self.assertEqual(bool(hint), self.by_id("hint").is_displayed())
                shown = self.script("return document.body.innerText")
                self.assertEqual([], [message for message in MESSAGES if message in shown])
                self.assertEqual("true", self.by_id("text").get_attribute("aria-invalid"))

    def test_accepted(self):
        self.open()
        for text, head, canonical, facts in ACCEPTED:
            with self.subTest(text):
                self.type(text)
                self.assertEqual(head, self.said("say"))
                self.assertEqual(canonical, self.said("out"))
                for fact in facts:
                    self.assertIn(fact, self.facts())
                self.assertEqual("false", self.by_id("text").get_attribute("aria-invalid"))

    def test_geojson(self):
        self.open()
        self.type("POINT(0.1 12345678901234567890)")
        # The forms of the answer are there once it is.
        self.assertEqual("POINT(0.1 12345678901234567890)", self.said("out"))
        self.by_id("out").parent.find_element(By.CSS_SELECTOR, "input[value=geojson] + span").click()
        self.assertEqual('{"type":"Point","coordinates":[0.1,12345678901234567890]}', self.said("out"))
        self.type("POINT M(1 2 3)")
        self.assertEqual('{"type":"Point","coordinates":[1,2]}', self.said("out"))
        self.assertIn("GeoJSON has no m", self.said("notes"))
        self.type("MULTIPOINT(1 2, EMPTY)")
        self.assertIn("GeoJSON has no", self.said("out"))
        self.assertFalse(self.by_id("copy").is_enabled())

    def test_copies(self):
        self.open()
        for button, copied in (
            ("copy", "POINT(1 2)"),
            ("copy-link", self.script("return location.href.split('#')[0]") + "#wkt=point+%281.0+2%29"),
        ):
            with self.subTest(button):
                words = self.said(button)
                self.hear(button)
                # The click comes before the answer, and a second one while the button still says that it has copied.
                self.script(
                    "const t = document.getElementById('text'), b = document.getElementById(arguments[0]);"
                    "document.addEventListener('click', () => { setTimeout(() => b.click(), 300);"
                    " t.value = 'point (1.0 2)'; t.dispatchEvent(new Event('input')); },"
                    " { capture: true, once: true })",
                    button,
                )
                self.by_id(button).click()
                self.wait(lambda: len(self.heard()) == 4)
                self.assertEqual(("Copied", words), (self.heard()[0], self.heard()[-1]))
                self.wait(lambda copied=copied: self.pasted() == copied, 30)

    def test_link_of_a_refused_text(self):
        self.open()
        self.type("POINT(1)")
        self.assertEqual("Refused at line 1, column 8", self.said("say"))
        self.by_id("copy-link").click()
        link = self.script("return location.href.split('#')[0]") + "#wkt=POINT%281%29"
        self.wait(lambda: self.pasted() == link, 30)
        self.by_id("clear").click()
        self.assertFalse(self.by_id("copy-link").is_enabled())

    def test_notes(self):
        self.open()
        self.type("POLYGON((0 0,1 0,1 1))")
        self.assertIn("1 ring doesn’t end where it begins", self.said("notes"))
        self.type("POLYGON((0 0,1 0,1 1,0 0))")
        self.assertEqual("Accepted: Polygon", self.said("say"))
        self.assertFalse(self.by_id("notes").is_displayed())

    def test_lines(self):
        self.open()
        self.type("POINT(1 2)\npoint (1.0 2)\nPOINT(1)\n\nLINESTRING(0 0,4 4)")
        self.assertIn("Line 5 is accepted.", self.said("why"))  # the line in which one types
        self.paste(self.by_id("text").get_attribute("value"))
        self.assertEqual("1 of 4 lines refused", self.said("say"))
        self.assertIn("Line 3, column 8.", self.said("why"))
        rows = [" ".join(row.text.split()) for row in self.driver.find_elements(By.CSS_SELECTOR, "#rows tr")]
        self.assertEqual(
            [
                "1 Point 1 POINT(1 2)",
                "2 Point = line 1 1 point (1.0 2)",
                "3 refused at 8 POINT(1)",
                "5 LineString 2 LINESTRING(0 0,4 4)",
            ],
            rows,
        )
        self.assertEqual("3 geometries · 4 points · x 0 to 4 · y 0 to 4", self.said("totals"))
        self.driver.find_element(By.CSS_SELECTOR, "#rows tr:nth-child(4) td").click()
        self.assertEqual("LINESTRING(0 0,4 4)", self.said("out"))
        self.driver.find_element(By.CSS_SELECTOR, "[data-filter=repeats]").click()
        self.assertEqual(1, len(self.driver.find_elements(By.CSS_SELECTOR, "#rows tr")))

    def test_splitting(self):
        self.open()
        for text, split, said in (
            ("POINT(1 2)\nPOINT(3 4)", "auto", "All 2 lines accepted"),
            ("POINT(1\n2)", "auto", "Accepted: Point"),
            ("POINT\n(1 2)", "auto", "Accepted: Point"),
            ("POLYGON((0 0,1 1\nPOINT(1 2)", "auto", "1 of 2 lines refused"),
            ("POINT(1\n2)", "lines", "2 of 2 lines refused"),
            ("POINT(1 2)\nPOINT(3 4)", "one", "Refused at line 2, column 1"),
        ):
            with self.subTest(text + " " + split):
                self.driver.find_element(By.CSS_SELECTOR, f"input[value={split}] + span").click()
                self.paste(text)
                self.assertEqual(said, self.said("say"))

    def test_places(self):
        self.open("#wkt=POINT+%281.25+2%29&places=1")
        self.assertEqual("Refused at line 1, column 8", self.said("say"))
        self.assertIn("1", self.said("hint"))
        Select(self.by_id("places")).select_by_value("2")
        self.assertEqual("Accepted: Point", self.said("say"))
        fine = "POINT(0.000000000000000000000000000000000001 170)"
        for asked, places in (("", 18), ("&places=36", 36), ("&places=37", 18)):
            self.open(f"#wkt={fine.replace(' ', '+')}{asked}")
            self.assertEqual("Accepted: Point" if places == 36 else "Refused at line 1, column 7", self.said("say"))
            self.assertEqual(str(places), self.by_id("places").get_attribute("value"))
        Select(self.by_id("places")).select_by_value("36")
        self.assertEqual("Accepted: Point", self.said("say"))
        self.paste("POINT(180 0)")
        self.assertEqual("Refused at line 1, column 7", self.said("say"))
        self.assertIn("with 18 places", self.said("hint"))

    def test_links(self):
        self.open("#wkt=POINT%281%0A2%29&as=lines")
        self.assertEqual("2 of 2 lines refused", self.said("say"))
        self.type("POINT(3 4)")
        self.wait(lambda: "wkt=POINT%283+4%29&as=lines" in self.driver.current_url)
        self.driver.refresh()
        self.wait(lambda: self.script("return document.documentElement.dataset.ready"))
        self.assertEqual("POINT(3 4)", self.by_id("text").get_attribute("value"))

    def test_picture(self):
        self.open()
        self.paste("MULTIPOINT(0 0,10 0,10 10,0 10)")
        left, top, right, bottom = self.box("--c0")
        self.assertAlmostEqual(right - left, bottom - top, delta=2)  # to scale
        self.paste("POLYGON((0 0,10 0,10 10,0 10,0 0),(2 2,2 4,4 4,4 2,2 2))")
        left, top, right, bottom = self.box("--c0")

        def at(x, y):
            return self.is_drawn(round(left + (right - left) * x / 10), round(bottom - (bottom - top) * y / 10))

        self.assertTrue(at(6.1, 7.3))  # filled
        self.assertFalse(at(2.9, 3.1))  # the hole is none of it, and y is up
        self.paste("LINESTRING(0 0,0 10,1 10)")
        whole = self.box("--c0")
        self.assertIsNone(self.box("--bad"))
        self.paste("LINESTRING(0 0,0 10,1 10,1 x)")  # the part before the refusal
        front = self.box("--bad")
        self.assertAlmostEqual(whole[3] - whole[1], front[3] - front[1], delta=8)
        self.assertIn("dashed", self.said("drawn"))
        self.assertIn("the part before the refusal: LineString", self.by_id("canvas").get_attribute("aria-label"))
        self.assertNotIn("vertex", self.said("drawn"))
        self.paste(f"LINESTRING({','.join(f'{n} {n * n}' for n in range(1000))})")
        self.assertIn("□ last vertex", self.said("drawn"))
        self.paste("MULTIPOINT(0 0,1 1)")
        width = (lambda box: box[2] - box[0])(self.box("--c0"))
        self.by_id("out-zoom").click()
        self.wait(lambda: (lambda box: box[2] - box[0])(self.box("--c0")) < 0.8 * width)

    def test_undo(self):
        """What is put in place of typed text is undone, step by step."""
        self.open()
        typed = "POINT(12 34)"
        self.type(typed)
        self.by_id("clear").click()
        self.assertEqual("", self.value())
        self.undo()
        self.assertEqual(typed, self.value())
        self.assertEqual("Accepted: Point", self.said("say"))
        self.script("location.hash = '#wkt=POINT%2878+9%29'")
        self.wait(lambda: self.value() == "POINT(78 9)")
        self.undo()
        self.assertEqual(typed, self.value())
        self.choose_example("Collection")
        collection = self.value()
        self.assertEqual("Accepted: GeometryCollection", self.said("say"))
        self.choose_example("Islands")
        islands = self.value()
        self.assertTrue(islands.startswith("MULTIPOLYGON"))
        for wanted in (collection, typed):
            self.undo()
            self.assertEqual(wanted, self.value())
        self.by_id("text").send_keys(Keys.CONTROL, Keys.SHIFT, "z")
        self.assertEqual(collection, self.value())
        self.drop(self.file("POINT(5 6)\n" * 3))
        self.wait(lambda: self.said("say") == "All 3 lines accepted")
        self.undo()
        self.assertEqual(collection, self.value())
        self.drop(self.file("POINT(5 6)\n" * 30000))
        self.assertEqual("All 30,000 lines accepted", self.read())
        self.undo()
        self.assertEqual((collection, "Accepted: GeometryCollection"), (self.value(), self.said("say")))

    def test_examples_by_keys(self):
        """Arrow keys on the closed list change nothing; it opens, and Escape closes it."""
        self.open()
        self.type("POINT(12 34)")
        button = self.script(
            "const e = document.getElementById('examples'), b = e.querySelector('summary') ?? e; b.focus(); return b"
        )
        for key in (Keys.ARROW_DOWN, Keys.ARROW_UP, Keys.END, "P"):
            button.send_keys(key)
        self.assertEqual("POINT(12 34)", self.value())
        button.send_keys(Keys.ENTER)
        self.assertTrue(self.by_id("example-list").is_displayed())
        self.press(Keys.TAB, Keys.ESCAPE)
        self.assertFalse(self.by_id("example-list").is_displayed())
        self.assertEqual(button, self.driver.switch_to.active_element)
        self.press(Keys.ENTER, Keys.TAB, Keys.TAB, Keys.ENTER)
        self.assertIn("TRIANGLE", self.value())

    def test_what_is_not_printable(self):
        """A stranger's characters that turn words around, or aren't seen, are shown by their numbers."""
        self.open()
        line, shown = "POINT(\u202e\x1b\x9b\u2028\u00a0x 2)\n", "\\u{202e}\\x1b\\u{9b}\\u{2028}\\u{a0}x"
        self.paste("POINT(1 2)\n" + line)
        self.assertIn(f"It says {shown}, and", self.said("why"))
        self.assertIn(f"POINT({shown} 2)", self.said("caret"))
        self.assertIn(f"POINT({shown} 2)", self.said("rows"))
        self.assertEqual(["text"], self.raw())
        self.drop(self.file(line.encode() + b"POINT(\xe2\x80\xae\xff 2)\n" * 30000, "a\u202eb.wkt"))
        self.assertEqual("30,001 of 30,001 lines refused", self.read())
        self.assertEqual("a\\u{202e}b.wkt", self.said("h-file"))
        self.assertIn(f"and not {shown}", self.said("file-out"))
        self.assertEqual([], self.raw())

    def raw(self):
        """The elements in which such a character stands."""
        return self.script(
            r"const own = (e) => [...e.childNodes].map((n) => n.data ?? '').join('') + (e.value ?? '');"
            r"return [...document.querySelectorAll('body *')].filter((e) => !e.closest('script, .mirror')"
            r" && /[\x1b\x80-\xa0\u2028\u202e]/.test(own(e))).map((e) => e.id || e.tagName)"
        )

    def test_deep(self):
        self.open()
        self.paste("GEOMETRYCOLLECTION(" * 100000 + "POINT(1 2)" + ")" * 100000)
        self.wait(lambda: self.said("say") == "Accepted: GeometryCollection")
        self.assertIn("Nested 100,000 deep", self.facts())
