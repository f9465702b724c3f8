"""What other tools write: boxes of dialects, for texts, links and files."""
from chromium import Page
from selenium.webdriver.common.by import By
from selenium.webdriver.common.keys import Keys

NAMES = {"srid": "SRID=4326;", "untagged": "Z without a word", "exponents": "Exponents", "nan": "nan as EMPTY"}
TEXT = "SRID=4326;POINT(1e3 2 3)\nPOINT(nan nan)\nPOINT(1 2)\nPOINT(-nan 1)"
# What the row of a cause says, with the box that isn't chosen.
SENTENCES = {
    "srid": "SRID=..; of EWKT is not read; ST_AsText leaves it out; or choose “SRID=4326;”"
    " under “Also read”",
    "dimension": "a third number needs Z or M, as in POINT Z(1 2 3), and a fourth ZM; or choose “Z without a word”"
    " under “Also read”",
    "exponent": "exponents are not read; write 0.0000001 for 1e-7; or choose “Exponents” under “Also read”",
    "no_number": "NaN and infinity are no decimals; EMPTY says that there is no point; or choose “nan as EMPTY”"
    " under “Also read”",
}


class Dialects(Page):
    def box(self, name):
        return self.driver.find_element(By.CSS_SELECTOR, f"#dialects [value={name}]")

    def chosen(self):
        return [name for name in NAMES if self.box(name).is_selected()]

    def choose(self, *names):
        for name in NAMES:
            if (name in names) != self.box(name).is_selected():
                self.box(name).click()

    def hinted(self):
        """The sentences of the causes, by their names."""
        return self.script(
            "return Object.fromEntries([...document.querySelectorAll('.causes tbody tr')]"
            ".filter((row) => row.checkVisibility()).map((row) => [row.dataset.cause, row.cells[1].innerText.trim()]))"
        )

    def test_texts(self):
        self.open()
        self.paste(TEXT)
        self.assertEqual("3 of 4 lines refused", self.said("say"))
        self.assertEqual(f"Why: {SENTENCES['srid']}.", self.said("hint"))
        self.choose("srid")
        self.assertEqual(f"Why: {SENTENCES['exponent']}.", self.said("hint"))
        self.choose("srid", "exponents")
        self.assertEqual(f"Why: {SENTENCES['dimension']}.", self.said("hint"))
        self.choose(*NAMES)
        self.assertEqual("1 of 4 lines refused", self.said("say"))
        self.assertIn("no decimals", self.said("hint"))
        self.assertNotIn("choose", self.said("hint"))
        self.driver.find_element(By.CSS_SELECTOR, "#rows td").click()
        self.assertEqual("POINT Z(1000 2 3)", self.said("out"))
        self.assertIn("SRID 4326", self.facts())
        self.choose("untagged", "exponents")
        self.assertEqual("3 of 4 lines refused", self.said("say"))
        self.type("POINT(1 2 3)")
        self.assertEqual("POINT Z(1 2 3)", self.said("out"))
        self.assertNotIn("SRID", self.facts())
        self.choose("srid")
        self.type("SRID=7;POINT(1 2)")
        self.assertIn("SRID 7", self.facts())
        self.type("POINT(1 2)")
        self.assertNotIn("SRID", self.facts())

    def test_causes(self):
        self.open()
        one = ["SRID=1;POINT(1 2)", "POINT(1 2 3)", "POINT(1e1 2)", "POINT(nan nan)"]
        self.paste("\n".join(one * 3))
        self.assertEqual(SENTENCES, self.hinted())
        self.choose("nan", "srid")
        self.said()
        self.assertEqual({name: SENTENCES[name] for name in ("dimension", "exponent")}, self.hinted())

    def test_links(self):
        self.open("#wkt=SRID%3D1%3BPOINT%281+2+3%29&dialects=untagged,srid")
        self.assertEqual(("POINT Z(1 2 3)", ["srid", "untagged"]), (self.said("out"), self.chosen()))
        self.choose("nan")
        self.wait(lambda: self.driver.current_url.endswith("&dialects=nan"))
        self.assertIn("Refused", self.said("say"))
        self.choose()
        self.wait(lambda: "dialects" not in self.driver.current_url)
        for unknown in ("", "all", "SRID", "srid;nan"):
            self.open(f"#wkt=POINT%281+2%29&dialects={unknown}")
            self.assertEqual(([], "POINT(1 2)"), (self.chosen(), self.said("out")))

    def test_keys_alone(self):
        """Tab and the space bar; each box has its name, and shows that it has the focus."""
        self.open()
        self.paste("POINT(1 2 3)")
        self.assertEqual(list(NAMES.values()), [self.box(name).accessible_name for name in NAMES])
        self.assertEqual("Also read", self.driver.find_element(By.ID, "dialects").accessible_name)
        self.by_id("places").send_keys("")
        for name in NAMES:
            self.press(Keys.TAB)
            value, outline = self.script(
                "const e = document.activeElement; const s = getComputedStyle(e);"
                " return [e.value, s.outlineStyle !== 'none' && parseFloat(s.outlineWidth) >= 2]"
            )
            self.assertEqual((name, True), (value, outline))
            if name == "untagged":
                self.press(Keys.SPACE)
                self.assertEqual("POINT Z(1 2 3)", self.said("out"))

    def test_file(self):
        self.open()
        self.choose("srid", "untagged", "exponents")
        n = 20000
        lines = [f"SRID=4326;POINT({k}e1 2 3)" if k % 2 else f"POINT({k} 2)" for k in range(n)] + ["POINT(nan nan)"] * 2
        self.drop(self.file("\n".join(lines)))
        self.assertEqual(f"2 of {n + 2:,} lines refused", self.read())
        self.assertEqual({"no_number": SENTENCES["no_number"]}, self.hinted())
        self.choose("srid", "untagged", "exponents", "nan")
        self.assertEqual(f"All {n + 2:,} lines accepted", self.read())
        self.assertIn("1 line repeats", self.said("why"))
        self.choose()
        self.assertEqual(f"{n // 2 + 2:,} of {n + 2:,} lines refused", self.read())
