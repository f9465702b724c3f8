"""Refusals by their causes: of lines in the field, and of a file."""
import time

from chromium import Page
from selenium.webdriver.common.by import By
from selenium.webdriver.common.keys import Keys

# The sentences of these causes, by docs/names.tsv, and the boxes that may have such texts read.
SRID = "SRID=..; of EWKT is not read; ST_AsText leaves it out; or choose “SRID=4326;” under “Also read”"
EXPONENT = "exponents are not read; write 0.0000001 for 1e-7; or choose “Exponents” under “Also read”"


def line(n):
    if n % 5 == 1:
        return f"SRID=4326;POINT({n} 2)"
    return f"POINT(1e{n} 2)" if n % 10 == 2 else f"POINT({n}" if n % 100 == 3 else f"POINT({n} 2)"


class Causes(Page):
    def causes(self):
        """The cells of the table of causes that is seen."""
        return self.script(
            "return [...document.querySelectorAll('.causes tbody tr')].filter((row) => row.checkVisibility())"
            ".map((row) => [...row.cells].map((cell) => cell.innerText.trim()))"
        )

    def focused(self):
        """The cause of the button that has the focus, and whether it is pressed; None where none has."""
        return self.script(
            "const e = document.activeElement; return e.closest('.causes') && [e.textContent, e.ariaPressed === 'true']"
        )

    def listen(self):
        """Listens to the live region from now on, when it has said what the page says."""
        self.wait(lambda: self.said("say") in self.script("return document.getElementById('spoken').textContent"))
        self.hear("spoken")

    def spoken(self, key):
        """What the live region says after a key, and that it says it once."""
        self.script("window.heard.length = 0")
        self.press(key)
        self.wait(self.heard)
        time.sleep(1)
        (words,) = filter(None, self.heard())
        return words

    def shown(self):
        """How many lines the table of lines has, and what the first that are in the document say of their answer."""
        count = int(self.by_id("table").get_attribute("aria-rowcount")) - 1
        rows = "[...document.querySelectorAll('#rows tr[data-i]')]"
        return count, set(self.script(f"return {rows}.map((row) => row.cells[1].innerText.trim())"))

    def test_keys_alone(self):
        """Tab, Enter and the space bar, with ten thousand lines."""
        self.open()
        self.paste("\n".join(map(line, range(10000))))
        self.assertEqual("3,100 of 10,000 lines refused", self.said("say"))
        self.assertEqual(
            [
                ["srid", SRID, "2,000", "2"],
                ["exponent", EXPONENT, "1,000", "3"],
                ["expected_y", "a second number was expected", "100", "4"],
            ],
            self.causes(),
        )
        self.field().send_keys("")
        for _ in range(40):
            self.press(Keys.TAB)
            if self.focused():
                break
        self.listen()
        self.assertEqual(["srid", False], self.focused())
        self.assertEqual(f"2,000 lines shown: {SRID}.", self.spoken(Keys.ENTER))
        self.assertEqual(["srid", True], self.focused())
        self.assertEqual((2000, {"refused at 1"}), self.shown())
        self.assertIn("SRID=4326;POINT(1 2)", self.said("caret"))
        pressed = self.driver.find_element(By.CSS_SELECTOR, "#filters [aria-pressed=true]").text
        self.assertEqual("srid 2,000", pressed)
        self.press(Keys.TAB)
        self.assertEqual(f"1,000 lines shown: {EXPONENT}.", self.spoken(Keys.SPACE))
        self.assertEqual((1000, {"refused at 7"}), self.shown())
        self.assertEqual("All 10,000 lines are shown.", self.spoken(Keys.ENTER))
        self.assertEqual((["exponent", False], 10000), (self.focused(), self.shown()[0]))

    def test_clicks(self):
        """A click anywhere in the row of a cause; a cause that is gone shows all lines."""
        self.open()
        self.paste("POINT(1 2)\nPOINT(1\nPOINT(2\nPOINT(0.1234 1)\nPOINT(1 2) x")
        self.assertEqual(["expected_y", "not_whole"], [row[0] for row in self.causes()])
        self.driver.find_element(By.CSS_SELECTOR, ".causes tr[data-cause=not_whole] .why").click()
        self.assertEqual((1, {"refused at 12"}), self.shown())
        self.type("POINT(1\nPOINT(2\nPOINT(3 4)")
        self.assertEqual("2 of 3 lines refused", self.said("say"))
        self.assertEqual(3, self.shown()[0])
        self.type("POINT(1\nPOINT(3 4)")
        self.assertEqual("1 of 2 lines refused", self.said("say"))
        self.assertEqual([], self.causes())

    def test_file(self):
        self.open()
        self.drop(self.file("\n".join(map(line, range(30000)))))
        self.assertEqual("9,300 of 30,000 lines refused", self.read())
        self.assertEqual(
            [["srid", "6,000", "2"], ["exponent", "3,000", "3"], ["expected_y", "300", "4"]],
            [[row[0], *row[2:]] for row in self.causes()],
        )
        self.assertEqual("The first 100 of 9,300 refused lines", self.said("refused-lines"))
        self.script("document.querySelector('#file-out .causes tr[data-cause=expected_y] button').focus()")
        self.listen()
        words = "The first 100 of 300 lines refused by expected_y"
        self.assertEqual(f"{words}: a second number was expected", self.spoken(Keys.ENTER))
        self.assertEqual((["expected_y", True], words), (self.focused(), self.said("refused-lines")))
        listed = self.driver.find_element(By.CSS_SELECTOR, "#file-out .refusals").text
        self.assertEqual((100, 0), (listed.count("a second number was expected"), listed.count("SRID")))
        self.assertIn("line 9,904, column", listed)
        self.press(Keys.ENTER)
        self.assertEqual("The first 100 of 9,300 refused lines", self.said("refused-lines"))
