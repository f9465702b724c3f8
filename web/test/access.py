"""Names, colours, the focus, and keys alone."""
from chromium import CONTRAST, Page
from selenium import webdriver
from selenium.webdriver.common.by import By
from selenium.webdriver.common.keys import Keys

CONTROLS = "button, summary, a[href], input, select, textarea, [tabindex='0'], progress, [role=region]"


# The contrast between two colours of the page, by their names.
RATIO = """
const light = (name) => {
  const to = document.createElement('canvas').getContext('2d');
  to.fillStyle = getComputedStyle(document.documentElement).getPropertyValue('--' + name).trim();
  return [0.2126, 0.7152, 0.0722].reduce((sum, k, i) => {
    const v = parseInt(to.fillStyle.slice(1 + 2 * i, 3 + 2 * i), 16) / 255;
    return sum + k * (v <= 0.04045 ? v / 12.92 : ((v + 0.055) / 1.055) ** 2.4);
  }, 0);
};
const ratio = (one, other) => {
  const [a, b] = [light(one), light(other)].sort((x, y) => y - x);
  return (a + 0.05) / (b + 0.05);
};
"""


class Access(Page):
    def test_names(self):
        for state in self.states():
            seen = "return [...document.querySelectorAll(arguments[0])].filter((e) => e.checkVisibility())"
            for control in self.script(seen, CONTROLS):
                if not control.accessible_name.strip():
                    self.fail(f"{state}: {control.get_attribute('outerHTML')[:80]}")

    def test_contrast(self):
        self.open()
        for theme in ("light", "dark"):
            self.script("localStorage.clear()")
            for state in self.states():
                if self.script("return document.documentElement.dataset.theme") != theme:
                    self.by_id("theme").click()
                self.said()
                with self.subTest(theme + state):
                    self.assertEqual([], self.script(CONTRAST))
        self.script("localStorage.clear()")

    def test_contrast_of_the_picture(self):
        """Lines, and edges of buttons, have three to one (WCAG 1.4.11); digits at axes and beside the text have 4.5."""
        self.open()
        for theme in ("light", "dark"):
            self.script("document.documentElement.dataset.theme = arguments[0]", theme)
            wanted = {**{f"c{i}": 3 for i in range(8)}, "ink": 3, "strong": 3}
            wanted |= {name: 4.5 for name in ("bad", "good", "note", "faint")}  # the numbers of lines
            found = self.script(RATIO + "return arguments[0].map((name) => ratio(name, 'card'))", list(wanted))
            for (name, least), ratio in zip(wanted.items(), found):
                self.assertGreaterEqual(ratio, least, f"{theme} {name}")

    def test_forced_colors(self):
        """What is chosen is seen where the system sets the colours."""
        features = {"features": [{"name": "forced-colors", "value": "active"}]}
        self.driver.execute_cdp_cmd("Emulation.setEmulatedMedia", features)
        self.open()
        self.paste("POINT(1 2)\nPOINT(1\nPOINT(x\nPOINT(1")
        for chosen in ("#filters [aria-pressed=true]", "#split :checked + span", "#rows [aria-selected=true]"):
            style = self.script("return getComputedStyle(document.querySelector(arguments[0])).outlineStyle", chosen)
            self.assertEqual("solid", style, chosen)
        self.driver.execute_cdp_cmd("Emulation.setEmulatedMedia", {"features": []})

    def test_focus_is_seen(self):
        """Tab comes to every control in its order, and each shows that it has the focus."""
        for state in self.states():
            self.script("document.activeElement.blur(); window.scrollTo(0, 0)")
            wanted = self.script(
                "return [...document.querySelectorAll(arguments[0])].filter((e) => e.tabIndex >= 0 && !e.disabled"
                " && e.tagName !== 'PROGRESS' && (e.checkVisibility()) && !(e.type === 'radio' && !e.checked)).length",
                CONTROLS,
            )
            seen = []
            self.script("document.getElementById('skip').focus()")
            for _ in range(wanted - 1):
                self.press(Keys.TAB)
                outlined, element, text = self.script(
                    "const e = document.activeElement; const shown = e.type === 'radio' ? e.nextElementSibling : e;"
                    " const s = getComputedStyle(shown);"
                    " const seen = s.outlineStyle !== 'none' && parseFloat(s.outlineWidth) >= 2;"
                    " return [seen, e, e.outerHTML.slice(0, 80)]"
                )
                self.assertTrue(outlined, f"{state}: {text}")
                seen.append(element.id)
            self.assertEqual(wanted - 1, len(set(seen)), state)

    def test_keys_alone(self):
        self.open()
        self.press(Keys.TAB, Keys.ENTER)  # to the text
        self.assertEqual("text", self.driver.switch_to.active_element.get_attribute("id"))
        webdriver.ActionChains(self.driver).key_down(Keys.CONTROL).send_keys("a").key_up(Keys.CONTROL).send_keys(
            "POINT(1 2)\nPOINT(1)\nPOINT(3 4)\nPOINT(4,5)"
        ).perform()
        self.assertEqual("2 of 4 lines refused", self.said("say"))

        def alt(key):
            webdriver.ActionChains(self.driver).key_down(Keys.ALT).send_keys(key).key_up(Keys.ALT).perform()

        selected = "const t = document.getElementById('text'); return t.value.slice(t.selectionStart, t.selectionEnd)"
        alt("n")
        self.assertEqual((")", "Line 2, column 8."), (self.script(selected), self.said("why").split(" It")[0]))
        alt("n")
        self.assertEqual((",", "Line 4, column 8."), (self.script(selected), self.said("why").split(" It")[0]))
        self.by_id("canvas").send_keys("")
        for key in (Keys.ARROW_LEFT, "+", "0"):
            self.still()
            before = self.box("--c0")
            self.by_id("canvas").send_keys(key)
            self.wait(lambda before=before: self.box("--c0") != before)
        self.driver.find_element(By.CSS_SELECTOR, "#rows [tabindex='0']").send_keys(Keys.ARROW_UP)
        self.assertEqual("POINT(3 4)", self.said("out"))
        self.assertEqual("3", self.driver.switch_to.active_element.text.split()[0])
        self.hear("copy")
        alt("c")
        self.wait(lambda: "Copied" in self.heard())
        self.driver.find_element(By.CSS_SELECTOR, "#rows [tabindex='0']").send_keys("")
        self.press(Keys.ARROW_DOWN, Keys.ENTER)
        self.assertEqual(
            ("text", ","), (self.driver.switch_to.active_element.get_attribute("id"), self.script(selected))
        )
