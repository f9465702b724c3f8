"""The field of many lines: it has to do what a textarea does."""
import time

from chromium import Page
from selenium.webdriver.common.keys import Keys

LINES = [f"POINT({n} {n % 7})" for n in range(1000)]
TEXT = "\n".join(LINES)
# Selects in the field of many lines, by lines and columns, from 0 on.
SELECT = """
const place = ([line, column]) => {
  for (const block of document.getElementById('many').children) {
    const lines = block.textContent.split('\\n');
    const before = lines.slice(0, line).reduce((sum, it) => sum + it.length + 1, column);
    if (line < lines.length) return [block.firstChild, before];
    line -= lines.length;
  }
};
document.getElementById('many').focus();
getSelection().setBaseAndExtent(...place(arguments[0]), ...place(arguments[1]));
"""
# The line and the column of the caret, counted in the document.
CARET = """
const { focusNode, focusOffset } = getSelection();
const range = document.createRange();
let before = 0;
for (const block of document.getElementById('many').children) {
  if (!block.contains(focusNode)) {
    before += block.textContent.split('\\n').length;
    continue;
  }
  range.setStart(block, 0);
  range.setEnd(focusNode, focusOffset);
  const lines = range.toString().split('\\n');
  return [before + lines.length - 1, lines.at(-1).length];
}
"""


class Many(Page):
    def lines(self, text=TEXT):
        self.open()
        self.paste(text)
        self.assertEqual("many", self.field().get_attribute("id"))

    def select(self, start, stop=None):
        self.script(SELECT, start, stop or start)

    def caret(self):
        return tuple(self.script(CARET))

    def test_keys(self):
        """What keys do to the text is what they do in a textarea with the same text, from the same place."""
        tries = [
            ((59, 4), (59, 4), ["x"]),
            ((59, 11), (59, 11), [Keys.DELETE]),  # at the end of a block
            ((60, 0), (60, 0), [Keys.BACKSPACE]),  # at the beginning of one
            ((60, 0), (60, 0), [Keys.ENTER, "y", Keys.ENTER, Keys.ENTER, "z"]),
            ((59, 11), (59, 11), [Keys.ENTER, "y"]),
            ((10, 3), (500, 4), ["x", "y"]),  # over some blocks
            ((59, 11), (60, 0), ["x"]),
            ((120, 0), (180, 0), [Keys.BACKSPACE, "x", Keys.BACKSPACE, Keys.BACKSPACE]),
            ((999, len(LINES[999])), (999, len(LINES[999])), [Keys.ENTER, "end"]),
            ((0, 0), (0, 0), [Keys.BACKSPACE, "begin", Keys.DELETE]),
            ((59, 5), (59, 5), [Keys.DOWN, "x", Keys.DOWN, Keys.DOWN, "y", Keys.UP, Keys.UP, Keys.UP, "z"]),
            ((58, 0), (58, 0), [Keys.END, Keys.RIGHT, "a", Keys.HOME, Keys.LEFT, "b"]),
            ((179, 3), (179, 3), [(Keys.SHIFT, Keys.DOWN), (Keys.SHIFT, Keys.DOWN), "q"]),
            ((59, 8), (59, 8), [(Keys.CONTROL, Keys.BACKSPACE), (Keys.CONTROL, Keys.DELETE)]),
            ((300, 2), (300, 2), [(Keys.CONTROL, Keys.END), "end", (Keys.CONTROL, Keys.HOME), "begin"]),
            ((60, 0), (60, 3), [(Keys.CONTROL, "x"), Keys.DOWN, (Keys.CONTROL, "v")]),
        ]
        wanted = [self.in_a_textarea(*it) for it in tries]
        self.lines()
        for (start, stop, keys), text in zip(tries, wanted):
            with self.subTest(f"{start} {stop} {keys}"):
                self.paste(TEXT)
                self.select(start, stop)
                self.keys(keys)
                self.assertEqual(text, self.value())
                for _ in keys:
                    if self.value() != TEXT:
                        self.hold(Keys.CONTROL, "z")
                self.assertEqual(TEXT, self.value())

    def test_undone(self):
        """Keys in a row are undone at once, step by step, through both fields, and done again."""
        self.open()
        self.type("POINT(1 2)")
        self.paste(TEXT)
        self.select((500, 6))
        self.keys(["1", "2", "3"])
        typed = self.value()
        self.assertEqual("POINT(123500 3)", typed.split("\n")[500])
        self.hold(Keys.CONTROL, "a")
        self.hold(Keys.DELETE)
        self.assertEqual(("text", ""), (self.field().get_attribute("id"), self.value()))
        self.keys(["P"])
        steps = ["", typed, TEXT, "POINT(1 2)"]
        for wanted in steps:
            self.hold(Keys.CONTROL, "z")
            self.assertEqual(wanted, self.value())
        self.assertEqual("Accepted: Point", self.said("say"))
        for wanted in [*reversed(steps[:-1]), "P"]:
            self.hold(Keys.CONTROL, Keys.SHIFT, "z")
            self.assertEqual(wanted, self.value())
        self.hold(Keys.CONTROL, "z")
        self.hold(Keys.CONTROL, "z")
        self.assertEqual((typed, "All 1,000 lines accepted"), (self.value(), self.said("say")))

    def test_copied(self):
        """All of ten thousand lines are copied as they are, cut, and pasted, also where a line is empty."""
        text = "\n".join(f"POINT({n}\t2)" if n % 60 else "" for n in range(10000)) + "\n\n"
        self.lines(text)
        self.select((5, 0))
        self.hold(Keys.CONTROL, "a")
        self.hold(Keys.CONTROL, "x")
        self.assertEqual("", self.value())
        self.hold(Keys.CONTROL, "v")
        self.assertEqual(text, self.value())
        self.assertEqual("many", self.script("return document.activeElement.id"))
        self.hold(Keys.CONTROL, "a")
        self.hold(Keys.CONTROL, "c")
        self.hold(Keys.RIGHT)
        self.hold(Keys.CONTROL, "v")
        self.assertEqual(text + text, self.value())

    def test_between_the_fields(self):
        """A text that becomes long or short has the other field; the focus, the caret and what is typed go on."""
        self.open()
        few = [*LINES[:199], "POINT(1 2)"]
        self.paste("\n".join(few))
        field = self.by_id("text")
        self.assertEqual(field, self.field())
        field.send_keys(Keys.CONTROL, Keys.END)
        self.keys([Keys.ENTER, "P", "Q"])
        self.assertEqual(self.by_id("many"), self.field())
        self.assertEqual("\n".join([*few, "PQ"]), self.value())
        self.assertEqual((200, 2), self.caret())
        self.select((100, 1), (200, 2))
        self.keys(["x", "y"])
        self.assertEqual("\n".join([*few[:100], "Pxy"]), self.value())
        self.keys([(Keys.SHIFT, Keys.UP), "z"])
        self.assertEqual("\n".join([*few[:99], "POIz"]), self.value())
        self.assertEqual(self.field().get_attribute("id"), self.script("return document.activeElement.id"))

    def test_composed(self):
        """An input method composes a word, in a line, at the ends of blocks, and in place of many lines."""
        self.lines()
        places = (((10, 3),) * 2, ((59, 11),) * 2, ((60, 0),) * 2, ((100, 2), (300, 4)), ((4, 0), (4, 3)))
        for start, stop in places:
            with self.subTest(f"{start} {stop}"):
                self.paste(TEXT)
                self.select(start, stop)
                for words in ("に", "にほ", "日本"):
                    self.driver.execute_cdp_cmd(
                        "Input.imeSetComposition",
                        {"text": words, "selectionStart": len(words), "selectionEnd": len(words)},
                    )
                self.driver.execute_cdp_cmd("Input.insertText", {"text": "日本"})
                line = LINES[start[0]][: start[1]] + "日本" + LINES[stop[0]][stop[1] :]
                lines = [*LINES[: start[0]], line, *LINES[stop[0] + 1 :]]
                self.assertEqual("\n".join(lines), self.value())
                self.assertIn("refused", self.said("say"))
                self.keys(["x"])
                lines[start[0]] = lines[start[0]].replace("日本", "日本x")
                self.assertEqual("\n".join(lines), self.value())
                while self.value() != TEXT:
                    before = self.value()
                    self.hold(Keys.CONTROL, "z")
                    self.assertNotEqual(before, self.value())

    def test_marks(self):
        """A mark lies under the characters that are refused, and the caret goes there, far down and to the right."""
        lines = [*LINES]
        lines[700] = f"LINESTRING({'1 2,' * 100}3 x4)"
        self.lines("\n".join(lines))
        self.hold(Keys.ALT, "n")
        self.wait(lambda: self.script("return document.querySelector('#mirror mark')"))
        boxes = self.script(
            "const box = (it) => { const { x, y, width, height } = it.getBoundingClientRect();"
            " return [x, y + height / 2, width].map(Math.round); };"
            " return [box(document.querySelector('#mirror mark')), box(getSelection().getRangeAt(0)),"
            " box(document.getElementById('many'))]"
        )
        mark, selected, field = boxes
        self.assertEqual(mark, selected)
        self.assertEqual("x4", self.script("return getSelection().toString()"))
        self.assertGreater(mark[0], field[0])
        self.assertLess(mark[0] + mark[2], field[0] + field[2])
        self.assertEqual(["701"], self.script("return [document.querySelector('#mirror .bad').dataset.n]"))

    def test_far_from_view(self):
        """A key works where the caret isn't in view, and scrolls to it."""
        self.lines()
        for line, key, wanted in ((119, Keys.DOWN, 120), (120, Keys.UP, 119), (999, Keys.UP, 998)):
            self.select((line, 2))
            self.script("document.getElementById('many').scrollTop = 10000")
            time.sleep(0.3)
            self.hold(key)
            self.assertEqual((wanted, 2), self.caret())
        self.select((300, 2))
        self.script("document.getElementById('many').scrollTop = 0")
        self.keys(["x"])
        seen = "const box = getSelection().getRangeAt(0).getBoundingClientRect();"
        field = "const field = document.getElementById('many').getBoundingClientRect();"
        self.assertTrue(self.script(seen + field + "return box.top >= field.top && box.bottom <= field.bottom"))

    def test_read_out(self):
        """What a screen reader is told of the field."""
        self.lines("\n".join([*LINES, "POINT(1"]))
        field = self.field()
        self.assertEqual(("Well-known text", "textbox"), (field.accessible_name, field.aria_role))
        node = self.driver.execute_cdp_cmd("Accessibility.getFullAXTree", {})["nodes"]
        (box,) = [it for it in node if it.get("name", {}).get("value") == "Well-known text" and not it["ignored"]]
        told = {it["name"]: it["value"].get("value") for it in box["properties"]}
        self.assertEqual((True, "true", True), (told["multiline"], told["invalid"], told["focusable"]))
        self.assertIn("1 of 1,001 lines refused", box["description"]["value"])

    def keys(self, keys):
        for key in keys:
            self.hold(*(key if isinstance(key, tuple) else [key]))

    def in_a_textarea(self, start, stop, keys):
        """What stands in a bare textarea after some keys."""
        self.driver.get("file://" + self.file("<textarea id=text wrap=off rows=20>", "textarea.html"))
        self.script(
            "const t = document.getElementById('text'); t.value = arguments[0]; t.focus();"
            "const at = ([line, n]) => t.value.split('\\n').slice(0, line).reduce((sum, it) => sum + it.length + 1, n);"
            "t.setSelectionRange(at(arguments[1]), at(arguments[2]))",
            TEXT,
            start,
            stop,
        )
        self.keys(keys)
        return self.script("return document.getElementById('text').value")
