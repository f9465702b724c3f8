#!/usr/bin/python3
"""The package in headless Chromium, from a server: browser.py PACKAGE [BUNDLE..].

Its README's example, and a stream of lines. BUNDLE is a folder with a page that a bundler made, and shows the same.
"""
import functools
import http.server
import os
import sys
import tempfile
import threading

from selenium import webdriver

LINES = """
const done = arguments[0];
(async () => {
  const { load, WktError, STATUS } = await import('/wkt-proved/src/index.js');
  const wkt = await load();
  let refused;
  try {
    wkt.canonical('\\ud800');
  } catch (error) {
    refused = error instanceof WktError && error.status === STATUS.NOT_UTF8;
  }
  const source = new Blob(['point(1 2.0)\\nx\\n', 'POINT(3']).stream();
  return [refused, await new Response(source.pipeThrough(wkt.lineStream())).text()];
})().then(done, (error) => done(String(error.stack)));
"""


class Quiet(http.server.SimpleHTTPRequestHandler):
    extensions_map = {".js": "text/javascript", ".wasm": "application/wasm", ".html": "text/html"}

    def log_message(self, *_):
        pass


def shows(driver, address):
    """Opens a page, and wants the answer of the example on it, and nothing in the console."""
    driver.get(address)
    driver.set_script_timeout(60)
    shown = driver.execute_async_script(
        "const done = arguments[0], text = () => document.body.innerText;"
        "const look = (n) => text() || n > 400 ? done(text()) : setTimeout(look, 50, n + 1); look(0);"
    )
    # That there is no icon is no fault of the package.
    said = [it["message"] for it in driver.get_log("browser") if "favicon" not in it["message"]]
    assert (shown, said) == ("POINT(1 2.5)", []), (address, shown, said)


def main():
    package = os.path.abspath(sys.argv[1])
    with open(f"{package}/README.md", encoding="utf-8") as page:
        example = page.read().split("```html\n")[1].split("```")[0]
    with tempfile.TemporaryDirectory() as folder:
        os.symlink(package, f"{folder}/wkt-proved")
        bundles = [os.path.basename(path) for path in sys.argv[2:]]
        for path in sys.argv[2:]:
            os.symlink(os.path.abspath(path), f"{folder}/{os.path.basename(path)}")
        with open(f"{folder}/index.html", "w", encoding="utf-8") as page:
            page.write(f"<!doctype html><title>wkt</title><body>{example}")
        server = http.server.ThreadingHTTPServer(("127.0.0.1", 0), functools.partial(Quiet, directory=folder))
        threading.Thread(target=server.serve_forever, daemon=True).start()
        options = webdriver.ChromeOptions()
        options.set_capability("goog:loggingPrefs", {"browser": "ALL"})
        for word in ("--headless=new", "--no-sandbox", "--disable-dev-shm-usage"):
            options.add_argument(word)
        driver = webdriver.Chrome(options=options)
        try:
            address = f"http://127.0.0.1:{server.server_port}"
            for path in ["", *(f"/{name}" for name in bundles)]:
                shows(driver, f"{address}{path}/index.html")
            driver.get(f"{address}/index.html")
            assert driver.execute_async_script(LINES) == [True, "POINT(1 2)\nrefused\nrefused\n"]
            print(
                f"the package in Chromium {driver.capabilities['browserVersion']}: its example, a stream of lines;"
                f" bundles: {' '.join(bundles) or 'none'}"
            )
        finally:
            driver.quit()
            server.shutdown()


if __name__ == "__main__":
    main()
