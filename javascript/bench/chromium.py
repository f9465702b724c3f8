#!/usr/bin/python3
"""The figures of Chromium: chromium.py MODULE FILE.., with those of OpenLayers (libjs-openlayers) where it is there."""
import functools
import http.server
import os
import shutil
import sys
import tempfile
import threading

from selenium import webdriver

HERE = os.path.dirname(os.path.abspath(__file__))
OPENLAYERS = "/usr/share/javascript/openlayers/OpenLayers.js"
PAGE = "<!doctype html><title>bench</title><script src=OpenLayers.js></script>"
TIMES = 15
SCRIPT = """
const [names, done] = arguments;
(async () => {
  const { load } = await import('/src/index.js');
  const { figure, runsOf } = await import('/bench/measure.js');
  const workloads = {};
  for (const name of names) workloads[name] = await (await fetch(`/data/${name}`)).text();
  const reader = typeof OpenLayers === 'object' ? new OpenLayers.Format.WKT() : null;
  window.runs = runsOf(await load(), workloads, reader && ((text) => reader.read(text)));
  window.figure = figure;
  return runs.length;
})().then(done, (error) => done(String(error.stack)));
"""


def thread_time(driver):
    """The processor time of the page's thread, in seconds."""
    metrics = driver.execute_cdp_cmd("Performance.getMetrics", {})["metrics"]
    return next(it["value"] for it in metrics if it["name"] == "ThreadTime")


def figures(driver, count):
    driver.execute_cdp_cmd("Performance.enable", {})
    for i in range(count):
        least = float("inf")
        for _ in range(TIMES):
            before = thread_time(driver)
            driver.execute_script(f"runs[{i}].run()")
            least = min(least, thread_time(driver) - before)
        print(driver.execute_script(f"return figure(runs[{i}], {least})"), flush=True)


class Quiet(http.server.SimpleHTTPRequestHandler):
    def log_message(self, *_):
        pass


def main():
    module, *files = sys.argv[1:]
    with tempfile.TemporaryDirectory() as folder:
        for name in ("src", "bench"):
            shutil.copytree(f"{HERE}/../{name}", f"{folder}/{name}")
        shutil.copy(module, f"{folder}/wkt.wasm")
        if os.path.exists(OPENLAYERS):
            shutil.copy(OPENLAYERS, folder)
        os.mkdir(f"{folder}/data")
        for file in files:
            shutil.copy(file, f"{folder}/data")
        with open(f"{folder}/index.html", "w", encoding="utf-8") as page:
            page.write(PAGE)
        server = http.server.ThreadingHTTPServer(("127.0.0.1", 0), functools.partial(Quiet, directory=folder))
        threading.Thread(target=server.serve_forever, daemon=True).start()
        options = webdriver.ChromeOptions()
        for word in ("--headless=new", "--no-sandbox", "--disable-dev-shm-usage"):
            options.add_argument(word)
        driver = webdriver.Chrome(options=options)
        try:
            driver.set_script_timeout(600)
            driver.get(f"http://127.0.0.1:{server.server_port}/index.html")
            count = driver.execute_async_script(SCRIPT, [os.path.basename(file) for file in files])
            if not isinstance(count, int):
                sys.exit(count)
            figures(driver, count)
        finally:
            driver.quit()
            server.shutdown()


if __name__ == "__main__":
    main()
