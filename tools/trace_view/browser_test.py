#!/usr/bin/env python3
"""Tries the page of convert.py in a headless browser: what is drawn, how long it takes at 100,000 events, and what its
buttons, its filters, its keys and its address do.

It ends with 77 where no browser is installed."""

import json
import re
import shutil
import subprocess
import sys
import tempfile
import unittest
from html import unescape
from pathlib import Path

HERE = Path(__file__).resolve().parent
sys.dont_write_bytecode = True
sys.path.insert(0, str(HERE))
from made import long_trace  # noqa: E402

BROWSERS = ("chromium", "chromium-browser", "google-chrome", "chrome")
BROWSER = next(filter(None, map(shutil.which, BROWSERS)), None)
HELLO = (HERE / "hello.trace").read_text()
# what is done in the page, step by step; behind each it draws, and what it then says of itself is kept
STEPS = """<script>
const said = [];
for (const step of [() => {}, @STEPS@]) {
  step();
  draw();
  said.push({...document.body.dataset, told: element("told").textContent, line: element("first").value});
}
document.body.append(Object.assign(document.createElement("pre"), {id: "said", textContent: JSON.stringify(said)}));
</script></body>"""


def shown(text, *steps, address=""):
    """What the page says of itself once it is drawn, and after each step."""
    with tempfile.TemporaryDirectory() as room:
        page = Path(room) / "page.html"
        convert = [sys.executable, HERE / "convert.py", "html", "-"]
        drawn = subprocess.run(convert, input=text, capture_output=True, text=True)
        taken = STEPS.replace("@STEPS@", ", ".join(f"() => {{ {step} }}" for step in steps))
        page.write_text(drawn.stdout.replace("</body>", taken))
        whole = [BROWSER, "--headless", "--no-sandbox", "--disable-gpu", "--window-size=1200,700"]
        whole += [f"--user-data-dir={room}/profile", "--virtual-time-budget=5000", "--dump-dom"]
        done = subprocess.run([*whole, f"{page.as_uri()}{address}"], capture_output=True, text=True, timeout=300)
    found = re.search(r'<pre id="said">(.*?)</pre>', done.stdout, re.S)
    assert found, done.stderr[-500:]
    return json.loads(unescape(found[1]))


def window(told):
    return tuple(map(int, told["window"].split("..")))


class Page(unittest.TestCase):
    def test_all_is_drawn(self):
        told = shown(HELLO)[0]
        self.assertEqual((told["events"], told["boxes"], told["rows"], told["window"]), ("17", "17", "4", "2..18"))

    def test_buttons(self):
        zoom_in, zoom_out, whole = (f'element("{name}").click()' for name in ("in", "out", "all"))
        told = shown(long_trace(2_000), zoom_in, zoom_out, zoom_in, whole)
        widths = [b - a for a, b in map(window, told)]
        self.assertEqual((widths[0], widths[4]), (1_999, 1_999))
        self.assertTrue(widths[1] < widths[0] and widths[1] < widths[2] and widths[3] < widths[2])

    def test_a_window(self):
        put = 'element("first").value = 100; element("last").value = 199; element("show").click()'
        told = shown(long_trace(2_000), put, 'canvas.onkeydown({key: "ArrowRight", preventDefault() {}})')
        self.assertEqual(window(told[1])[0], 100)
        self.assertIn(window(told[1])[1], (199, 200))
        self.assertGreater(window(told[2])[0], 100)
        self.assertEqual(told[2]["line"], str(window(told[2])[0]))

    def test_filters(self):
        choose = 'element("process").value = "2"; element("process").onchange()'
        untick = 'document.querySelectorAll("#legend input")[3].click()'  # messages taken
        told = shown(long_trace(400), choose, untick)
        self.assertEqual([t["rows"] for t in told], ["14", "5", "5"])
        self.assertEqual([t["boxes"] for t in told], ["400", "100", "80"])

    def test_an_event_is_told(self):
        point = "canvas.onpointermove({clientX: 0, clientY: 0, offsetX: 155, offsetY: 30})"
        told = shown(HELLO, point)[1]["told"]
        self.assertEqual(told, "line 2: run 0 1 64 \u00b7 core 0, thread 1, steps 64 \u00b7 core 0")

    def test_a_long_trace_is_quick(self):
        text = long_trace(100_000)
        told = shown(text, 'element("in").click()')
        self.assertEqual(told[0]["events"], "100000")
        for it in told:
            self.assertLess(int(it["boxes"]), 40_000)
            self.assertLess(float(it["ms"]), 1_000)
        told = shown(text, address="#500..599&process=3")[0]
        self.assertEqual(told["rows"], "5")  # two cores, a kernel, a proxy, a worker
        self.assertRegex(told["window"], r"^500\.\.(599|600)$")
        self.assertLessEqual(int(told["boxes"]), 26)


if __name__ == "__main__":
    if not BROWSER:
        print("skipped: no browser is installed, so the page wasn't tried in one")
        sys.exit(77)
    unittest.main()
