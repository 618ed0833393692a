#!/usr/bin/env python3
"""Looks at pictures in a browser without a window: no text may overlap another, or lie outside the picture, and a picture that is
opened alone has to be as wide as the window, however long it is.

usage: pictures.py FILE.svg ..

It needs `chromium`. Each picture is shown 800 and 1,600 pixels wide. A line is printed for each fault; the status is 1
where there is one.
"""
import json
import re
import subprocess
import sys
import tempfile

PAGE = """<!doctype html><meta charset="utf-8"><style>body{margin:0}svg{display:block;width:%dpx}</style>%s
<script>
const whole = document.querySelector("svg").getBoundingClientRect();
const parts = [];
for (const text of document.querySelectorAll("svg text")) {
  const spans = text.querySelectorAll("tspan[x]");
  for (const part of spans.length ? spans : [text]) {
    const range = document.createRange();
    range.selectNodeContents(part);
    const box = range.getBoundingClientRect();
    if (box.width > 0) parts.push([part.textContent, box.left, box.top, box.right, box.bottom]);
  }
}
const faults = [];
for (const [text, left, top, right, bottom] of parts)
  if (left < whole.left - 1 || right > whole.right + 1 || top < whole.top - 1 || bottom > whole.bottom + 1) faults.push("outside: " + text);
const inset = 0.25;
for (let i = 0; i < parts.length; i++)
  for (let k = i + 1; k < parts.length; k++) {
    const [a, al, at, ar, ab] = parts[i], [b, bl, bt, br, bb] = parts[k];
    const high = (ab - at) * inset;
    if (al < br && bl < ar && at + high < bb - high && bt + high < ab - high) faults.push("overlap: " + a + " | " + b);
  }
document.body.innerHTML = "<pre id=found></pre>";
document.getElementById("found").textContent = JSON.stringify({texts: parts.length, faults: faults});
</script>"""


ALONE = """<script>
const root = document.documentElement;
window.onload = () => root.setAttribute("data-width", root.getScreenCTM().a * root.viewBox.baseVal.width);
</script></svg>"""
# A bar to scroll with takes less of a window's width.
BAR = 20


def shown(text, suffix, width):
    """What the browser makes of a file, in a window of this width."""
    with tempfile.NamedTemporaryFile("w", suffix=suffix, encoding="utf-8") as page:
        page.write(text)
        page.flush()
        return subprocess.run(
            ["chromium", "--headless=new", "--no-sandbox", "--disable-gpu", f"--window-size={width},900", "--dump-dom", "file://" + page.name],
            capture_output=True, text=True, check=True, timeout=120).stdout


def is_wide(svg, width):
    """Whether a picture that is opened alone is as wide as the window."""
    return float(re.search(r'data-width="([0-9.]+)"', shown(svg.replace("</svg>", ALONE), ".svg", width))[1]) > width - BAR


def faults_of(svg, width):
    found = re.search(r'<pre id="found">(.*?)</pre>', shown(PAGE % (width, svg), ".html", width), re.S)
    text = found[1].replace("&lt;", "<").replace("&gt;", ">").replace("&amp;", "&")
    return json.loads(text)


def main():
    status = 0
    for name in sys.argv[1:]:
        svg = open(name, encoding="utf-8").read()
        for width in (800, 1600):
            found = faults_of(svg, width)
            narrow = [] if is_wide(svg, width) else ["narrower than the window"]
            for fault in found["faults"] + narrow:
                print(f"{name} at {width}: {fault}")
                status = 1
            print(f"{name} at {width}: {found['texts']} texts")
    return status


if __name__ == "__main__":
    sys.exit(main())
