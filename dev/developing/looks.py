"""Check how a report looks in a browser: contrast, clipped elements, and words broken across lines.

The contrast of the style's colours is computed as WCAG 2 defines it. For the other checks, headless
Chromium opens the report in a frame and runs a script that is not part of the report.
"""
from __future__ import annotations

import html
import json
import os
import re
import shutil
import subprocess
from typing import NamedTuple, Sequence

from subtitles.common.program import TOP

MIN_CONTRAST = 4.5
SECONDS = 600  # time limit in seconds for a browser on a busy machine
BROWSERS = ("chromium", "chromium-browser", "google-chrome")
# Pairs of text colour and background colour, as variables of the style sheet.
PAIRS = [(text, ground) for text in ("words", "soft", "link", "bad")
         for ground in ("ground", "shade")]
PAIRS += [("words", "tint"), ("bad", "tint"), ("words", "unsure"), ("words", "mark"),
          *((text, "ground") for text in ("good", "amber", "lost"))]

SCRIPT = r"""
const defects = [], wide = document.documentElement.clientWidth;
const colour = text => text.match(/[\d.]+/g).map(Number);
const light = ([r, g, b]) => [r, g, b].map(x => x / 255).map(
  x => x <= 0.04045 ? x / 12.92 : ((x + 0.055) / 1.055) ** 2.4)
  .reduce((sum, x, at) => sum + x * [0.2126, 0.7152, 0.0722][at], 0);
const contrast = (one, other) => {
  const [low, high] = [light(one), light(other)].sort((a, b) => a - b);
  return (high + 0.05) / (low + 0.05);
};
const grounds = new Map([[null, [255, 255, 255]]]);
const ground = item => {
  if (!grounds.has(item)) {
    const found = colour(getComputedStyle(item).backgroundColor);
    const isOwn = found.length < 4 || found[3] > 0;
    grounds.set(item, isOwn ? found : ground(item.parentElement));
  }
  return grounds.get(item);
};
const countLines = range =>
  new Set([...range.getClientRects()].map(box => Math.round(box.top / 4))).size;
const name = item => `${item.tagName} ${item.className.baseVal ?? item.className} ` +
  (item.textContent || "").trim().slice(0, 40);
for (const item of document.querySelectorAll("body *")) {
  if (item.closest("svg") && item.tagName !== "svg") continue;
  const box = item.getBoundingClientRect();
  if (box.right > wide + 1 || box.left < -1) defects.push(`cut: ${name(item)}`);
  if (item.scrollWidth > item.clientWidth + 1 && getComputedStyle(item).overflowX !== "visible")
    defects.push(`scrolls: ${name(item)}`);
}
if (document.documentElement.scrollWidth > wide) defects.push("the page is wider than the window");
const walk = document.createTreeWalker(document.body, NodeFilter.SHOW_TEXT);
for (let node; (node = walk.nextNode());) {
  const item = node.parentElement;
  if (!node.data.trim() || item.closest("svg, script, style, title")) continue;
  const style = getComputedStyle(item);
  if (!item.getClientRects().length || style.display === "none") continue;
  if (!item.closest("span.in") && contrast(colour(style.color), ground(item)) < 4.5)
    defects.push(`contrast: ${name(item)} ${style.color} on ${ground(item)}`);
  if (item.closest(".long, pre.lines")) continue;
  const range = document.createRange();
  range.selectNodeContents(node);
  if (countLines(range) < 2) continue;  // no word can be broken
  for (const word of node.data.matchAll(/[^\s\-\/\u2010-\u2015]+/g)) {
    range.setStart(node, word.index);
    range.setEnd(node, word.index + word[0].length);
    if (countLines(range) > 1) defects.push(`broken word: ${word[0]}`);
  }
}
parent.postMessage(JSON.stringify(defects), "*");
"""
WRAPPER = """<!DOCTYPE html><html><body style="margin:0"><script>
addEventListener("message", event => {{
  const number = [...document.querySelectorAll("iframe")].findIndex(
    frame => frame.contentWindow === event.source);
  const report = document.createElement("pre");
  report.id = `defects-${{number}}`;
  report.textContent = event.data;
  document.body.append(report);
}});
</script>{frames}</body></html>
"""


def compute_luminance(colour: str) -> float:
    parts = [int(colour[at:at + 2], 16) / 255 for at in (0, 2, 4)]
    linear: list[float] = [part / 12.92 if part <= 0.04045 else ((part + 0.055) / 1.055) ** 2.4
                           for part in parts]
    return sum(weight * part for weight, part in zip((0.2126, 0.7152, 0.0722), linear))


def compute_contrast(text_colour: str, ground_colour: str) -> float:
    low, high = sorted((compute_luminance(text_colour), compute_luminance(ground_colour)))
    return (high + 0.05) / (low + 0.05)


def read_colour_schemes() -> dict[str, dict[str, str]]:
    """Return the colour variables of the light style and of the dark style."""
    path = os.path.join(TOP, "tools", "subtitles", "report", "style.css")
    with open(path, encoding="utf-8") as file:
        light, dark = (dict(re.findall(r"--([\w-]+): #(\w+);", block))
                       for block in re.findall(r":root \{([^}]*)\}", file.read()))
    dark = {**light, **dark}
    return {name: {key: value if len(value) == 6 else "".join(2 * digit for digit in value)
                   for key, value in scheme.items()}
            for name, scheme in (("light", light), ("dark", dark))}


def find_weak_contrasts() -> list[str]:
    """Return the pairs of colours with too little contrast."""
    return [f"{text} on {background_name}, {name}: "
            f"{compute_contrast(scheme[text], scheme[background_name]):.2f}"
            for name, scheme in read_colour_schemes().items()
            for text, background_name in PAIRS if compute_contrast(scheme[
            text], scheme[background_name]) < MIN_CONTRAST]


def find_browser() -> str | None:
    """Return the path of a browser, or `None` if none is installed."""
    return next(filter(None, map(shutil.which, BROWSERS)), None)


class BrowserView(NamedTuple):
    """A report in a browser window: its path, the window's width, and whether the style is dark."""

    path: str
    width: int
    is_dark_scheme: bool


def find_defects(looks: Sequence[BrowserView], folder: str) -> list[list[str]]:
    """Return the defects that a browser finds in each report.

    The browser loads all reports in one page.
    """
    frames = "".join(f'<iframe src="{write_framed(look, folder, number)}" style="border:0;'
                     f'width:{look.width}px;height:2000px"></iframe>'
                     for number, look in enumerate(looks))
    wrapper = os.path.join(folder, "around.html")
    with open(wrapper, "w", encoding="utf-8") as file:
        file.write(WRAPPER.format(frames=frames))
    command = [find_browser() or BROWSERS[0], "--headless", "--no-sandbox", "--disable-gpu",
               "--hide-scrollbars", f"--user-data-dir={os.path.join(folder, 'profile')}",
               "--virtual-time-budget=10000", "--dump-dom", f"file://{wrapper}"]
    process = subprocess.run(command, stdin=subprocess.DEVNULL, stdout=subprocess.PIPE,
                             stderr=subprocess.DEVNULL, timeout=SECONDS, check=False)
    text = process.stdout.decode("utf-8", "replace")
    result = {int(number): json.loads(html.unescape(defect_texts)) for number, defect_texts in re.
              findall(
        r'<pre id="defects-(\d+)">(.+?)</pre>', text, re.S)}
    return [result.get(number, ["the browser reported nothing"]) for number in range(len(looks))]


def write_framed(look: BrowserView, folder: str, number: int) -> str:
    """Write a report with its details open and with SCRIPT added. Return the new file's name."""
    with open(look.path, encoding="utf-8") as file:
        text = file.read()
    name = f"measured-{number}.html"
    text = re.sub(r"<details(?! open)", '<details open="open"', text)
    # Allow the script to run.
    text = re.sub(r'<meta http-equiv="Content-Security-Policy"[^>]*/>', "", text)
    # Disable lazy layout, which the browser would repeat for each measurement.
    text = text.replace("content-visibility: auto", "content-visibility: visible")
    if look.is_dark_scheme:
        text = text.replace("(prefers-color-scheme: dark)", "(min-width: 1px)")
    with open(os.path.join(folder, name), "w", encoding="utf-8") as file:
        file.write(text.replace("</body>", f"<script>{SCRIPT}</script></body>"))
    return name
