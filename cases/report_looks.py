"""How pages of `sas-report` look and are used in a browser, as far as a machine can tell: cases/report_pages.py runs these tests.

What a browser says of boxes, colours, names and roles is measured in it. What is on paper is read from the PDF file that it prints.
"""
import contextlib
import itertools
import os
import re
import shutil
import subprocess
import urllib.parse
import xml.etree.ElementTree

from browsers import Chromium, comes
from harness import SECONDS, differs, ended, is_there
from texts import put

# widths and heights of windows, and zoom
WINDOWS = ((390, 844, 1), (700, 900, 1), (768, 1024, 1), (1024, 768, 1), (1366, 768, 1), (1920, 1080, 1), (1366, 768, 2))
FRAMES = "const frame = () => new Promise(requestAnimationFrame);"

# The boxes of all text and controls that are to be seen, cut where something scrolls or hides, and pairs of them that meet
MEETING = FRAMES + """return frame().then(frame).then(frame).then(() => {
    const boxes = [], cuts = new Map();
    const cut = (it, box) => {
      for (; it && it !== document.documentElement; it = it.parentElement) {
        if (!cuts.has(it)) cuts.set(it, getComputedStyle(it).overflow === "visible" ? null : it.getBoundingClientRect());
        const by = cuts.get(it);
        if (by) box = {left: Math.max(box.left, by.left), right: Math.min(box.right, by.right),
                       top: Math.max(box.top, by.top), bottom: Math.min(box.bottom, by.bottom)};
      }
      return box;
    };
    const add = (it, box, text, within) => {
      const {left, right, top, bottom} = cut(it, box);
      if (right - left > 2 && bottom - top > 2) boxes.push({left, right, top, bottom, text, within});
    };
    const isSeen = it => it.checkVisibility({checkVisibilityCSS: true, contentVisibilityAuto: true});
    const texts = document.createTreeWalker(document.body, NodeFilter.SHOW_TEXT);
    for (let node; node = texts.nextNode();) {
      const it = node.parentElement;
      if (!node.data.trim() || it.closest("script, style, select, noscript, .away, title") || !isSeen(it)) continue;
      const control = it.closest("button");
      if (control) continue;
      if (it.namespaceURI.endsWith("svg")) { add(it, it.getBoundingClientRect(), node.data, "svg"); continue; }
      const range = document.createRange();
      range.selectNodeContents(node);
      for (const box of range.getClientRects()) add(it, box, node.data);
    }
    for (const it of document.querySelectorAll("button, input, select")) {
      if (isSeen(it)) add(it.parentElement, it.getBoundingClientRect(), it.id);
    }
    boxes.sort((a, b) => a.top - b.top);
    const found = [];
    boxes.forEach((a, i) => {
      for (let k = i + 1; k < boxes.length && boxes[k].top < a.bottom - 2; k++) {
        const b = boxes[k], across = Math.min(a.right, b.right) - Math.max(a.left, b.left);
        const down = Math.min(a.bottom, b.bottom) - b.top;
        // the boxes of lines of a text are as high as its font is, not as the letters are
        if (across > 1.5 && down > 4) found.push(a.text.slice(0, 30) + " | " + b.text.slice(0, 30));
      }
    });
    const {scrollWidth, clientWidth} = document.documentElement;
    return [boxes.length, found, scrollWidth - clientWidth]; })"""


def geometry(browser, pages, shown_in):
    """In windows of each size no two texts meet, and nothing has to be scrolled sideways; nor where all is fitted into the picture."""
    wrong = []
    for (name, page), (width, height, zoom) in itertools.product(pages, WINDOWS):
        shown_in(browser, page)
        browser.resize(width, height, zoom)
        what = f"{name}, {width} pixels, {zoom}00 %"
        wrong += comes(f"{what}: its width", lambda near=width // zoom: abs(browser.run("return innerWidth") - near) < 5, True)
        for after in ("", "fit", "fact"):
            if after == "fit":
                browser.run("document.getElementById('fit')?.click()")
            elif after == "fact":
                wrong += fact_shown(browser)
            # a page that is laid out anew may be seen halfway
            wrong += comes(f"{what}, {after}: what meets, and pixels too wide", lambda: crowding(browser), [True, [], True])
    browser.resize(1400, 1058)
    return wrong


def crowding(browser):
    """Returns whether there are texts, those that meet, and whether the page is as wide as its window."""
    count, meeting, sideways = browser.run(MEETING)
    return [count >= 20, meeting[:3], sideways <= 0]


def fact_shown(browser):
    """Shows the first fact of the state, if there is one."""
    if not browser.run("const it = document.querySelector('#state .row a'); it?.click(); return it?.checkVisibility() ?? false"):
        return []
    return comes("a fact", lambda: browser.run("return document.getElementById('fact').checkVisibility()"), True)


# What a reader of the page with other senses gets: elements without a name, with an unknown role, out of place, or too small
NAMED = """const wrong = [], seen = new Set();
    const isShown = it => it.checkVisibility({checkVisibilityCSS: true});
    const name = it => it.getAttribute("aria-label") || (it.labels && [...it.labels].map(label => label.innerText).join(" ")) ||
        it.innerText || it.title || "";
    const roles = new Set(["slider", "listbox", "option", "list", "listitem", "group", "img", "status", "presentation", "alert"]);
    for (const it of document.querySelectorAll("*")) {
      const what = it.tagName + "#" + it.id + "." + it.className, role = it.getAttribute("role");
      if (it.id && seen.has(it.id)) wrong.push("twice: " + it.id);
      if (it.id) seen.add(it.id);
      if (!isShown(it)) continue;
      const isUsed = it.matches("a, button, input, select, [tabindex], [role=group], [role=list], [role=listbox], [role=img], main section");
      if (isUsed && !name(it).trim()) wrong.push("no name: " + what);
      if (role && !roles.has(role)) wrong.push("role " + role + ": " + what);
      if (role === "option" && !it.closest("[role=listbox]")) wrong.push("option out of place: " + what);
      if (role === "listitem" && !it.closest("[role=list]")) wrong.push("item out of place: " + what);
      if (it.scrollHeight > it.clientHeight + 1 && /auto|scroll/.test(getComputedStyle(it).overflowY) && it.tabIndex < 0 &&
          it !== document.documentElement) wrong.push("can't be scrolled by keys: " + what);
      const box = it.getBoundingClientRect();
      if (it.matches("button, select, input:not([type=checkbox])") && (box.width < 24 || box.height < 24)) {
        wrong.push(`too small, ${box.width} by ${box.height}: ${what}`);
      }
      for (const key of ["aria-describedby", "aria-activedescendant"]) {
        const other = it.getAttribute(key);
        if (other && !document.getElementById(other)) wrong.push(key + " leads nowhere: " + what);
      }
    }
    const live = document.querySelectorAll("[aria-live], [role=status], [role=alert]").length;
    if (live !== 1) wrong.push(live + " live regions");
    if (!document.documentElement.lang || !document.title) wrong.push("no language or title");
    return wrong;"""

# The contrast of each text with what is behind it, where that is less than it should be
FAINT = """const numbers = text => text.match(/[\\d.]+/g).map(Number);
    const light = ([r, g, b]) => [r, g, b].map(it => it / 255).map(it => it <= .04045 ? it / 12.92 : ((it + .055) / 1.055) ** 2.4)
        .reduce((sum, it, i) => sum + it * [.2126, .7152, .0722][i], 0);
    const behind = it => {
      for (; it; it = it.parentElement) {
        const colour = numbers(getComputedStyle(it).backgroundColor);
        if (colour.length < 4 || colour[3] > 0) return colour;
      }
      return [255, 255, 255];
    };
    const wrong = new Set(), texts = document.createTreeWalker(document.body, NodeFilter.SHOW_TEXT);
    let count = 0;
    for (let node; node = texts.nextNode();) {
      const it = node.parentElement;
      if (!node.data.trim() || it.namespaceURI.endsWith("svg") || it.closest("script, style, noscript, option, .away")) continue;
      if (!it.checkVisibility({checkVisibilityCSS: true})) continue;
      const style = getComputedStyle(it), a = light(numbers(style.color)), b = light(behind(it)), size = parseFloat(style.fontSize);
      const ratio = (Math.max(a, b) + .05) / (Math.min(a, b) + .05), large = size >= 24 || size >= 18.66 && style.fontWeight >= 700;
      count++;
      if (ratio < (large ? 3 : 4.5)) wrong.add(`${ratio.toFixed(2)}: ${node.data.trim().slice(0, 30)} .${it.className}`);
    }
    return [count, [...wrong]];"""


def senses(browser, pages, shown_in):
    """Each element that is used has a name and a known role, and is large enough; text stands out, by day and at night."""
    wrong = []
    for (name, page), is_dark in itertools.product(pages, (False, True)):
        browser.darken(is_dark)
        shown_in(browser, page)
        wrong += fact_shown(browser) + [f"{name}: {it}" for it in browser.run(NAMED)]
        count, faint = browser.run(FAINT)
        wrong += [f"{name}, dark {is_dark}: {it}" for it in faint] + ([] if count > 20 else [f"{name}: {count} texts"])
    browser.darken(False)
    return wrong


# Colours as they look: of the 6 colours of values, each two that aren't told apart by a pattern


def linear(colour):
    parts = (int(colour[i:i + 2], 16) / 255 for i in (1, 3, 5))
    return [it / 12.92 if it <= 0.04045 else ((it + 0.055) / 1.055) ** 2.4 for it in parts]


LIGHT = (0.2126729, 0.7151522, 0.0721750)
# how colours look without one kind of cones (Machado, Oliveira and Fernandes, 2009), and without any
EYES = {
    "usual": ((1, 0, 0), (0, 1, 0), (0, 0, 1)),
    "deuteranopia": ((0.367322, 0.860646, -0.227968), (0.280085, 0.672501, 0.047413), (-0.011820, 0.042940, 0.968881)),
    "protanopia": ((0.152286, 1.052583, -0.204868), (0.114503, 0.786281, 0.099216), (-0.003882, -0.048116, 1.051998)),
    "grey": (LIGHT, LIGHT, LIGHT),
}


def lab(colour, eyes):
    """Returns the place of a colour in CIELAB, as these eyes see it."""
    seen = [min(1, max(0, sum(m * c for m, c in zip(row, linear(colour))))) for row in EYES[eyes]]
    rows = ((0.4124564, 0.3575761, 0.1804375), LIGHT, (0.0193339, 0.1191920, 0.9503041))
    x, y, z = (sum(m * c for m, c in zip(row, seen)) / white for row, white in zip(rows, (0.95047, 1, 1.08883)))
    x, y, z = (it ** (1 / 3) if it > 216 / 24389 else (24389 / 27 * it + 16) / 116 for it in (x, y, z))
    return 116 * y - 16, 500 * (x - y), 200 * (y - z)


def contrast(one, other):
    low, high = sorted(sum(m * c for m, c in zip(LIGHT, linear(it))) for it in (one, other))
    return (high + 0.05) / (low + 0.05)


def colours(browser, page, shown_in):
    """Colours of values differ for all eyes, and what is written on them can be read. A value has one colour on each page."""
    wrong = []
    for is_dark in (False, True):
        browser.darken(is_dark)
        shown_in(browser, page)
        names = [f"v{i}" for i in range(6)] + ["v9", "empty", "dark", "light"]
        found = dict(zip(names, browser.run("""const style = getComputedStyle(document.documentElement);
            return arguments[0].map(name => style.getPropertyValue("--" + name).trim())""", names)))
        for a, b in [*itertools.combinations(names[:6], 2), ("v0", "v9")]:
            for eyes in EYES:
                far = sum((p - q) ** 2 for p, q in zip(lab(found[a], eyes), lab(found[b], eyes))) ** 0.5
                wrong += [f"{a} and {b}, {eyes}, dark {is_dark}: {far:.1f}"] if far < 10 else []
        inks = {"v0": "empty", "v4": "light", "v5": "light"}
        for name in names[:7]:
            ratio = contrast(found[name], found[inks.get(name, "dark")])
            wrong += [f"text on {name}, dark {is_dark}: {ratio:.2f}"] if ratio < 4.5 else []
    browser.darken(False)
    return wrong


def looks_of(browser, page, shown_in):
    """Returns the colour and the pattern of each value of the legend."""
    shown_in(browser, page)
    found = browser.run("""return [...document.querySelectorAll("#legend bdi")].map(
        it => [it.textContent, it.previousSibling.className])""")
    return {name: re.findall(r"[cp]\d", kinds) for name, kinds in found}


def patterns(browser, page, shown_in):
    """Values of one row that follow each other have another colour, or another pattern."""
    looks = looks_of(browser, page, shown_in)
    found = browser.run("""return (async () => {
        const found = [];
        for (const {hash} of document.querySelectorAll("#state .row .var")) {
          const changed = new Promise(resolve => addEventListener("hashchange", resolve, {once: true}));
          location.hash = hash;
          await changed;
          for (const li of document.querySelectorAll("#fact .changes li")) {
            found.push([hash, ...[...li.querySelectorAll("a.name")].map(it => it.firstChild.className)]);
          }
        }
        return found; })()""")
    wrong = [f"{address}: {a}" for address, a, b in found if a == b]
    return wrong + ([] if len(looks) > 2 and found else [f"only {len(looks)} values, {len(found)} changes"])


# Paper


def pages_of(path):
    """Returns the words of each page of a PDF file, each with where it ends, and the height of the page."""
    text = ended("pdftotext", "-bbox", path, "-").stdout.decode()
    found = []
    for part in text.split("<page ")[1:]:
        height = float(re.search(r'height="([\d.]+)"', part)[1])
        words = re.findall(r'yMin="([\d.]+)" xMax="[\d.]+" yMax="([\d.]+)">([^<]*)<', part)
        found.append((height, [(float(top), float(end), word) for top, end, word in words]))
    return found


def printed_well(path, labels, what):
    """Says what is wrong with a printed page whose rows have these labels, in order."""
    if not shutil.which("pdftotext"):
        return []
    sheets = pages_of(path)
    wrong = [f"{what}: page {i} is empty" for i, (_, words) in enumerate(sheets, 1) if len(words) < 3]
    # 12 mm are left free
    cut = [word for height, words in sheets for _, end, word in words if end > height - 34 + 3]
    wrong += [f"{what}: cut off: {cut[:3]}"] if cut else []
    words = {word for _, them in sheets for _, _, word in them}
    missing = [it for it in labels if it not in words]
    return wrong + ([f"{what}: {len(missing)} rows are missing: {missing[:3]}"] if missing else [])


def printed_file(browser, page):
    """Prints the page that is open into a PDF file beside its own, and returns the path."""
    return put(os.path.join(os.path.dirname(page), f"{type(browser).__name__}.pdf"), browser.printed())


def paper_pages(browser, page, labels, shown_in):
    """A plan over many variables is printed with all its rows, on pages that aren't empty, and no row is cut."""
    shown_in(browser, page)
    return printed_well(printed_file(browser, page), labels, "printed")


def light_paper(browser, page):
    """A page that is dark on the screen is printed on light paper."""
    if not is_there("pdftoppm"):
        return []
    picture = ended("pdftoppm", "-r", "20", "-f", "1", "-l", "1", "-gray", printed_file(browser, page)).stdout
    pixels = picture[re.match(rb"P5\s+\d+\s+\d+\s+\d+\s", picture).end():]
    light = sum(pixels) / len(pixels) / 255
    return [] if light > 0.85 else [f"paper is light to {light:.0%}"]


def printed_at_once(page, labels):
    """Chromium prints a page as soon as it is loaded, each time with the picture."""
    wrong = []
    if not (is_there("chromium") and is_there("pdftotext")):
        return wrong
    for i in range(3):
        path = f"{page}.{i}.pdf"
        subprocess.run(["chromium", "--headless=new", "--no-sandbox", "--disable-gpu", "--no-pdf-header-footer",
                        f"--user-data-dir={page}.profile", f"--print-to-pdf={path}", f"file://{urllib.parse.quote(page)}"], check=False, capture_output=True, timeout=SECONDS)
        wrong += printed_well(path, labels, f"run {i}") if os.path.exists(path) else [f"run {i}: nothing is printed"]
    return wrong


def saved(browser, page, shown_in):
    """The picture that is saved is an SVG with a title, the labels and a legend, which the browser opens."""
    shown_in(browser, page)
    path = os.path.join(browser.downloads, "plan.svg")
    with contextlib.suppress(FileNotFoundError):
        os.remove(path)
    labels = browser.run("return [...document.querySelectorAll('#grid svg text')].map(it => it.textContent)")
    legend = browser.run("return [...document.querySelectorAll('#legend bdi')].map(it => it.textContent)")
    browser.run("document.getElementById('save').click()")
    missing = comes("a picture is saved", lambda: os.path.exists(path) and os.path.getsize(path) > 0, True)
    if missing:
        return missing
    browser.open(f"file://{urllib.parse.quote(path)}")
    found = browser.run("return [document.documentElement.tagName, ...[...document.querySelectorAll('text')].map(it => it.textContent)]")
    title = browser.run("return document.querySelector('title').textContent")
    wrong = differs(found[0], "svg", "the picture") + differs("plan valid: 6 steps, cost 7" in title, True, "the title")
    wrong += differs([it for it in [*labels, *legend] if it not in found], [], "not in the picture")
    root = xml.etree.ElementTree.parse(path).getroot()
    return wrong + differs(root.tag, "{http://www.w3.org/2000/svg}svg", "its root")
