"""Uses each tab of the page in Chromium as a person would, at two widths, and compares what it shows with the archive of this machine.

browser.py PAGE PACKAGE LIBRARY LIST ZONE SHOTS [COUNT]: the page's file, the module's folder, libfuzzydate.so made from the archive, a
list of phrases with their nows, a zone's file, a folder for screenshots, and how many phrases are typed in.
"""

import ctypes
import functools
import http.server
import pathlib
import random
import re
import statistics
import sys
import threading
import time
from urllib.parse import parse_qs, urlencode, urlsplit

from selenium import webdriver
from selenium.common.exceptions import StaleElementReferenceException
from selenium.webdriver.common.by import By
from selenium.webdriver.common.keys import Keys
from selenium.webdriver.support.ui import Select

WIDTHS, SCHEMES = (1280, 390), ("light", "dark")
NOW = "2026-02-11T09:30:15Z"
MONTHS = "January February March April May June July August September October November December".split()
RULE = {"tab": "repeat", "rule": "FREQ=WEEKLY;INTERVAL=2;BYDAY=TU", "start": "2026-02-10T09:30:00Z", "asked": NOW, "year": "2026"}
FORWARD = {"tab": "zones", "phrase": "1 day from now", "zone": "America/New_York", "now": "2026-03-07T09:00:00-05:00", "reading": "2"}
BACK = {**FORWARD, "phrase": "tomorrow at 1:30", "now": "2026-10-31T09:00:00-04:00"}

# The texts that are too faint for their background, by the ratios of WCAG.
FAINT = """
const channel = (value) => value <= 0.04045 ? value / 12.92 : ((value + 0.055) / 1.055) ** 2.4;
const light = ([r, g, b]) => 0.2126 * channel(r / 255) + 0.7152 * channel(g / 255) + 0.0722 * channel(b / 255);
const numbers = (colour) => colour.match(/[\\d.]+/g).map(Number);
const isClear = ([, , , alpha = 1]) => alpha === 0;
const ground = (element) => {
    const colour = numbers(getComputedStyle(element).backgroundColor);
    return isClear(colour) ? ground(element.parentElement) : colour;
};
const faint = [];
for (const element of document.querySelectorAll("body *")) {
    const style = getComputedStyle(element), colour = numbers(style.color);
    const hasText = [...element.childNodes].some((node) => node.nodeType === 3 && node.textContent.trim() !== "");
    if (!hasText || !element.getClientRects().length || isClear(colour) || element.closest(".unseen, .skip, noscript")) continue;
    const [low, high] = [light(colour), light(ground(element))].sort((a, b) => a - b), size = parseFloat(style.fontSize);
    const least = size >= 24 || (size >= 18.66 && Number(style.fontWeight) >= 700) ? 3 : 4.5;
    if ((high + 0.05) / (low + 0.05) < least) faint.push(`${element.className}: ${element.textContent.slice(0, 30)}`);
}
return faint;
"""


# The module as a page of a host imports it, with Temporal where the browser has it.
IMPORTED = """
const [done] = arguments;
const wrong = (call) => { try { call(); return "accepted"; } catch (error) { return error.name; } };
import("/fuzzydate.mjs").then(({ load }) => load()).then((fuzzy) => {
    const { Temporal } = globalThis, read = (now) => fuzzy.toISO(fuzzy.read(2, "next friday at 3 pm", now));
    if (!Temporal) return done([fuzzy.version, read("2026-02-11T09:30:15"), "no Temporal"]);
    const now = Temporal.PlainDateTime.from("2026-02-11T09:30:15"), zoned = now.toZonedDateTime("UTC");
    const there = fuzzy.toTemporal(fuzzy.fromTemporal(now)).equals(now);
    const refused = [now.with({ nanosecond: 1 }), zoned, now.toPlainDate()].map((value) => wrong(() => read(value)));
    done([fuzzy.version, read(now), `${there} ${refused.join(" ")}`]);
}).catch((error) => done(String(error)));
"""


def check(condition, *words):
    if not condition:
        raise SystemExit("browser.py: " + " ".join(str(word) for word in words))


class Moment(ctypes.Structure):
    """struct fuzzy_moment."""

    _fields_ = [(name, ctypes.c_uint32) for name in ("year", "month", "day", "hour", "minute", "second", "millisecond")]


class Archive:
    """The library of this machine, by its C function."""

    def __init__(self, path):
        self.read = ctypes.CDLL(path).fuzzy_read
        self.read.restype = ctypes.c_uint64
        pointer = ctypes.POINTER(Moment)
        self.read.argtypes = [ctypes.c_uint32, ctypes.c_char_p, ctypes.c_uint64, pointer, pointer]

    def shown(self, reading, phrase, now):
        """What the page must show: the day's and the time's text, or the refusal's number and the refused part."""
        moment, raw = Moment(), phrase.encode()
        answer = self.read(reading, raw, len(raw), Moment(*now), moment)
        number, place, length = answer & 0xFFFF, answer >> 16 & 0xFFFF, answer >> 32
        if number != 0:
            return number, raw[place : place + length].decode()
        seconds = f":{moment.second:02}" if moment.second else ""
        return f"{moment.day} {MONTHS[moment.month - 1]} {moment.year}", f"{moment.hour:02}:{moment.minute:02}{seconds}"


class Page:
    """The page in a browser without a window."""

    def __init__(self, path, shots):
        options = webdriver.ChromeOptions()
        for word in ("--headless=new", "--no-sandbox", "--disable-gpu", "--hide-scrollbars", "--force-color-profile=srgb"):
            options.add_argument(word)
        options.set_capability("goog:loggingPrefs", {"browser": "ALL"})
        self.browser = webdriver.Chrome(options=options)
        self.address, self.shots, self.width = pathlib.Path(path).resolve().as_uri(), shots, WIDTHS[0]

    def by(self, name):
        return self.browser.find_element(By.ID, name)

    def all(self, selector):
        return self.browser.find_elements(By.CSS_SELECTOR, selector)

    def one(self, selector):
        return self.browser.find_element(By.CSS_SELECTOR, selector)

    def texts(self, selector):
        """The texts of all that match. The page may draw them anew between the finding and the reading: then once more."""
        for _ in range(100):
            try:
                return [found.text for found in self.all(selector)]
            except StaleElementReferenceException:
                pass
        return check(False, selector, "is drawn anew all the time")

    def text(self, name):
        return self.by(name).text

    def value(self, name):
        return self.by(name).get_attribute("value")

    def run(self, script):
        return self.browser.execute_script(script)

    def size(self, width, height=900):
        self.width = width
        screen = {"width": width, "height": height, "deviceScaleFactor": 1, "mobile": width < 600}
        self.browser.execute_cdp_cmd("Emulation.setDeviceMetricsOverride", screen)

    def scheme(self, name):
        feature = {"name": "prefers-color-scheme", "value": name}
        self.browser.execute_cdp_cmd("Emulation.setEmulatedMedia", {"features": [feature]})

    def open(self, address):
        self.browser.get("about:blank")
        self.browser.get(address)
        for _ in range(500):
            ready = self.run("return document.documentElement.dataset.ready")
            if ready:
                return int(ready)
            time.sleep(0.02)
        return check(False, "the page did not start", self.browser.get_log("browser"))

    def visit(self, **state):
        return self.open(f"{self.address}#{urlencode(state)}")

    def type_into(self, name, text):
        self.by(name).send_keys(Keys.CONTROL, "a", Keys.NULL, Keys.DELETE, text)

    def paste(self, name, text):
        script = "arguments[0].value = arguments[1]; arguments[0].dispatchEvent(new Event('input', { bubbles: true }))"
        self.browser.execute_script(script, self.by(name), text)

    def link(self):
        """The address, once it has followed."""
        time.sleep(0.5)
        return self.browser.current_url

    def state(self):
        return {name: values[0] for name, values in parse_qs(urlsplit(self.link()).fragment).items()}

    def shot(self, name):
        """A picture of the whole page, which must not be wider than the screen, nor too faint to read."""
        wide = self.run("return document.documentElement.scrollWidth")
        check(wide <= self.width, name, "is wider than the screen:", wide)
        faint = self.run(FAINT)
        check(not faint, name, "has faint texts:", faint)
        self.size(self.width, max(700, self.run("return document.documentElement.scrollHeight")))
        self.browser.save_screenshot(str(self.shots / f"{name}.png"))
        self.size(self.width)

    def check_access(self, tab):
        """Whatever can be used has a name for a screen reader, and what a finger presses is not too small."""
        kinds = ("textbox", "button", "radio", "tab", "combobox", "link")
        nodes = self.browser.execute_cdp_cmd("Accessibility.getFullAXTree", {})["nodes"]
        used = [node for node in nodes if not node["ignored"] and node["role"]["value"] in kinds]
        nameless = [node for node in used if not node.get("name", {}).get("value")]
        check(len(used) > 8 and not nameless, tab, "has fields without a name:", nameless)
        small = "return [...document.querySelectorAll('main button, main input, main select')].filter((e) => e.offsetParent"
        small = self.run(f"{small} && e.offsetHeight < 24).map((e) => e.outerHTML)")
        check(not small, tab, "has small fields:", small)


def try_phrases(page, name):
    """The moment, its month and its distance; both readings; the steps."""
    page.visit(tab="try", phrase="", now=NOW, reading="2")
    check("Type a phrase" in page.text("try-answer"), page.text("try-answer"))
    page.type_into("try-phrase", "next friday at 3 pm")
    answer = page.text("try-answer")
    check("20 February 2026" in answer and page.texts("#try-answer .time")[0] == "15:00", answer)
    check("in 9 days, 5 hours and 29 minutes" in answer and "february 20 2026 at 15:00" in answer, answer)
    marks = [page.texts(f"#try-answer td.{kind}")[0][:2] for kind in ("now", "due")]
    check(marks == ["11", "20"], "the month's marks:", marks)
    check(page.state() == {"tab": "try", "phrase": "next friday at 3 pm", "now": NOW, "reading": "2"}, page.browser.current_url)
    check(page.by("try-brief").is_displayed() == (page.width < 600), "the line below the phrase")
    check(page.text("live") or len(page.by("live").get_attribute("textContent")) > 10, "what a screen reader is told")
    page.check_access("try")
    page.shot(f"try-{name}")
    page.visit(tab="try", phrase="tuesday in two weeks", now=NOW, reading="2")
    both = page.text("try-readings")
    check("Tue 27 Jan 2026, 09:30:15" in both and "Tue 3 Mar 2026, 09:30:15" in both, both)
    page.shot(f"readings-{name}")
    page.one("[name='try-reading'][value='2']").send_keys(Keys.ARROW_LEFT)
    check("27 January 2026" in page.text("try-answer") and page.state()["reading"] == "1", page.text("try-answer"))
    page.visit(tab="try", phrase="tuesday 1 year and 2 weeks ago at 5:30 pm", now=NOW, reading="1")
    steps = [step.replace("\n", " ") for step in page.texts("#try-steps li")]
    wanted = ["Start today", "Go back 1 year", "Go back 2 weeks", "Go back to a Tuesday", "Set the time to 5:30 pm"]
    check(len(steps) == 5 and all(map(str.startswith, steps, wanted)) and steps[4].endswith("Tue 28 Jan 2025, 17:30"), steps)
    check(page.text("try-readings") == "", page.text("try-readings"))


def try_refusals(page, name):
    """A refused part underlined, a word while it is typed, and a now that is none."""
    page.visit(tab="try", phrase="three weeks before christmas", now=NOW, reading="2")
    mirrored = page.one("#try .mirror mark").get_attribute("textContent")
    check(page.texts("#try-answer mark")[0] == "christmas" and mirrored == "christmas", "the refused part")
    check("“christmas”: not understood." in page.text("try-answer"), page.text("try-answer"))
    page.shot(f"refused-{name}")
    page.type_into("try-phrase", "the day after tom")
    check("Keep typing" in page.text("try-answer") and "begins a known word" in page.text("try-word"), page.text("try-answer"))
    check(page.texts("#try-fits button") == ["tomorrow"], page.text("try-fits"))
    page.shot(f"typing-{name}")
    page.by("try-phrase").send_keys(Keys.ARROW_RIGHT)
    check(page.value("try-phrase") == "the day after tomorrow ", page.value("try-phrase"))
    page.by("try-phrase").send_keys("at n")
    page.one("#try-fits button").click()
    check(page.value("try-phrase").startswith("the day after tomorrow at n"), page.value("try-phrase"))
    page.type_into("try-phrase", "x" * 300)
    check("Longer than 256 bytes." in page.text("try-answer") and "Refusal 1" in page.text("try-answer"), page.text("try-answer"))
    page.type_into("try-now", "yesterday")
    check("No now" in page.text("try-answer") and page.by("try-now").get_attribute("aria-invalid") == "true", page.text("try-answer"))
    page.one("[data-now='try-now']").click()
    check(page.by("try-now").get_attribute("aria-invalid") == "false", "the now button")
    for chip in page.all("[data-examples='try-phrase'] button"):
        chip.click()
        check(page.value("try-phrase") == chip.text, chip.text)


def why_moved(page, name):
    """Each by its own clock, and with the author's now; clocks that are changed."""
    page.visit(tab="try")
    page.by("tab-try").send_keys(Keys.ARROW_RIGHT)
    check(page.by("why").is_displayed() and not page.by("try").is_displayed(), "the second tab by its key")
    page.visit(tab="why", phrase="next friday at 3 pm", now=NOW)
    check("728 days (about 2 years) late" in page.text("why-verdict") and "late" in page.text("why-ahead-got"), page.text("why-verdict"))
    check(len(set(page.texts("#why-sent .got"))) == 1, "with the author's now they differ")
    page.check_access("why")
    page.shot(f"why-{name}")
    page.type_into("why-ahead", NOW)
    check("as meant" in page.text("why-ahead-got") and "close enough" in page.text("why-verdict"), page.text("why-verdict"))
    page.one("[aria-label='Hub: a year on']").click()
    check("late" in page.text("why-hub-got") and "2027" in page.value("why-hub"), page.text("why-hub-got"))
    check(page.state()["hub"].startswith("2027"), page.browser.current_url)
    page.type_into("why-phrase", "christmas")
    check("“christmas”: not understood." in page.text("why-verdict"), page.text("why-verdict"))


def repeats(page, name):
    """A year's occurrences, the next one, a rule that is refused, and the examples."""
    page.visit(**RULE)
    check("24 February 2026" in page.text("repeat-answer") and "10 Mar 2026" in page.text("repeat-answer"), page.text("repeat-answer"))
    check("24 occurrences" in page.text("repeat-count") and len(page.all("#repeat td.on")) == 24, page.text("repeat-count"))
    check(page.text("repeat-words") == "Every 2 weeks on Tuesday", page.text("repeat-words"))
    page.check_access("repeat")
    page.shot(f"repeat-{name}")
    page.one("[data-year='1']").click()
    check("26 occurrences in 2027" in page.text("repeat-count") and page.state()["year"] == "2027", page.text("repeat-count"))
    page.type_into("repeat-rule", "FREQ=HOURLY")
    check("Refusal 18" in page.text("repeat-answer"), page.text("repeat-answer"))
    for chip in page.all("[data-examples='repeat-rule'] button"):
        chip.click()
        check("Next" in page.text("repeat-answer"), chip.text, page.text("repeat-answer"))


def zones(page, name):
    """A day that is longer by the clocks, a time that is skipped, and an hour that comes twice."""
    page.visit(**FORWARD)
    answer = page.text("zones-answer")
    check(all(text in answer for text in ("8 March 2026", "10:00", "−04:00", "2026-03-08T14:00:00Z", "It differs")), answer)
    check(len(page.all("#zones-line .gap")) == 1 and "an hour is skipped" in page.text("zones-line-said"), "the gap")
    page.check_access("zones")
    page.shot(f"zones-{name}")
    page.type_into("zones-phrase", "tomorrow at 2:30")
    check("Refusal 23" in page.text("zones-answer") and "no 02:30" in page.texts("#zones-line .gap")[0], page.text("zones-answer"))
    page.shot(f"zones-skipped-{name}")
    page.visit(**BACK)
    check(len(page.all("#zones-line .twice")) == 2 and "an hour comes twice" in page.text("zones-line-said"), "the hour that comes twice")
    page.shot(f"zones-twice-{name}")
    page.all("#zones-changes button")[1].click()
    check(page.value("zones-now") == "2027-03-13T09:00:00-05:00", page.value("zones-now"))
    page.visit(**{**FORWARD, "phrase": "18 hours from now", "zone": "Australia/Lord_Howe", "now": "2026-10-03T09:00:00+10:30"})
    check("03:30" in page.text("zones-answer") and "30 minutes are skipped" in page.text("zones-line-said"), page.text("zones-answer"))
    Select(page.by("zones-zone")).select_by_visible_text("Tokyo")
    check("do not change" in page.text("zones-changes"), page.text("zones-changes"))


def own_zone(page, path):
    """A file of the user's is in the address, so a link to it shows the same."""
    page.visit(**FORWARD)
    page.by("zones-own").send_keys(str(pathlib.Path(path).resolve()))
    link, answer = page.link(), page.text("zones-answer")
    check(page.value("zones-zone") == pathlib.Path(path).name and "8 March 2026" in answer and "file=" in link, answer, link)
    page.open(link)
    check(page.value("zones-zone") == pathlib.Path(path).name and page.text("zones-answer") == answer, page.text("zones-answer"))
    Select(page.by("zones-zone")).select_by_visible_text("London")
    check("file" not in page.state() and page.state()["zone"] == "Europe/London", page.browser.current_url)
    page.by("zones-own").send_keys(str(pathlib.Path(__file__).resolve()))
    time.sleep(0.5)
    check("Not a zone file that is accepted." in page.text("zones-answer"), page.text("zones-answer"))


def history(page):
    """Going back shows the tab before, as it was."""
    page.visit(tab="try", phrase="noon", now=NOW, reading="1")
    page.by("tab-zones").click()
    page.by("tab-repeat").click()
    page.browser.back()
    check(page.by("zones").is_displayed(), "the tab before")
    page.browser.back()
    check(page.by("try").is_displayed() and page.value("try-phrase") == "noon" and "12:00" in page.text("try-answer"), "the first tab")
    page.by("copy").click()
    time.sleep(0.2)
    check(page.text("copy") in ("copied", "copy it from the address bar"), page.text("copy"))


def typed(page, archive, path, count):
    """Phrases of the list typed in, each beside the archive's answer."""
    form = re.compile(r"(\d{4}-\d\d-\d\d \d\d:\d\d:\d\d)\|([ -~]*[!-~][ -~]*)")
    lines = open(path, encoding="utf-8", newline="\n").read().split("\n")
    pairs = [match.groups() for match in map(form.fullmatch, lines) if match and len(match[2]) < 60]
    moments = refused = 0
    page.visit(tab="try", phrase="", now=NOW, reading="1")
    for i, (now, phrase) in enumerate(random.Random(1).sample(pairs, count)):
        reading = 1 + i % 2
        page.paste("try-now", now.replace(" ", "T") + "Z")
        page.run(f"document.querySelector('[name=\"try-reading\"][value=\"{reading}\"]').click()")
        page.type_into("try-phrase", phrase)
        expected = archive.shown(reading, phrase, [int(part) for part in re.split("[-: ]", now)])
        if page.by("try-now").get_attribute("aria-invalid") == "true":
            check(isinstance(expected[0], int), reading, phrase, now, expected)
        elif isinstance(expected[0], int):
            refused += 1
            check_refusal(page, reading, phrase, expected)
        else:
            moments += 1
            found = (page.texts("#try-answer .day")[0].split("\n")[1], page.texts("#try-answer .time")[0])
            check(found == expected, reading, phrase, now, expected, found)
    print(f"{count} phrases typed in: {moments} moments and {refused} refusals as the archive has them")


def check_refusal(page, reading, phrase, expected):
    number, part = expected
    text = page.text("try-answer")
    if text.startswith("Keep typing"):
        check(number == 2, reading, phrase, expected, text)
        return
    marks = page.texts("#try-answer mark")
    check(f"Refusal {number}" in text.split("\n"), reading, phrase, expected, text)
    check(marks == ([part] if part else []), reading, phrase, expected, marks)


def first_answer(page):
    """How soon the first answer is there, beside an empty page, in milliseconds: the median and the least of some visits.

    Beyond what an empty page takes it has 100 ms: a machine that is busy with other things delays both.
    """
    empty = page.shots / "empty.html"
    empty.write_text("<!doctype html><title>empty</title><script type=module>"
                     "document.documentElement.dataset.ready = String(Math.round(performance.now()))</script>")
    times = [(page.visit(tab="try", phrase="next friday at 3 pm", now=NOW), page.open(empty.resolve().as_uri())) for _ in range(11)]
    empty.unlink()
    shown, bare = zip(*times)
    print(f"first answer after {statistics.median(shown)} ms, at least {min(shown)}; an empty page {statistics.median(bare)}, {min(bare)}")
    check(min(shown) - min(bare) <= 100, "the first answer comes late:", shown, bare)


class Host(http.server.SimpleHTTPRequestHandler):
    """A static host that says nothing."""

    def log_message(self, *_):
        pass


def check_import(page, package):
    """The module, imported from a static host, which it takes its WebAssembly from."""
    host = http.server.ThreadingHTTPServer(("127.0.0.1", 0), functools.partial(Host, directory=package))
    threading.Thread(target=host.serve_forever, daemon=True).start()
    page.browser.get(f"http://127.0.0.1:{host.server_port}/package.json")
    found = page.browser.execute_async_script(IMPORTED)
    host.shutdown()
    version = pathlib.Path("VERSION").read_text().strip()
    temporal = ("true RangeError TypeError TypeError", "no Temporal")
    check(found[:2] == [version, "2026-02-20T15:00:00"] and found[2] in temporal, "the module in a browser:", found)
    print(f"the module imported from a host reads in the browser too; Temporal: {found[2]}")


def check_alone(page):
    """The page loads nothing, and its policy holds: no connection, no other script."""
    page.visit(tab="try")
    check(page.run("return performance.getEntriesByType('resource').length") == 0, "the page loads something")
    refused = page.browser.execute_async_script("const done = arguments[0]; fetch(location.href).then(() => done(false), () => done(true))")
    check(refused, "the page can connect")
    page.browser.get_log("browser")


def main(path, package, library, listed, zone, shots, count="500"):
    folder = pathlib.Path(shots)
    folder.mkdir(parents=True, exist_ok=True)
    page = Page(path, folder)
    try:
        for width in WIDTHS:
            page.size(width)
            for scheme in SCHEMES:
                page.scheme(scheme)
                for use in (try_phrases, try_refusals, why_moved, repeats, zones):
                    use(page, f"{width}-{scheme}")
            own_zone(page, zone)
            history(page)
        page.size(WIDTHS[0])
        typed(page, Archive(library), listed, int(count))
        first_answer(page)
        logs = page.browser.get_log("browser")
        check(not logs, "the console has words:", logs)
        check_import(page, package)
        check_alone(page)
        print(f"each tab at {WIDTHS[0]} and {WIDTHS[1]} pixels, light and dark: no word in the console, pictures in {shots}")
    finally:
        page.browser.quit()


main(*sys.argv[1:])
