"""p25-page: its page in tidy and in Chromium.

With P25_KEEP=FOLDER in the environment pages and pictures are kept there.
"""

import base64
import hashlib
import json
import os
import re
import subprocess
import urllib.request

import pytest
from conftest import SAMPLES, ldu1, lines_of_calls, need
from test_talkers import EMERGENCY

TRAFFIC = SAMPLES["traffic.bin"].read_bytes()
KEEP = os.environ.get("P25_KEEP")
BEGUN = "--begin 2026-11-28T08:00:00+01:00"


def page(room, name, words="", given=b"", told=""):
    """Returns the path and the text of a page, and checks that tidy finds no fault in it and that it loads nothing."""
    need("tidy")
    path = os.path.join(KEEP or room.path, f"{name}.html")
    status, text, error = room.run(f"p25-page {words}", given)
    assert (status, re.sub("p25-page: '.*' is taken for the form .*\n", "", error)) == (0, told)
    with open(path, "wb") as file:
        file.write(text)
    assert room.run(f"tidy -q -e -utf8 '{path}'") == (0, b"", "")
    text = text.decode()
    assert re.findall(r'(?:src|href)="(?!#|data:,")[^"]*"|url\((?!#)[^)]*\)|@import', text) == []
    return path, text


def summary(text):
    return re.findall("<p>(.*)</p>", text[text.index('id="summary"') : text.index('<section id="time"')])


class Browser:
    """Chromium without a screen, driven by the protocol of chromedriver."""

    def __init__(self):
        self.driver = subprocess.Popen(["chromedriver", "--port=0"], stdout=subprocess.PIPE, stderr=subprocess.DEVNULL, text=True)
        for line in self.driver.stdout:
            found = re.search(r"started successfully on port (\d+)", line)
            if found:
                self.base = f"http://127.0.0.1:{found[1]}"
                break
        options = {"args": ["--headless=new", "--no-sandbox", "--disable-gpu", "--hide-scrollbars", "--force-color-profile=srgb"]}
        wanted = {"browserName": "chrome", "goog:chromeOptions": options, "goog:loggingPrefs": {"browser": "ALL", "performance": "ALL"}}
        self.session = self.ask("POST", "/session", {"capabilities": {"alwaysMatch": wanted}})["sessionId"]

    def ask(self, way, path, body=None):
        data = None if body is None else json.dumps(body).encode()
        request = urllib.request.Request(self.base + path, data, {"Content-Type": "application/json"}, method=way)
        with urllib.request.urlopen(request, timeout=120) as answer:
            return json.load(answer)["value"]

    def call(self, way, path, body=None):
        return self.ask(way, f"/session/{self.session}{path}", body)

    def command(self, name, **values):
        return self.call("POST", "/goog/cdp/execute", {"cmd": name, "params": values})

    def size(self, width, height, is_mobile=False):
        self.command("Emulation.setDeviceMetricsOverride", width=width, height=height, deviceScaleFactor=1, mobile=is_mobile)

    def scheme(self, scheme):
        self.command("Emulation.setEmulatedMedia", features=[{"name": "prefers-color-scheme", "value": scheme}])

    def processor(self):
        """Returns the CPU seconds that the browser has taken, with all its processes."""
        parents, ticks = {}, {}
        for name in filter(str.isdigit, os.listdir("/proc")):
            try:
                with open(f"/proc/{name}/stat", encoding="ascii", errors="replace") as file:
                    fields = file.read().rpartition(")")[2].split()
            except OSError:
                continue
            parents[int(name)] = int(fields[1])
            ticks[int(name)] = int(fields[11]) + int(fields[12])
        family = {self.driver.pid}
        for number in ticks:
            line = [number]
            while line[-1] in parents and line[-1] not in family:
                line.append(parents[line[-1]])
            if line[-1] in family:
                family.update(line)
        return sum(ticks.get(number, 0) for number in family) / os.sysconf("SC_CLK_TCK")

    def open(self, path):
        self.log("browser")
        self.log("performance")
        self.call("POST", "/url", {"url": f"file://{path}"})

    def log(self, kind):
        return self.call("POST", "/se/log", {"type": kind})

    def run(self, code, *words):
        return self.call("POST", "/execute/sync", {"script": code, "args": list(words)})

    def find(self, path):
        return list(self.call("POST", "/element", {"using": "css selector", "value": path}).values())[0]

    def click(self, path):
        self.call("POST", f"/element/{self.find(path)}/click", {})

    def keys(self, path, text):
        self.call("POST", f"/element/{self.find(path)}/value", {"text": text})

    def texts(self, path):
        return self.run("return [...document.querySelectorAll(arguments[0])].map(e => e.innerText)", path)

    def picture(self, path, is_whole=False):
        taken = self.command("Page.captureScreenshot", format="png", captureBeyondViewport=is_whole)
        with open(path, "wb") as file:
            file.write(base64.b64decode(taken["data"]))

    def requests(self):
        """Returns what was requested beside the page."""
        urls = []
        for entry in self.log("performance"):
            message = json.loads(entry["message"])["message"]
            if message["method"] == "Network.requestWillBeSent":
                urls.append(message["params"]["request"]["url"])
        return [url for url in urls if not url.endswith(".html") and not url.startswith("data:")]

    def end(self):
        try:
            self.call("DELETE", "")
        finally:
            self.driver.terminate()
            self.driver.wait()


@pytest.fixture(scope="module")
def browser():
    need("chromedriver")
    it = Browser()
    yield it
    it.end()


def test_lines_that_are_refused(room):
    lines = room.octets("p25 show < traffic.bin").splitlines(keepends=True)
    assert room.run("p25-page", b"".join([*lines[:3], b"hello\n", *lines[3:]])) == (1, b"", "p25-page: line 4 is none of p25 show\n")
    assert room.run("p25-page 'no such file'")[0] == 3


def test_two_radios_in_one_run(room):
    room.put("two.bin", room.build(*EMERGENCY))
    assert summary(page(room, "two", "two.bin")[1])[:2] == [
        "In 3.3 s of recording, one network (NAC 293) carried 2 calls: 3.3 s of speech, by 2 radios that are known, to 1 group.",
        "1 call was an emergency: radio 5678 to group 1234, at 0:00:00.0.",
    ]


def test_honest_numbers(room):
    """Checks that bit errors are those of whole units, beside the share of the others, with the odds of WEAK.md."""
    room.put("poor.bin", room.octets("p25-damage 3 7 < traffic.bin"))
    reception = summary(page(room, "poor", "poor.bin")[1])[-1]
    assert re.fullmatch(
        r"Reception was poor: of \d+ voice units \(each 0.18 s of speech\) \d+ were read whole \([0-9.]+ %\), \d+ came too damaged to be read \(broken\), and \d+ were not heard \(lost\)\. "
        r"In the units that were read whole [0-9.]+ % of the bits that are checked were wrong; of all others it is not known\. At such a rate the link control \(who speaks to whom\) of "
        r"less than 0.01 % of them is another than was transmitted, the encryption sync of 0.03 %, and the low speed data of 5.72 %; in fades more are\.", reception)
    assert "put right" not in reception


def test_names_by_network(room):
    room.put("names.csv", "group,100,County fire,2a1\ngroup,100,City fire\n")
    text = page(room, "names", "-a names.csv traffic.bin")[1]
    assert "to 3 groups" in summary(text)[0] and text.count("<td>County fire</td>") == text.count("<td>City fire</td>") == 1


def test_numbers(room):
    """Checks that the numbers of the page are those of p25-talkers."""
    damaged = b"".join(room.octets(f"p25-damage {seed} {seed % 7} < traffic.bin") for seed in range(1, 25))
    lines = room.text("p25 show", damaged)
    rows = [line.split(",") for line in room.lines("p25-talkers -c", lines)]
    rows = [dict(zip(rows[0], row)) for row in rows[1:]]
    _, text = page(room, "damaged", given=lines)
    data = json.loads(re.search(r'<script type="application/json" id="data">(.*?)</script>', text, re.S)[1])
    wanted, got = [], []
    for row, call in zip(rows, data["calls"]):
        to = f"group {row['group']}" if row["group"] else f"radio {row['called']}"
        wanted.append([row["begin"], row["nac"], f"radio {row['radio']}", to, *(int(row[name]) for name in ("sent", "heard", "broken")), row["emergency"] == "1"])
        got.append([f"{call[0] / 1000:.3f}", data["networks"][call[2]], data["talkers"][call[3]], data["called"][call[4]][0], *call[7:10], bool(call[6] & 4)])
    assert got == wanted and len(rows) == len(data["calls"])
    counts = [len(re.findall(f"^{kind} ", lines, re.M)) for kind in ("unit", "broken", "nounit")]
    assert "{:,} whole, {:,} broken, {:,} syncs".format(*counts) in text
    lost, sent = (sum(int(row[name]) for row in rows) for name in ("lost", "sent"))
    assert f"of {sent:,} voice units" in text and f"and {lost:,} were not heard (lost)" in text
    # The sums of the slices are those of the calls.
    sums = [sum(column) for column in zip(*(row[1:] for row in data["slices"]))]
    places = [(int(at), int(at) + int(bits)) for at, bits in re.findall(r"call at=(\d+) bits=(\d+)", room.text("p25 calls", damaged))]
    units = [(int(at), int(bits)) for at, bits in re.findall(r"^unit at=(\d+) bits=(\d+)", lines, re.M)]
    whole = sum(bits for at, bits in units for begin, end in places if begin <= at < end)
    in_calls = sum(end - begin for begin, end in places)
    assert sums == [sum(call[11] for call in data["calls"]), sum(call[10] for call in data["calls"]), in_calls, in_calls - whole]


EVIL = '<script>alert(1)</script></script><img src=x onerror=alert(2)>"\'&amp;{{7*7}}'


def test_escape(room, browser):
    """Checks that names, titles and names of files are texts in the page, also hostile ones."""
    quoted = EVIL.replace('"', '""')
    room.put("names.csv", f'group,100,"{quoted}"\nradio,4097,"{quoted}"\nradio,4098,Ólafur 北\n')
    room.put("a <b>&.bin", TRAFFIC)
    word = "'" + EVIL.replace("'", "'\\''") + "'"
    path, text = page(room, "escaped", f"-a names.csv --title {word} --command {word} 'a <b>&.bin'")
    assert "<script>alert" not in text and "<img" not in text and "{{7*7}}" in text and hashlib.sha256(TRAFFIC).hexdigest() in text
    browser.open(path)
    assert browser.log("browser") == []
    assert [browser.texts("h1")[0], browser.run("return document.title")] == [EVIL, EVIL]
    assert browser.run("return document.querySelectorAll('img, body script:not(#data):not(:last-of-type)').length") == 0
    assert browser.texts("#calls td:first-child")[:2] == [f"{EVIL} (4097)", "Ólafur 北 (4098)"]
    assert "Ólafur 北" in browser.texts("#talkers td:nth-child(2)")


@pytest.fixture
def traffic(room):
    """Returns the page of a sample, and checks that it is the same for its lines, for a file of lines, and for the recording."""
    lines = room.put("traffic.show", room.octets("p25 show < traffic.bin"))
    pages = [page(room, f"traffic {place}", f"{BEGUN} {words}", given)
             for place, (words, given) in enumerate((("--recording traffic.bin", room.get(lines)), (lines, b""), ("traffic.bin", b"")))]
    assert len({text[text.index("<main>") : text.index("</main>")] for _, text in pages}) == 1
    return pages[0][0]


@pytest.mark.parametrize("scheme", ["light", "dark"])
@pytest.mark.parametrize("width", [360, 1400])
def test_looks(browser, traffic, scheme, width):
    browser.scheme(scheme)
    browser.size(width, 900, width == 360)
    browser.open(traffic)
    assert (browser.log("browser"), browser.requests()) == ([], [])
    assert browser.run("return [document.documentElement.scrollWidth, innerWidth]") == [width, width]
    assert browser.run(CONTRAST) == []
    if width == 360:
        # A phone shows talker and called first, and an emergency before them.
        seen = "const box = document.querySelector('#calls .scroll').getBoundingClientRect(); return [...document.querySelectorAll('#calls tbody tr')].map((row) => [...row.cells]"
        rows = browser.run(f"{seen}.filter((cell) => cell.getBoundingClientRect().right <= box.right + 1).map((cell) => cell.innerText))")
        assert [row[:2] for row in rows] == [["radio 4097", "group 100"], ["radio 4098", "group 200"], ["radio 4099", "radio 4100"], ["EMERGENCY radio 4097", "group 100"]]
    if KEEP:
        browser.size(width, browser.run("return document.documentElement.scrollHeight"), width == 360)
        browser.picture(os.path.join(KEEP, f"traffic-{scheme}-{width}.png"))
    browser.scheme("light")


def test_acts(browser, traffic):
    browser.size(1400, 900)
    browser.open(traffic)
    assert browser.texts("#summary p")[:3] == [
        "In 4.8 s of recording, 2 networks carried 4 calls: 3.3 s of speech, by 3 radios that are known, to 2 groups.",
        "1 call was an emergency: radio 4097 to group 100, at 2026-11-28 08:00:03.",
        "1 of 4 calls was encrypted.",
    ]
    times = "#calls td:nth-child(3)"
    assert browser.texts(times) == ["08:00:00.0", "08:00:01.7", "08:00:02.9", "08:00:03.9"]
    assert browser.texts("#emergencies td") == ["radio 4097", "group 100", "2026-11-28 08:00:03", "0.8 s", "2a1", "clear"]
    assert browser.texts("#calls td:nth-child(6)") == ["clear", "AES-256, key 0123", "clear", "clear"]
    # Sorted by clicks and by the keyboard.
    for lengths in (["1.2 s", "0.8 s", "0.7 s", "0.5 s"], ["0.5 s", "0.7 s", "0.8 s", "1.2 s"]):
        browser.click("#calls th:nth-child(4) button")
        assert browser.texts("#calls td:nth-child(4)") == lengths
    assert browser.run("return document.querySelector('#calls th:nth-child(4)').ariaSort") == "ascending"
    browser.keys("#calls th:nth-child(3) button", "\ue007")
    assert browser.texts(times) == ["08:00:00.0", "08:00:01.7", "08:00:02.9", "08:00:03.9"]
    browser.click("#talkers th:nth-child(1) button")
    assert browser.texts("#talkers td:nth-child(1)") == ["4097", "4098", "4099"]
    # Filtered by words of the row.
    for keys, path, wanted in (
        ("emergency", times, ["08:00:03.9"]), ("\ue003" * 9 + "4099 4100", "#calls td:nth-child(2)", ["radio 4100"]), (" nothing", "#calls td", []),
    ):
        browser.keys("#filter-calls", keys)
        assert browser.texts(path) == wanted
    assert "0 of 4 rows" in browser.texts("#calls .tools")[0]
    browser.keys("#filter-calls", "\ue003" * 20)
    browser.keys("#filter-talkers", "4098")
    assert browser.texts("#talkers td:nth-child(1)") == ["4098"]
    # Bars, a click, zoom by button, by the keyboard and by dragging.
    assert browser.run("return [...document.querySelectorAll('.bar')].map(e => e.getAttribute('class'))") == ["bar clear", "bar secret", "bar clear", "bar alarm"]
    browser.click(".bar.alarm")
    assert browser.texts("#picked") == ["08:00:03.9, for 0.8 s: radio 4097 to group 100, EMERGENCY, clear; 4 of 4 voice units heard"]
    browser.click("[data-do=in]")
    assert browser.texts("#range") == ["08:00:01 to 08:00:03"] and browser.texts(times) == ["08:00:00.0", "08:00:01.7", "08:00:02.9"]
    for key, shown in (("\ue014", "08:00:02 to 08:00:04"), ("0", "08:00:00 to 08:00:04")):
        browser.keys("#chart svg", key)
        assert browser.texts("#range") == [shown]
    box = browser.run("const b = document.querySelector('#chart svg').getBoundingClientRect(); scrollTo(0, b.top + scrollY - 100);"
                      "const c = document.querySelector('#chart svg').getBoundingClientRect(); return [c.left, c.top, c.width]")
    moves = [(0.9, "pointerMove"), (None, "pointerDown"), (0.99, "pointerMove"), (None, "pointerUp")]
    actions = [{"type": kind, "x": int(box[0] + box[2] * at), "y": int(box[1] + 30), "duration": 50} if at else {"type": kind, "button": 0} for at, kind in moves]
    browser.call("POST", "/actions", {"actions": [{"type": "pointer", "id": "mouse", "parameters": {"pointerType": "mouse"}, "actions": actions}]})
    assert browser.texts(times) == ["08:00:03.9"]
    browser.click("#follow")
    assert len(browser.texts(times)) == 4 and browser.log("browser") == []
    # For a screen reader: names of all controls, headings in order.
    assert browser.run(NAMELESS) == []
    assert browser.run("return [...document.querySelectorAll('h1,h2,h3')].map(e => e.tagName[1]).join('')")[:2] == "12"
    assert browser.run("return document.querySelector('#chart svg').ariaLabel").startswith("Calls from 08:00")


def test_paper(browser, traffic):
    """Checks that paper shows all dark on light, without controls, and that it explains words."""
    browser.open(traffic)
    browser.command("Emulation.setEmulatedMedia", media="print", features=[{"name": "prefers-color-scheme", "value": "dark"}])
    assert browser.run("return [getComputedStyle(document.body).color, getComputedStyle(document.body).backgroundColor]") == ["rgb(0, 0, 0)", "rgb(255, 255, 255)"]
    assert browser.run("return [...document.querySelectorAll('nav, .tools')].filter(e => e.offsetParent).length") == 0
    is_open = "return document.querySelector('details').open"
    browser.run("dispatchEvent(new Event('beforeprint'))")
    assert browser.run("return document.querySelector('#chart svg').getAttribute('viewBox').split(' ')[2]") == "720" and browser.run(is_open)
    browser.run("dispatchEvent(new Event('afterprint'))")
    assert not browser.run(is_open)
    assert base64.b64decode(browser.call("POST", "/print", {})).startswith(b"%PDF")
    browser.command("Emulation.setEmulatedMedia", media="", features=[])


NONE = "No unit of Project 25 was found. Either nothing was sent, or the recording is in another form: p25-guess FILE tries all forms."
UNREAD = "No unit was read: none of 2 syncs gave one. It is a control channel, or the order of bits is another: p25-guess FILE tries all forms."


@pytest.mark.parametrize(
    "name, wanted, told",
    [
        ("noise.bin", NONE, True), ("/dev/null", NONE, True), ("control", UNREAD, True), ("far_identifier.bin", "No call was found.", False),
        ("packets.bin", "No call was found. There are 3 whole units of 1 network, and no broken unit.", False),
    ],
)
def test_without_calls(room, browser, name, wanted, told):
    room.put("control", b"nounit at=0 field=duid\ngap at=1 bits=200\nnounit at=201 field=duid\n")
    lines = room.get("control") if name == "control" else room.octets(f"p25 show < {name}")
    path, _ = page(room, "none", given=lines, told=f"p25-page: {wanted}\n" if told else "")
    browser.open(path)
    assert browser.log("browser") == [] and browser.texts("#summary p")[0].startswith(wanted)


def test_names_with_commas_and_a_filter(room, browser):
    room.put("commas.csv", 'group,100,"Fire, east"\ngroup,200,"Fire, west"\n')
    recording = room.build(ldu1("000000000064000001"), "tdu nac=293", ldu1("0000000000c8000001"), "tdu nac=293")
    browser.open(page(room, "commas", "-a commas.csv", room.octets("p25 show", recording))[0])
    assert browser.texts("#talkers td:nth-child(2)") == ["Fire, east (100); Fire, west (200)"]
    text = page(room, "filtered", "--group 100 --emergency traffic.bin")[1]
    assert "Only calls to group 100 that are emergencies." in text and "carried 1 call:" in text


@pytest.mark.parametrize("calls, seconds", [(2000, 21.0), (60000, 0.7)])
def test_day(room, browser, calls, seconds):
    """Checks that a day of 2,000 calls, and one of more than are listed, take at most 2 MB, and are quick in the browser."""
    path, text = page(room, "day", "--begin 2026-11-28T00:00:00Z", lines_of_calls(calls, max(1, int(seconds / 0.36))))
    assert len(text.encode()) <= 2_000_000 and f"{calls:,} calls" in text
    browser.size(1400, 900)
    begun = browser.processor()
    browser.open(path)
    assert browser.log("browser") == [] and 0 < browser.processor() - begun < 10
    assert len(browser.texts("#calls tbody tr")) == 100
    browser.click("#calls-table .scroll + .tools button")
    assert len(browser.texts("#calls tbody tr")) == 200
    for width in (360, 1400):
        browser.size(width, 900, width == 360)
        browser.open(path)
        assert browser.run("return [document.documentElement.scrollWidth, innerWidth]") == [width, width]
        if KEEP:
            browser.size(width, min(6000, browser.run("return document.documentElement.scrollHeight")), width == 360)
            browser.picture(os.path.join(KEEP, f"day-{calls}-{width}.png"))


# Texts whose contrast to their background is below 4.5.
CONTRAST = """
const light = (text) => {
    const [r, g, b] = text.match(/[0-9.]+/g).map(Number).map((v) => { v /= 255; return v <= 0.03928 ? v / 12.92 : ((v + 0.055) / 1.055) ** 2.4; });
    return 0.2126 * r + 0.7152 * g + 0.0722 * b;
};
const behind = (e) => { for (; e; e = e.parentElement) { const c = getComputedStyle(e).backgroundColor; if (!/, 0\\)$/.test(c)) return c; } return "rgb(255, 255, 255)"; };
const low = [];
for (const e of document.querySelectorAll("body *")) {
    if (!e.innerText || ![...e.childNodes].some((n) => n.nodeType === 3 && n.data.trim()) || e.closest("svg, script, noscript, [hidden], :disabled")) continue;
    const [a, b] = [light(getComputedStyle(e).color), light(behind(e))];
    const contrast = (Math.max(a, b) + 0.05) / (Math.min(a, b) + 0.05);
    if (contrast < 4.5) low.push(`${e.tagName} ${e.innerText.slice(0, 20)} ${contrast.toFixed(1)}`);
}
return low;
"""
# Controls without a name.
NAMELESS = """
return [...document.querySelectorAll("button, input, a, [role=region], [role=img]")].filter((e) => !(e.innerText?.trim() || e.ariaLabel
    || (e.labels && e.labels.length && e.labels[0].innerText.trim()) || document.getElementById(e.getAttribute("aria-labelledby"))?.innerText)).map((e) => e.outerHTML.slice(0, 80));
"""


