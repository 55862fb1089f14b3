#!/usr/bin/env python3
"""Tests the pages that `page` makes. Usage: trial.py [FOLDER]

The script writes pages of what `capn annotate` writes for some messages, and reads them with the parser of Python:
- Each word is there once, with its bytes and its kind. The words that hide something are marked.
- A page loads nothing, and has no script but its own, also if a message or a line has the characters of HTML in it.
- A page of a million words folds most of them.
If Chromium is installed, the script opens the pages in it, in light and dark: it clicks on pointers, presses keys and
unfolds words, and tests where the mark is. If FOLDER is given, it writes pictures of the pages there.
"""

import base64
import gzip
import hashlib
import html.parser
import json
import os
import random
import re
import shutil
import struct
import subprocess
import sys
import tempfile
import time

HERE = os.path.dirname(os.path.abspath(__file__))
PAGE = os.path.join(HERE, "page")
CAPN = os.environ.get("CAPN", "capn")
SECONDS, LARGE = 120, 1_000_000
# Texts that a page has to escape, because they would begin or end an element, an attribute or a script.
NASTY = [b"</script><script>window.evil=1</script>", b"<!--<script>", b"\" onclick=\"window.evil=1", b"' autofocus x='",
         b"</style></title></noscript>", b"&lt;&#60;&amp", b"]]></div></main>",
         b"\\u003cscript\\u003e<img src=x onerror=evil()>"]
FAILED = []


def want(what, is_so, more=""):
    if not is_so:
        FAILED.append(what)
        print(f"annotate: failed: {what}{f': {more}' if more else ''}")


# The functions below make messages.


def struct_of(data, slots, offset):
    return (offset & 0x3FFFFFFF) << 2 | data << 32 | slots << 48


def list_of(code, count, offset):
    return 1 | (offset & 0x3FFFFFFF) << 2 | code << 32 | count << 35


def frame(*segments):
    table = struct.pack(f"<{1 + len(segments)}I", len(segments) - 1, *map(len, segments))
    return table + bytes(-len(table) % 8) + b"".join(struct.pack(f"<{len(words)}Q", *words) for words in segments)


def words_of(data):
    data += bytes(-len(data) % 8)
    return list(struct.unpack(f"<{len(data) // 8}Q", data))


def every_kind():
    """Returns a message that has a word of each kind, a text to which two pointers lead, and three hidden words."""
    first = [struct_of(1, 4, 0), 42, list_of(2, 6, 4), list_of(7, 5, 4), 2 | 1 << 32, 0, *words_of(b"Ada"),
             *words_of(b"Grace\0xy"), 2 << 2 | 1 << 32 | 1 << 48, 7, list_of(2, 6, -4), 9, 0, 0xDEAD]
    return frame(first, [struct_of(0, 1, 0), list_of(4, 3, 0), 1 | 2 << 32, 3])


def text_of(text):
    return frame([list_of(2, len(text) + 1, 0), *words_of(text + b"\0")])


def double():
    """Returns a message with a landing pad of two words, and with objects that overlap."""
    return frame([6 | 1 << 32], [2 | 2 << 32, struct_of(0, 2, 0)], [list_of(5, 2, 1), list_of(4, 2, 1), 5, 6])


def many(count):
    """Returns a message of `count` words. Its root is a list of structs, and each struct has a text."""
    rows = (count - 2) // 3
    words = [list_of(7, 2 * rows, 0), rows << 2 | 1 << 32 | 1 << 48] + [0] * (3 * rows)
    for i in range(rows):
        slot, text = 3 + 2 * i, 2 + 2 * rows + i
        words[slot - 1], words[slot], words[text] = i, list_of(2, 6, text - slot - 1), 0x6564636261
    return frame(words)


def numbers(count):
    rng = random.Random(3)
    return frame([list_of(5, count - 1, 0), *(rng.getrandbits(64) for _ in range(count - 1))])


# The functions below make pages, and read them.


def annotated(message, *words):
    return subprocess.run([CAPN, "annotate", *words], input=message, capture_output=True, check=True).stdout


def paged(lines, message=None):
    """Runs `page`, and returns its exit status, the page that it wrote, and its output on standard error."""
    with tempfile.TemporaryDirectory() as folder:
        given = []
        if message is not None:
            given = [os.path.join(folder, "message")]
            with open(given[0], "wb") as file:
                file.write(message)
        ran = subprocess.run([sys.executable, "-B", PAGE, *given], input=lines, capture_output=True)
    return ran.returncode, ran.stdout.decode(), ran.stderr.decode()


class Elements(html.parser.HTMLParser):
    """The elements of a page: words, lines, folds and scripts. If `unfold` is set, also has the elements inside the
    folds."""

    def __init__(self, text, unfold=True):
        super().__init__()
        self.words, self.lines, self.scripts, self.styles, self.folds, self.policy = [], [], [], [], 0, None
        self.loads, self.names, self.inside, self.is_unfolding = [], set(), None, unfold
        self.feed(text)
        self.close()

    def handle_starttag(self, name, attributes):
        pairs = dict(attributes)
        self.names.add(name)
        self.loads += [value for key, value in attributes if key in ("src", "srcset", "action", "data", "style")
                       or key == "href" and not re.fullmatch(r"#b\d+", value) or key.startswith("on")]
        if name == "meta" and pairs.get("http-equiv") == "Content-Security-Policy":
            self.policy = pairs["content"]
        if name in ("script", "style"):
            self.inside = (name, pairs.get("type"))
        if name in ("a", "i"):
            self.words.append((int(pairs["id"][1:]), pairs["class"].split(), pairs))
        if "data-k" in pairs:
            self.lines.append(pairs)
        self.folds += name == "details"

    def handle_endtag(self, name):
        if name in ("script", "style"):
            self.inside = None

    def handle_data(self, data):
        if self.inside == ("script", "text/plain"):
            if self.is_unfolding:
                folded = Elements(gzip.decompress(base64.b64decode(data)).decode())
                self.words += folded.words
                self.lines += folded.lines
                self.loads += folded.loads
                want("no script is folded", not folded.scripts and not folded.styles and not folded.folds)
        elif self.inside:
            (self.styles if self.inside[0] == "style" else self.scripts).append(data)
        elif self.words and "bytes" not in self.words[-1][2] and re.fullmatch(r"([0-9a-f]{2} ){7}[0-9a-f]{2}", data):
            self.words[-1][2]["bytes"] = data


def is_sealed(name, page):
    """Tests that a page loads nothing, and that its policy allows only its own style and its own script."""
    want(f"{name}: one script and one style", len(page.scripts) == len(page.styles) == 1)
    want(f"{name}: nothing is loaded", not page.loads, page.loads[:3])
    known = "html head meta title style body h1 h2 p noscript main div aside section ul li b strong u s i a code " \
            "script details summary button"
    want(f"{name}: known elements", page.names <= set(known.split()), page.names)
    policy = dict(part.strip().split(" ", 1) for part in page.policy.split(";"))
    for key, text in (("script-src", page.scripts[0]), ("style-src", page.styles[0])):
        mine = base64.b64encode(hashlib.sha256(text.encode()).digest()).decode()
        want(f"{name}: the policy has the hash of the {key}", policy[key] == f"'sha256-{mine}'")
    want(f"{name}: the policy", policy["default-src"] == policy["base-uri"] == policy["form-action"] == "'none'")


def columns_of(lines):
    return [line.split("\t") for line in lines.decode().split("\n")[:-1]]


def has_words(name, message, lines, page, begin=0):
    """Tests that a page has each word of a message once, with the word's bytes. Also tests that the page has each line
    with all columns of the line."""
    places = [byte for byte, _, _ in page.words]
    want(f"{name}: each word once, in order", places == list(range(begin, begin + len(message), 8)))
    for byte, _, pairs in page.words:
        if pairs.get("bytes") != message[byte - begin:byte - begin + 8].hex(" "):
            want(f"{name}: the bytes of word {byte}", False, pairs)
            break
    shown = {int(pairs["data-o"]): (pairs["data-r"], pairs["data-k"], pairs.get("data-w", ""), pairs["data-t"])
             for pairs in page.lines}
    told = {int(line[0]): tuple(line[3:]) for line in columns_of(lines) if len(line) == 7}
    want(f"{name}: the columns of each line", shown == told)


def hidden_of(lines):
    return sum(int(re.search(r" hidden (\d+)", line[2])[1]) for line in columns_of(lines) if len(line) == 3)


def pages():
    """Makes pages for some messages, and reads these pages. Returns the pages that are to be opened in a browser
    later."""
    made = {}
    for name, message, form in [("every kind", every_kind(), "stream"), ("double", double(), "stream"),
                                ("bare", every_kind()[16:128], "bare"), ("two", every_kind() * 2, "stream")]:
        if form == "bare":
            message = struct.pack("<3Q", struct_of(1, 1, 0), 5, list_of(2, 3, 0)) + b"ab\0" + bytes(5)
        lines = annotated(message, "--form", form)
        status, text, why = paged(lines, message)
        page = Elements(text)
        want(f"{name}: status", status == 0, why)
        is_sealed(name, page)
        has_words(name, message, lines, page)
        marked = sum("hid" in classes for _, classes, _ in page.words)
        want(f"{name}: hidden words", marked == hidden_of(lines), marked)
        made[name] = text
        short = Elements(paged(lines)[1])
        is_sealed(f"{name}, without the message", short)
        firsts = [int(line[0]) for line in columns_of(lines) if len(line) == 7]
        want(f"{name}: the first word of each line", [it[0] for it in short.words if "bytes" in it[2]] == firsts)
        want(f"{name}: it says what it lacks", "bytes of only the first word" in paged(lines)[1])
    return made


def nasty():
    """Makes pages from messages whose texts have parts of HTML, and from lines that have parts of HTML. Returns one of
    these pages."""
    message = b"".join(map(text_of, NASTY))
    lines = annotated(message)
    _, text, _ = paged(lines, message)
    page = Elements(text)
    is_sealed("texts of HTML", page)
    has_words("texts of HTML", message, lines, page)
    # Lines that `capn annotate` doesn't write.
    odd = [*NASTY, b"\0\x01\x1b[31m\x7f\xc2\x85", b"\xff\xfe\xc3", "\u202egnp.exe\u2066\u2028".encode(),
           b"\r\x0b\x0c", b""]
    for one in odd:
        lines = b"\t".join([b"0", b"0:0", b"0000000000000000", b"1", b"null", one, one])
        lines += b"\n8\tend\t1 at 0 words " + (one.replace(b" ", b"_") or b"1") + b"\n"
        status, text, why = paged(lines)
        page = Elements(text)
        want(f"line of {one}", status == 0, why)
        is_sealed(f"line of {one}", page)
        shown = page.lines[0]["data-t"]
        want(f"line of {one}: shown", not re.search("[\0-\x1f\x7f-\x9f\u2028\u202e\u2066]", shown), shown)
    line, end = b"0\t0:0\t0000000000000000\t1\tnull\troot\t1 slots\n", b"8\tend\t1 at 0 words 1\n"
    wrongs = {"no line": b"hello\n", "no end": line, "another kind": line.replace(b"null", b"<b>") + end,
              "another place": line.replace(b"0:0", b"0:x") + end, "another order": b"8" + line[1:] + end}
    for what, wrong in wrongs.items():
        status, text, why = paged(wrong)
        want(f"{what}: refused", (status, text) == (1, "") and why.startswith("page: "), why)
    for what, other in (("zeros", bytes(len(every_kind()))), ("a shorter message", every_kind()[:-16])):
        status, _, why = paged(annotated(every_kind()), other)
        want(f"{what} instead of the message: refused", status == 1 and "isn't that of the line" in why, why)
    return paged(annotated(message), message)[1]


def large(count):
    """Makes a page for each of two messages, which have `count` words each. Returns both pages, and prints how long
    each page took."""
    made = {}
    for name, message in [("texts", many(count)), ("numbers", numbers(count))]:
        lines = annotated(message)
        begun = os.times().children_user
        status, text, why = paged(lines, message)
        took = os.times().children_user - begun
        page = Elements(text, unfold=False)
        want(f"{name}: status", status == 0, why)
        is_sealed(name, page)
        want(f"{name}: most words are folded", len(page.words) < 5000 < count // page.folds * page.folds)
        want(f"{name}: it says so", "are folded, in " in text)
        print(f"annotate: {len(message) // 8:,} words of {name}, {lines.count(10):,} lines: a page of "
              f"{len(text) / 1e6:.1f} MB in {took:.1f} s")
        made[name] = text
    message = many(20000)
    lines = annotated(message)
    has_words("20,000 words", message, lines, Elements(paged(lines, message)[1]))
    message = b"".join(text_of(b"message %d" % i) for i in range(3000))
    lines = annotated(message)
    has_words("3,000 messages", message, lines, Elements(paged(lines, message)[1]))
    return made


# The code below opens pages in Chromium.


class Browser:
    """Chromium without a window. The test sends commands to it over a pipe."""

    def __init__(self, program, folder):
        theirs, mine = os.pipe(), os.pipe()
        words = [program, "--headless=new", "--remote-debugging-pipe", f"--user-data-dir={folder}", "--no-first-run",
                 "--disable-gpu", "--hide-scrollbars", "--disable-background-networking", "--window-size=1200,900"]
        words += ["--no-sandbox"] if os.geteuid() == 0 else []
        script = f'exec "$@" 3<&{theirs[0]} 4>&{mine[1]}'
        self.child = subprocess.Popen(["bash", "-c", script, "browser", *words], pass_fds=(theirs[0], mine[1]),
                                      stdout=subprocess.DEVNULL, stderr=subprocess.DEVNULL)
        os.close(theirs[0])
        os.close(mine[1])
        self.write, self.read, self.count, self.rest, self.session = theirs[1], mine[0], 0, b"", None
        self.errors = []
        target = self.call("Target.createTarget", url="about:blank")["targetId"]
        self.session = self.call("Target.attachToTarget", targetId=target, flatten=True)["sessionId"]
        for domain in ("Page", "Runtime", "Log"):
            self.call(f"{domain}.enable")

    def message(self):
        while b"\0" not in self.rest:
            more = os.read(self.read, 1 << 16)
            if not more:
                raise OSError("the browser ended")
            self.rest += more
        one, self.rest = self.rest.split(b"\0", 1)
        return json.loads(one)

    def call(self, method, **parameters):
        self.count += 1
        told = {"id": self.count, "method": method, "params": parameters}
        told |= {"sessionId": self.session} if self.session else {}
        data = json.dumps(told).encode() + b"\0"
        while data:
            data = data[os.write(self.write, data):]
        while True:
            got = self.message()
            if got.get("method") in ("Runtime.exceptionThrown", "Log.entryAdded", "Page.javascriptDialogOpening"):
                self.errors.append(json.dumps(got["params"])[:500])
            if got.get("id") == self.count:
                if "error" in got:
                    raise OSError(f"{method}: {got['error']}")
                return got["result"]

    def value(self, script):
        got = self.call("Runtime.evaluate", expression=script, returnByValue=True, awaitPromise=True)
        if "exceptionDetails" in got:
            raise OSError(f"{script}: {got['exceptionDetails']}")
        return got["result"].get("value")

    def until(self, script):
        """Waits until an expression is true. Returns whether it became true in time."""
        end = time.monotonic() + SECONDS
        while not self.value(script):
            if time.monotonic() > end:
                return False
            time.sleep(0.05)
        return True

    def open(self, path, scheme, fragment=""):
        self.call("Emulation.setEmulatedMedia", features=[{"name": "prefers-color-scheme", "value": scheme}])
        self.call("Page.navigate", url="about:blank")
        self.call("Page.navigate", url=f"file://{path}{fragment}")
        return self.until("document.documentElement?.dataset.ready == 'yes'")

    def click(self, what):
        """Clicks on the middle of an element, as a mouse does."""
        self.value(f"document.querySelector({json.dumps(what)}).scrollIntoView({{block: 'center'}})")
        box = self.value(f"(() => {{ const it = document.querySelector({json.dumps(what)}).getBoundingClientRect();"
                         " return [it.left + it.width / 2, it.top + Math.min(it.height, 20) / 2]; })()")
        for kind in ("mousePressed", "mouseReleased"):
            self.call("Input.dispatchMouseEvent", type=kind, x=box[0], y=box[1], button="left", clickCount=1)

    def press(self, key):
        text = {"Enter": {"text": "\r", "windowsVirtualKeyCode": 13}, "Tab": {"windowsVirtualKeyCode": 9}}.get(key, {})
        self.call("Input.dispatchKeyEvent", type="keyDown", key=key, code=key, **text)
        self.call("Input.dispatchKeyEvent", type="keyUp", key=key, code=key, **text)

    def busy(self):
        """Returns how many seconds of processor time the page has used."""
        found = self.call("Performance.getMetrics")["metrics"]
        return next(one["value"] for one in found if one["name"] == "TaskDuration")

    def picture(self, path):
        data = self.call("Page.captureScreenshot", format="png")["data"]
        with open(path, "wb") as file:
            file.write(base64.b64decode(data))

    def close(self):
        try:
            self.session = None
            self.call("Browser.close")
        except OSError:
            pass
        self.child.wait(SECONDS)


AT = "document.querySelector('.at')?.id"
TO = "[...document.querySelectorAll('.to')].map(it => it.id).join(' ')"
SAYS = "document.getElementById('line').innerText"
# True if the marked word can be seen without scrolling.
SEEN = """
(() => {
  const box = document.querySelector('.at').getBoundingClientRect();
  return box.height > 0 && box.top >= 0 && box.bottom <= innerHeight;
})()
"""
# The lowest contrast between the text and the background of a word, over all kinds of words. By the rules for
# accessible pages, a contrast is (L1 + 0.05) / (L2 + 0.05), where L1 is the greater and L2 the lesser luminance.
CONTRAST = """
(() => {
  const level = (text) => {
    const parts = text.match(/[\\d.]+/g).slice(0, 3).map(Number).map((it) => it / 255)
      .map((it) => it <= 0.03928 ? it / 12.92 : ((it + 0.055) / 1.055) ** 2.4);
    return 0.2126 * parts[0] + 0.7152 * parts[1] + 0.0722 * parts[2];
  };
  const pair = (a, b) => (Math.max(a, b) + 0.05) / (Math.min(a, b) + 0.05);
  return Math.min(...[...document.querySelectorAll('.words a, .words i, .counts li')].flatMap((it) => {
    let under = it;
    while (/, 0\\)$/.test(getComputedStyle(under).backgroundColor)) under = under.parentElement;
    const ground = level(getComputedStyle(under).backgroundColor);
    return [it, ...it.querySelectorAll('s, b, code')].map((one) => pair(level(getComputedStyle(one).color), ground));
  }).filter((it) => !Number.isNaN(it)));
})()
"""


def clicked(browser, scheme):
    """Clicks through the page of the message that has words of every kind."""
    browser.click("#b32")
    want(f"{scheme}: a click marks the pointer", browser.until(f"{AT} == 'b32'"), browser.value(AT))
    want(f"{scheme}: and its object", browser.until(f"{TO} == 'b72'"), browser.value(TO))
    said = browser.value(SAYS)
    for part in ("list of 6 bytes, offset 4, to 0:7", "root \u203a 0", "byte 72 (1 word)", "pointer"):
        want(f"{scheme}: the panel has {part!r}", part in said, said)
    browser.click("#b32")
    want(f"{scheme}: a second click goes to the object", browser.until(f"{AT} == 'b72'"), browser.value(AT))
    said = browser.value(SAYS)
    for part in ('6 bytes "Grace\\0", padding 2 bytes not zero', "byte 32, byte 96", "read 2", "hidden"):
        want(f"{scheme}: the panel has {part!r}", part in said, said)
    browser.click("#b48")
    want(f"{scheme}: a far pointer marks its pad and its object", browser.until(f"{TO} == 'b128 b136'"),
         browser.value(TO))
    browser.press("ArrowRight")
    want(f"{scheme}: a key moves the mark", browser.until(f"{AT} == 'b56'"), browser.value(AT))
    browser.press("ArrowLeft")
    want(f"{scheme}: and back", browser.until(f"{AT} == 'b48'"), browser.value(AT))
    browser.press("Enter")
    want(f"{scheme}: return follows a pointer", browser.until(f"{AT} == 'b128'"), browser.value(AT))
    browser.press("ArrowUp")
    want(f"{scheme}: a key moves it up", browser.until(f"{AT} < 'b128' || {AT} > 'b2'"), browser.value(AT))
    browser.click("button[data-hidden]")
    first = browser.until("document.querySelector('.at').classList.contains('hid')")
    want(f"{scheme}: the button goes to a hidden word", first, browser.value(AT))
    browser.value("history.back()")
    least = browser.value(CONTRAST)
    want(f"{scheme}: the contrast is 4.5 or more", least >= 4.5, least)


def unfolded(browser, path, name):
    """Opens the page of a large message, and goes to a word inside a fold."""
    browser.call("Performance.enable", timeDomain="threadTicks")
    want(f"{name}: the page opens", browser.open(path, "light"))
    opened = browser.busy()
    before = browser.value("document.querySelectorAll('.words a, .words i').length")
    browser.click("details summary")
    count = "document.querySelectorAll('.words a, .words i').length"
    want(f"{name}: a click unfolds", browser.until(f"{count} > {before}"))
    begun = browser.busy()
    browser.value(f"location.hash = '#b{4 * LARGE + 8}'")
    want(f"{name}: a folded word is found", browser.until(f"{AT} == 'b{4 * LARGE + 8}'"), browser.value(AT))
    want(f"{name}: and can be seen", browser.until(SEEN))
    print(f"annotate: Chromium needs {opened:.1f} s of a processor for the page of {name}, and "
          f"{browser.busy() - begun:.1f} s more for a folded word")


def browsed(program, made, folder):
    with tempfile.TemporaryDirectory(ignore_cleanup_errors=True) as work:
        paths = {}
        for name, text in made.items():
            paths[name] = os.path.join(work, name.replace(" ", "-") + ".html")
            with open(paths[name], "w", encoding="utf-8") as file:
                file.write(text)
        browser = Browser(program, os.path.join(work, "profile"))
        try:
            for scheme in ("light", "dark"):
                want(f"{scheme}: the page opens", browser.open(paths["every kind"], scheme))
                clicked(browser, scheme)
                if folder:
                    browser.open(paths["every kind"], scheme, "#b40")
                    browser.until(f"{AT} == 'b40'")
                    browser.picture(os.path.join(folder, f"{scheme}.png"))
            want("texts of HTML: the page opens", browser.open(paths["nasty"], "light", "#b16"))
            want("texts of HTML: nothing was run", browser.until(f"{AT} == 'b16'") and
                 browser.value("window.evil === undefined && document.scripts.length === 1"))
            want("texts of HTML: the panel shows the text", NASTY[0].decode()[:32] in browser.value(SAYS),
                 browser.value(SAYS))
            # The policy blocks any script that isn't the page's own.
            browser.errors, errors = [], browser.errors
            browser.value("document.body.append(Object.assign(document.createElement('script'), "
                          "{textContent: 'window.evil = 1'}))")
            want("another script isn't run", browser.value("window.evil === undefined"))
            browser.errors = errors
            for name in ("texts", "numbers"):
                unfolded(browser, paths[name], name)
            want("the browser found no error", not browser.errors, browser.errors[:3])
        finally:
            browser.close()


def main():
    made = {**pages(), "nasty": nasty(), **large(LARGE)}
    program = shutil.which("chromium") or shutil.which("chromium-browser") or shutil.which("google-chrome")
    if program:
        browsed(program, made, sys.argv[1] if len(sys.argv) > 1 else None)
    else:
        print("annotate: no browser opens the pages, since Chromium is not installed")
    print(f"annotate: {len(FAILED)} failed")
    return 1 if FAILED else 0


if __name__ == "__main__":
    sys.exit(main())
