#!/usr/bin/env python3
"""Tries the page in headless Chromium, as a user has it: files are chosen, keys pressed, the pointer moved.

    view/browser.py SHOTS [LOG]

Pictures of it come into the folder SHOTS, to be looked at. What is not as expected ends it with a status that is not 0.
With a long LOG it tells the times too. It speaks to the browser over two pipes; no library is needed.
"""
import base64
import json
import os
import shutil
import subprocess
import sys
import tempfile
import time

HERE = os.path.dirname(os.path.realpath(__file__))
DATA = os.path.join(os.path.dirname(HERE), "crates", "guide", "data")


class Browser:
    """One headless browser, spoken to over two pipes: each message is JSON, and ends with a zero byte."""

    def __init__(self):
        program = shutil.which("chromium") or shutil.which("chromium-browser") or shutil.which("google-chrome")
        if program is None:
            sys.exit("no chromium here: apt-get install -y chromium")
        self.profile = tempfile.mkdtemp(prefix="view-")
        to_read, self.out = os.pipe()
        self.into, to_write = os.pipe()
        self.process = subprocess.Popen(
            ["bash", "-c", f'exec "$0" "$@" 3<&{to_read} 4>&{to_write}', program, "--headless=new", "--no-sandbox", "--disable-gpu",
             "--no-first-run", "--hide-scrollbars", f"--user-data-dir={self.profile}", "--remote-debugging-pipe", "about:blank"],
            pass_fds=(to_read, to_write), stdout=subprocess.DEVNULL, stderr=subprocess.DEVNULL)
        os.close(to_read)
        os.close(to_write)
        self.number, self.session, self.rest = 0, None, b""
        target = self.call("Target.createTarget", url="about:blank")["targetId"]
        self.session = self.call("Target.attachToTarget", targetId=target, flatten=True)["sessionId"]
        self.call("Page.enable")
        self.call("Performance.enable", timeDomain="threadTicks")
        self.version = self.call("Browser.getVersion")["product"]

    def call(self, method, **params):
        self.number += 1
        message = {"id": self.number, "method": method, "params": params}
        if self.session and not method.startswith(("Target.", "Browser.")):
            message["sessionId"] = self.session
        data = json.dumps(message).encode() + b"\0"
        while data:
            data = data[os.write(self.out, data):]
        while True:
            while b"\0" not in self.rest:
                piece = os.read(self.into, 1 << 20)
                if not piece:
                    sys.exit("the browser ended")
                self.rest += piece
            text, self.rest = self.rest.split(b"\0", 1)
            answer = json.loads(text)
            if answer.get("id") == self.number:
                if "error" in answer:
                    sys.exit(f"{method}: {answer['error']}")
                return answer["result"]

    def ask(self, script):
        """The value of a script in the page."""
        answer = self.call("Runtime.evaluate", expression=script, awaitPromise=True, returnByValue=True)
        if "exceptionDetails" in answer:
            sys.exit(f"{script}: {json.dumps(answer['exceptionDetails'])[:600]}")
        return answer["result"].get("value")

    def until(self, script, seconds=300):
        """Waits until a script answers true."""
        stop = time.time() + seconds
        while not self.ask(script):
            if time.time() > stop:
                sys.exit(f"never so: {script}")
            time.sleep(0.05)

    def load(self, width=1600, height=900, dark=False):
        self.call("Emulation.setDeviceMetricsOverride", width=width, height=height, deviceScaleFactor=1, mobile=False)
        self.call("Emulation.setEmulatedMedia", features=[{"name": "prefers-color-scheme", "value": "dark" if dark else "light"}])
        self.call("Page.navigate", url="file://" + os.path.join(HERE, "timeline.html"))
        self.until("document.readyState === 'complete' && typeof dress === 'function'")
        self.ask("window.wrong = []; window.onerror = (it) => { wrong.push(String(it)); }; window.onunhandledrejection = (it) => { wrong.push(String(it.reason)); }; 1")

    def choose(self, *paths):
        """Chooses files, as in the dialogue that the button opens, and waits until they are shown."""
        self.ask("by('said').textContent = ''; window.began = 0; window.shown = 0;"
                 "by('file').addEventListener('change', () => { began = performance.now(); }, { capture: true, once: true });"
                 "new MutationObserver((all, it) => { it.disconnect(); requestAnimationFrame(() => setTimeout(() => { pen.getImageData(0, 0, 1, 1); shown = performance.now(); }, 0)); })"
                 ".observe(by('said'), { childList: true, characterData: true, subtree: true }); 1")
        node = self.call("DOM.querySelector", nodeId=self.call("DOM.getDocument")["root"]["nodeId"], selector="#file")["nodeId"]
        self.call("DOM.setFileInputFiles", files=list(paths), nodeId=node)
        self.until("shown > 0")
        return self.ask("shown - began")

    def key(self, name, text=None, shift=False):
        more = {"text": text} if text else {}
        code = {"Enter": 13, "Escape": 27, "Home": 36, "End": 35, "ArrowLeft": 37, "ArrowUp": 38, "ArrowRight": 39, "ArrowDown": 40}.get(name, ord(name[0]))
        for kind in ("keyDown", "keyUp"):
            self.call("Input.dispatchKeyEvent", type=kind, key=name, windowsVirtualKeyCode=code, modifiers=8 if shift else 0, **(more if kind == "keyDown" else {}))

    def type(self, words):
        self.call("Input.insertText", text=words)

    def point(self, x, y, kind="mouseMoved", shift=False, **more):
        """The pointer at a place of the canvas."""
        left, top = self.ask("(() => { const it = canvas.getBoundingClientRect(); return [it.left, it.top]; })()")
        self.call("Input.dispatchMouseEvent", type=kind, x=left + x, y=top + y, modifiers=8 if shift else 0, **more)

    def click(self, x, y, shift=False):
        for kind in ("mousePressed", "mouseReleased"):
            self.point(x, y, kind, shift, button="left", buttons=1 if kind == "mousePressed" else 0, clickCount=1)

    def drag(self, x, y, to_x, to_y):
        self.point(x, y, "mousePressed", button="left", buttons=1, clickCount=1)
        for part in (0.3, 0.6, 1):
            self.point(x + (to_x - x) * part, y + (to_y - y) * part, button="left", buttons=1)
        self.point(to_x, to_y, "mouseReleased", button="left", clickCount=1)

    def busy(self):
        """Milliseconds of the processor that the page's thread has used; other work of the machine does not count."""
        it = {one["name"]: one["value"] for one in self.call("Performance.getMetrics")["metrics"]}
        return 1000 * it["TaskDuration"]

    def painted(self):
        self.ask("new Promise((done) => requestAnimationFrame(() => requestAnimationFrame(() => done(1))))")

    def shot(self, folder, name):
        self.painted()
        with open(os.path.join(folder, name + ".png"), "wb") as it:
            it.write(base64.b64decode(self.call("Page.captureScreenshot", format="png")["data"]))

    def end(self):
        self.session = None
        self.call("Browser.close")
        self.process.wait()
        shutil.rmtree(self.profile, ignore_errors=True)


def same(found, wanted, what):
    if found != wanted:
        sys.exit(f"{what}: {found!r}, and not {wanted!r}")
    print(f"as expected: {what}")


def holds(value, what):
    same(bool(value), True, what)


def shown_by(page, command):
    """The block behind a command in an example's page."""
    with open(os.path.join(DATA, page), encoding="utf-8") as it:
        text = it.read().split(f"$ {command}\n", 1)[1]
    return text.split("\n```", 1)[0].split("\n$", 1)[0] + "\n"


def stored(name):
    return os.path.join(DATA, name, "output.txt")


def whole_and_pointer(page, shots):
    page.load()
    page.choose(stored("mine"))
    same(page.ask("by('said').textContent"), "mine, timely, 115 events, the last at tick 5152", "the mine pump is opened by the file button")
    page.shot(shots, "1-whole")
    page.ask("look({ ...view, from: 0, scale: 2.6 }); 1")
    page.painted()
    y = page.ask("AXIS + topsOf(model)[5] + 33")
    page.point(page.ask("xOf(view, 200)"), y)
    same(page.ask("by('told').textContent.split('\\n')[3]"), "  by tally: 281", "the pointer tells by whom selfTest is held up")
    page.shot(shots, "2-pointer")
    page.point(page.ask("xOf(view, 63.5)"), page.ask("AXIS + topsOf(model)[0] + 18"))
    page.point(page.ask("xOf(view, 9)"), page.ask("AXIS + topsOf(model)[0] + 18"))
    same(page.ask("by('told').textContent"), "9 gasWatch get methane 40", "the pointer tells the line of a mark")


def same_file_again(page):
    page.load()
    with tempfile.TemporaryDirectory() as folder:
        path = os.path.join(folder, "run.txt")
        for last, wanted in ((14, "no report, 2 events, the last at tick 14, who runs is not known: open the report too"),
                             (17, "no report, 2 events, the last at tick 17, who runs is not known: open the report too")):
            with open(path, "w", encoding="utf-8") as it:
                it.write(f"0 p release\n{last} p end\n")
            page.choose(path)
            same(page.ask("by('said').textContent"), wanted, f"the same file, with its end at {last}, is read")
        report = os.path.join(folder, "report.txt")
        with open(report, "w", encoding="utf-8") as it:
            it.write("program a\nprocess p frame 50 rank 1 cost 18 suspend 0 waits 0 block 0 bound 18 data 0 stack 1\ncode 3\ntimely\n")
        page.choose(report, path)
        same(page.ask("by('said').textContent"), "a, timely, 2 events, the last at tick 17", "report and log from two files")
        page.choose(report)
        same(page.ask("by('said').textContent"), "a, timely, no event", "a report alone")


def keys_and_cursors(page, shots):
    page.load()
    page.choose(stored("mine"))
    page.ask("look({ ...view, from: 1000, scale: 2 }); 1")
    page.painted()
    page.key("ArrowRight")
    holds(page.ask("Math.abs(view.from - (1000 + view.width / 20)) < 1e-6"), "arrow to the right: a tenth")
    page.key("Home")
    same(page.ask("view.from"), 0, "Home")
    page.key("+", "+")
    same(page.ask("view.scale"), 4, "+")
    page.key("-", "-")
    same(page.ask("view.scale"), 2, "-")
    page.key("End")
    holds(page.ask("Math.abs(view.from - (5153 - view.width / 2 * 0.9)) < 1e-6"), "End")
    page.key("0", "0")
    same(page.ask("[view.from, view.scale === fitted(model, canvas.clientWidth, canvas.clientHeight).scale]"), [0, True], "0: the whole run")
    page.key("/", "/")
    same(page.ask("document.activeElement.id"), "find", "/ goes to the search")
    page.type("put alarm")
    page.key("Enter", "\r")
    same(page.ask("[by('hits').textContent, by('told').textContent]"), ["1 of 2", "3066 flow put alarm 3"], "Enter: the first hit")
    page.key("Enter", "\r")
    same(page.ask("[by('hits').textContent, by('told').textContent]"), ["2 of 2", "4068 gasWatch put alarm 1"], "Enter: the next hit")
    page.shot(shots, "3-found")
    page.key("Escape")
    page.ask("look({ ...view, from: 3950, scale: 5, top: 0 }); 1")
    page.painted()
    y = page.ask("AXIS + topsOf(model)[0] + 33")
    page.click(page.ask("xOf(view, 4000) + 2"), y)
    page.click(page.ask("xOf(view, 4073) - 2"), y, shift=True)
    same(page.ask("by('cursors').textContent"), "A 4000, B 4073: 73 ticks between", "two cursors, on the edges of an activation")
    page.ask("by('explain').click(); 1")
    page.point(page.ask("xOf(view, 4012)"), page.ask("AXIS + topsOf(model)[0] + 18"))
    page.shot(shots, "4-zoomed-cursors-legend")
    before = page.ask("view.from")
    page.drag(900, 400, 700, 400)
    holds(page.ask(f"Math.abs(view.from - {before} - 40) < 0.5"), "a drag of 200 pixels moves by 40 ticks")
    same(page.ask("by('cursors').textContent"), "A 4000, B 4073: 73 ticks between", "a drag sets no cursor")
    page.point(500, 60, "mouseWheel", deltaX=0, deltaY=-200)
    page.until("view.scale > 8 && view.scale < 8.5")
    page.key("Escape")
    same(page.ask("by('cursors').textContent"), "", "Escape takes the cursors away")


def table_and_svg(page, shots):
    page.load()
    page.choose(stored("crossing"))
    page.ask("document.querySelectorAll('#table tr')[4].cells[6].children[0].click(); 1")
    same(page.ask("by('told').textContent.split('\\n')[0]"), "away: released at 2200, ended with tick 2264", "a click on the greatest response goes there")
    page.ask("document.querySelectorAll('#table tr')[3].cells[12].children[0].click(); 1")
    holds(page.ask("by('histogram').textContent.includes('responses of watch') && by('histogram').offsetHeight > 60"), "the histogram comes on demand")
    page.painted()
    holds(page.ask("canvas.height === canvas.clientHeight"), "the canvas is painted anew when it gets another height")
    page.shot(shots, "5-table-histogram")
    page.ask("window.saved = ''; URL.createObjectURL = (blob) => { blob.text().then((it) => { saved = it; }); return 'blob:x'; };"
             "HTMLAnchorElement.prototype.click = function () { window.named = this.download; }; by('save').click(); 1")
    page.until("saved !== ''")
    same(page.ask("[named, new DOMParser().parseFromString(saved, 'image/svg+xml').querySelector('parsererror') === null]"), ["crossing.svg", True], "SVG is stored, and the browser reads it")
    page.ask("document.body.innerHTML = saved; 1")
    page.shot(shots, "6-svg")


def narrow_dark_edf(page, shots):
    page.load(420, 800)
    page.choose(stored("bus"))
    page.ask("by('explain').click(); 1")
    same(page.ask("document.documentElement.scrollWidth <= innerWidth"), True, "nothing is wider than a narrow window")
    page.shot(shots, "7-narrow")
    page.load(dark=True)
    page.choose(stored("buffer"))
    page.ask("by('explain').click(); look({ ...view, from: 0, scale: 1.1 }); 1")
    page.painted()
    page.point(page.ask("xOf(view, 60)"), page.ask("AXIS + topsOf(model)[1] + 33"))
    page.shot(shots, "8-dark")
    page.load()
    with tempfile.TemporaryDirectory() as folder:
        path = os.path.join(folder, "edf.txt")
        with open(path, "w", encoding="utf-8") as it:
            it.write(shown_by("edf/README.md", "rte edf edf/two.rte edf/two.script"))
        page.choose(path)
        same(page.ask("by('said').textContent"), "e, feasible, 11 events, the last at tick 55, earliest deadline first", "a log of edf")
        page.shot(shots, "9-edf")
        wrong = os.path.join(folder, "wrong.txt")
        with open(wrong, "w", encoding="utf-8") as it:
            it.write("0 p release\n5 p toString\n7 p end\nhello\n")
        page.choose(wrong)
        same(page.ask("[...by('troubles').querySelectorAll('li')].map((it) => it.textContent)"),
             ["line 2: 5 p toString: toString is no event", "line 4: hello: neither report nor log"], "each wrong line is told with its number")
        page.shot(shots, "10-troubles")


def million(page, shots, log):
    page.load()
    for _ in range(3):
        before = page.busy()
        took = page.choose(log)
        print(f"from the choice to the picture: {took:.0f} ms, of the page's thread {page.busy() - before:.0f}")
    print(page.ask("by('said').textContent"))
    page.shot(shots, "11-long-whole")
    frames = """(() => {
      const all = [];
      for (let n = 0; n < 60; n++) {
        view = %s;
        const a = performance.now(); paint(); pen.getImageData(0, 0, 1, 1); all.push(performance.now() - a);
      }
      all.sort((p, q) => p - q);
      return [all[0], all[30], all[59]].map((it) => it.toFixed(1)).join(" / ");
    })()"""
    for what, place in (("the whole run", "fitted(model, canvas.clientWidth, canvas.clientHeight)"),
                        ("a thousandth of it and less", "moved(model, { ...view, scale: Math.min(40, 1000 * view.width / model.end * Math.pow(1.1, n)) }, model.end * n / 60, 0)")):
        before = page.busy()
        times = page.ask(frames % place)
        print(f"60 frames of {what}, ms: {times} (least / middle / greatest); of the page's thread {(page.busy() - before) / 60:.1f} each")
    for name, ticks in (("12-long-some", 60000), ("13-long-near", 3000)):
        page.ask(f"look(moved(model, {{ ...view, scale: view.width / {ticks} }}, 6000000, 0)); 1")
        page.shot(shots, name)


def main():
    shots = sys.argv[1]
    os.makedirs(shots, exist_ok=True)
    page = Browser()
    print(page.version)
    only = os.environ.get("ONLY", "").split()
    parts = {"whole": lambda: whole_and_pointer(page, shots), "again": lambda: same_file_again(page), "keys": lambda: keys_and_cursors(page, shots),
             "table": lambda: table_and_svg(page, shots), "looks": lambda: narrow_dark_edf(page, shots)}
    if len(sys.argv) > 2:
        parts["long"] = lambda: million(page, shots, os.path.abspath(sys.argv[2]))
    for name, part in parts.items():
        if only and name not in only:
            continue
        part()
        if name != "table":
            same(page.ask("wrong"), [], f"{name}: no error in the page")
    page.end()


main()
