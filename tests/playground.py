"""Tries the page of playground/out in a headless Chromium: playground.py CHROMIUM [FOLDER].

Each state is also looked at for what is cut or lies over another thing, and a picture of it is kept in FOLDER where it
is given; docs/playground.png is made of the one of that name there. The browser is driven by its debugging protocol
over two pipes. The last line is `N passed, M failed`.
"""
import base64
import contextlib
import fcntl
import glob
import json
import os
import re
import select
import socket
import subprocess
import sys
import tempfile
import time
import zlib

import hostile_shapes

TOP = os.path.dirname(os.path.dirname(os.path.abspath(__file__)))
OUT = os.path.join(TOP, "playground", "out")
LIMIT = 1 << 20
SECONDS = 120
WIDE = (1280, 900)
NARROW = (360, 740)
# of the picture for README.md
SMALL = (960, 600)
CTRL, SHIFT = 2, 8

# What is wrong with how the page lies: a list of complaints.
LAID_OUT = """(() => {
  const found = [];
  const root = document.documentElement;
  const width = root.clientWidth;
  if (root.scrollWidth > width) found.push(`the page is ${root.scrollWidth} wide in ${width}`);
  const shown = [...document.querySelectorAll('button, select, textarea, h1, h2, label, p, pre, table, output')].filter(
    (it) => it.checkVisibility() && it.getBoundingClientRect().width > 0);
  const nameOf = (it) => it.id || `${it.localName} ${it.textContent.slice(0, 20)}`;
  for (const it of shown) {
    if (it.localName !== 'textarea' && it.localName !== 'select' && it.scrollWidth > it.clientWidth + 1 && it.clientWidth)
      found.push(`${nameOf(it)} is cut: ${it.scrollWidth} in ${it.clientWidth}`);
    const box = it.getBoundingClientRect();
    if (box.left < -1 || box.right > width + 1) found.push(`${nameOf(it)} is beyond the edge`);
  }
  // what is scrolled out of its pane lies over nothing
  const visible = (it) => {
    let { left, right, top, bottom } = it.getBoundingClientRect();
    for (let at = it.parentElement; at; at = at.parentElement) {
      if (getComputedStyle(at).overflowY === 'visible') continue;
      const box = at.getBoundingClientRect();
      top = Math.max(top, box.top);
      bottom = Math.min(bottom, box.bottom);
    }
    return { left, right, top, bottom };
  };
  for (const [number, one] of shown.entries()) {
    for (const other of shown.slice(number + 1)) {
      if (one.contains(other) || other.contains(one)) continue;
      const [a, b] = [visible(one), visible(other)];
      const across = Math.min(a.right, b.right) - Math.max(a.left, b.left);
      const down = Math.min(a.bottom, b.bottom) - Math.max(a.top, b.top);
      if (across > 1 && down > 1) found.push(`${nameOf(one)} and ${nameOf(other)} lie over each other`);
    }
  }
  return found;
})()"""

# Where the mark lies, and where the character at a line and a column lies by the editor's own font.
MARKED = """((line, before) => {
  const area = document.getElementById('script');
  const style = getComputedStyle(area);
  const copy = document.createElement('pre');
  copy.style.cssText = `position: absolute; font: ${style.font}; tab-size: ${style.tabSize}; white-space: pre`;
  const letters = document.createElement('span');
  letters.textContent = before;
  copy.append(letters);
  document.body.append(copy);
  const left = letters.getBoundingClientRect().width;
  copy.remove();
  const box = area.getBoundingClientRect();
  const mark = document.querySelector('#marks div')?.getBoundingClientRect();
  if (!mark) return null;
  return {
    off: [mark.left - (box.left + parseFloat(style.paddingLeft) + left - area.scrollLeft),
      mark.top - (box.top + parseFloat(style.paddingTop) + (line - 1) * parseFloat(style.lineHeight) - area.scrollTop)],
    inside: mark.left >= box.left && mark.right <= box.right + 1 && mark.top >= box.top && mark.bottom <= box.bottom,
    width: mark.width,
    numbered: document.querySelector('#numbers .marked')?.textContent,
  };
})"""


class Browser:
    """A headless Chromium with one page, and the page's session."""

    def __init__(self, program, folder):
        # (descriptors that 3 and 4 don't overwrite)
        self.from_browser, its_out, its_in, self.to_browser = (
            fcntl.fcntl(end, fcntl.F_DUPFD_CLOEXEC, 10) for end in (*os.pipe(), *os.pipe())
        )
        words = [program, "--headless=new", "--remote-debugging-pipe", f"--user-data-dir={folder}", "--no-first-run"]
        words += ["--disable-gpu", "--disable-background-networking", "about:blank"]
        # Chromium's sandbox doesn't start for root
        words[1:1] = ["--no-sandbox"] if os.geteuid() == 0 else []
        # it reads from descriptor 3 and writes to 4
        shell = ["bash", "-c", f'exec "$@" 3<&{its_in} 4>&{its_out} {its_in}<&- {its_out}>&-', "bash", *words]
        with open(os.path.join(folder, "chromium.log"), "wb") as log:
            self.process = subprocess.Popen(shell, pass_fds=(its_in, its_out), stdin=subprocess.DEVNULL, stdout=log, stderr=log)
        os.close(its_in)
        os.close(its_out)
        self.buffer, self.number, self.session, self.complaints = b"", 0, None, []
        target = self.call("Target.createTarget", url="about:blank")["targetId"]
        self.session = self.call("Target.attachToTarget", targetId=target, flatten=True)["sessionId"]
        for domain in ("Page", "Runtime", "Log"):
            self.call(f"{domain}.enable")
        self.call("Emulation.setFocusEmulationEnabled", enabled=True)

    def message(self):
        while b"\0" not in self.buffer:
            if not select.select([self.from_browser], [], [], SECONDS)[0]:
                raise TimeoutError(f"the browser says nothing for {SECONDS} seconds")
            part = os.read(self.from_browser, 1 << 20)
            if not part:
                raise EOFError("the browser has ended")
            self.buffer += part
        message, _, self.buffer = self.buffer.partition(b"\0")
        message = json.loads(message)
        if message.get("method") == "Runtime.exceptionThrown":
            self.complaints.append(json.dumps(message["params"]["exceptionDetails"])[:400])
        if message.get("method") == "Log.entryAdded" and message["params"]["entry"]["level"] == "error":
            self.complaints.append(message["params"]["entry"]["text"])
        return message

    def call(self, method, **parameters):
        self.number += 1
        message = {"id": self.number, "method": method, "params": parameters}
        if self.session:
            message["sessionId"] = self.session
        data = json.dumps(message).encode() + b"\0"
        while data:
            data = data[os.write(self.to_browser, data) :]
        while True:
            answer = self.message()
            if answer.get("id") == self.number:
                if "error" in answer:
                    raise RuntimeError(f"{method}: {answer['error']}")
                return answer["result"]

    def value(self, expression):
        """The value of an expression in the page, once it is there."""
        given = self.call("Runtime.evaluate", expression=expression, awaitPromise=True, returnByValue=True)
        if "exceptionDetails" in given:
            raise RuntimeError(json.dumps(given["exceptionDetails"])[:600])
        return given["result"].get("value")

    def until(self, condition):
        end = time.monotonic() + SECONDS
        while not self.value(condition):
            if time.monotonic() > end:
                raise TimeoutError(f"after {SECONDS} seconds not {condition}")
            time.sleep(0.02)

    def key(self, name, modifiers=0):
        code = {"Enter": 13, "Escape": 27, "Tab": 9}[name]
        for kind in ("rawKeyDown", "keyUp"):
            self.call("Input.dispatchKeyEvent", type=kind, key=name, code=name, windowsVirtualKeyCode=code, modifiers=modifiers)

    def size(self, width, height):
        self.call("Emulation.setDeviceMetricsOverride", width=width, height=height, deviceScaleFactor=1, mobile=False)

    def colours(self, name):
        self.call("Emulation.setEmulatedMedia", features=[{"name": "prefers-color-scheme", "value": name}])

    def end(self):
        with contextlib.suppress(Exception):
            self.session = None
            self.call("Browser.close")
        with contextlib.suppress(subprocess.TimeoutExpired):
            self.process.wait(10)
        self.process.kill()
        self.process.wait()


class Trial:
    """The page in the browser, and what has passed and failed."""

    def __init__(self, browser, address, pictures):
        self.browser, self.address, self.pictures = browser, address, pictures
        self.passed = self.failed = 0

    def holds(self, what, is_so, found=""):
        if is_so:
            self.passed += 1
        else:
            self.failed += 1
            print(f"FAILED {what}: {str(found)[:1500]}")

    def same(self, what, found, wanted):
        self.holds(what, found == wanted, f"found {str(found)[:600]!r}, wanted {str(wanted)[:600]!r}")

    def open(self, hash=""):
        self.browser.call("Page.navigate", url="about:blank")
        self.browser.call("Page.navigate", url=self.address + hash)
        self.browser.until("document.body?.dataset.state === 'idle'")

    def state(self, name):
        """Looks at how the page lies now, wide and narrow, light and dark, and takes pictures."""
        for width, height in (NARROW, WIDE):
            self.browser.size(width, height)
            self.same(f"{name}, {width} wide: nothing is cut or over another", self.browser.value(LAID_OUT), [])
            for colours in ("dark", "light") if self.pictures else ():
                self.browser.colours(colours)
                self.picture(os.path.join(self.pictures, f"{name}-{width}-{colours}.png"), width, height)

    def picture(self, path, width, height):
        """Takes a picture of the whole page, without its bars for scrolling."""
        self.browser.call("Emulation.setScrollbarsHidden", hidden=True)
        # (only another size lays the page out anew)
        for other in (1, 0):
            self.browser.size(width + other, height)
            self.browser.value("new Promise((end) => requestAnimationFrame(() => requestAnimationFrame(end)))")
        data = self.browser.call("Page.captureScreenshot", format="png", captureBeyondViewport=True)["data"]
        self.browser.call("Emulation.setScrollbarsHidden", hidden=False)
        with open(path, "wb") as file:
            file.write(base64.b64decode(data))

    def write(self, script):
        self.browser.value(
            f"(area => {{ area.value = {json.dumps(script)}; area.dispatchEvent(new Event('input')); }})"
            "(document.getElementById('script'))"
        )

    def press(self, id):
        self.browser.value(f"document.getElementById('{id}').click()")

    def answered(self):
        self.browser.until("document.body.dataset.state === 'idle'")

    def text_of(self, id):
        return self.browser.value(f"(it => it.checkVisibility() ? it.textContent : null)(document.getElementById('{id}'))")

    def run(self, script=None, button="run"):
        """The status in words, the figures and the whole text."""
        if script is not None:
            self.write(script)
        self.press(button)
        self.answered()
        if self.text_of("cut") is not None:
            self.press("whole")
        return self.text_of("status"), self.text_of("figures"), self.text_of("text")

    def completes(self, what, script, wanted, button="run"):
        words, figures, text = self.run(script, button)
        begin = {"run": "Completed", "check": "Well scoped"}[button]
        self.holds(f"{what}: {button} ends with 0", words.startswith(begin) and figures.startswith("status 0,"), (words, figures))
        self.same(f"{what}: the answer of {button}", text, wanted)

    def is_marked(self, what, line, before):
        mark = self.browser.value(f"{MARKED}({line}, {json.dumps(before)})")
        good = mark and max(map(abs, mark["off"])) < 1.5 and mark["inside"] and mark["width"] > 3
        self.holds(f"{what}: the mark lies at its place", good and mark["numbered"] == str(line), mark)

    def rows(self):
        return self.browser.value(
            "[...document.querySelectorAll('#trace table')].map(it => [it.caption.textContent,"
            " ...[...it.rows].map(row => [...row.cells].map(cell => cell.textContent).join(' '))])"
        )

    def ask(self, command, names):
        for number, name in enumerate(names):
            self.browser.value(f"document.querySelectorAll('#ask-{command} select')[{number}].value = {json.dumps(name)}")
        self.browser.value(f"document.querySelector('#ask-{command} button').click()")
        self.answered()
        return self.text_of("asked-status"), self.text_of("asked-figures"), self.text_of("asked-text")


def read(path):
    with open(path, encoding="utf-8") as file:
        return file.read()


def opening(trial):
    trial.open()
    trial.holds("the page is ready", trial.text_of("status").startswith("Ready"), trial.text_of("status"))
    build = json.loads(read(os.path.join(OUT, "build.json")))
    notice = trial.text_of("notice")
    trial.same("the page says so where the module isn't proved", notice is None, build["proved"])
    trusted = trial.text_of("trusted")
    trial.holds("the page says what is trusted", trusted.startswith("Proved: ") == build["proved"] and build["kit"] in trusted, trusted)
    trial.state("ready")


def examples(trial):
    listed = trial.browser.value("[...document.getElementById('examples').options].map(it => it.value)")
    scripts = sorted(glob.glob(os.path.join(TOP, "examples", "*.lois")))
    names = [os.path.basename(path)[: -len(".lois")] for path in scripts]
    trial.same("the list has each example", sorted(listed), ["", *names])
    for name in names:
        script = take_example(trial, name)
        status = re.search(r"(?m)^# Ends with status (\d)\.$", script)
        status = status.group(1) if status else "0"
        words, figures, text = trial.run()
        trial.same(f"{name}: its answer", text, read(os.path.join(TOP, "examples", f"{name}.out")))
        good = figures.startswith(f"status {status},") and words.startswith("Completed" if status == "0" else "Failed: ")
        trial.holds(f"{name}: status {status}", good, (words, figures))
        for asked, given in re.findall(r"(?m)^# Its answer, asked with `(.*)`, gives (.*)\.$", script):
            command, *lines = asked.split()
            words, figures, text = trial.ask(command, lines)
            trial.same(f"{name}: {asked}", text, read(os.path.join(TOP, "examples", given)))
            wanted = "10" if "differ" in text or text == "none\n" else "0"
            trial.holds(f"{name}: {asked} ends with {wanted}", figures.startswith(f"status {wanted},"), (words, figures))
        if name in ("cases", "two_queues", "orbits_of_sets", "max_register"):
            trial.state(name)
        if name == "cases" and trial.pictures:
            trial.picture(os.path.join(trial.pictures, "playground.png"), *SMALL)
            trial.browser.size(*WIDE)


def take_example(trial, name):
    """Chooses an example in the list, and waits for its script."""
    trial.write("")
    trial.browser.value(
        f"(it => {{ it.value = {json.dumps(name)}; it.dispatchEvent(new Event('change')); }})(document.getElementById('examples'))"
    )
    script = read(os.path.join(TOP, "examples", f"{name}.lois"))
    trial.browser.until(f"document.getElementById('script').value === {json.dumps(script)}")
    return script


def checking(trial):
    script = "atoms equality; assert [true and [false or [true]]];\n"
    trial.completes("brackets", script, "atoms equality ;\nassert true and [ false or true ] ;\n", "check")
    trial.holds("check offers no questions", trial.text_of("ask") is None)
    trial.state("checked")


def places(trial):
    _, _, text = trial.run("atoms equality; let end = 'x;\n")
    trial.same("a refusal", text, "refused at 1:21: not a script\n")
    trial.same("a refusal: its cause", trial.text_of("cause"), "not a script")
    trial.is_marked("a refusal", 1, "atoms equality; let ")
    trial.state("refused")
    _, figures, text = trial.run("atoms order; # caf\u00e9\nprint a;\n")
    trial.same("a byte over 127", (text, figures.split(",")[0]), ("refused at 1:19: bad byte\n", "status 5"))
    trial.is_marked("a byte over 127", 1, "atoms order; # caf")
    trial.state("byte-over-127")
    _, _, text = trial.run("atoms order;\n\tlet s = {};\n\tprint t; # \u00e9\n")
    trial.same("a byte over 127 comes before a name", text, "refused at 3:13: bad byte\n")
    trial.is_marked("behind a tab", 3, "\tprint t; # ")
    take_example(trial, "failing_assertion")
    words, _, _ = trial.run()
    trial.same("a failure in words", words, "Failed: at some choice an assertion is false")
    trial.is_marked("a failure", 12, "    ")
    tables = [["Elements of the loops", "x $2", "y $3"], ["A choice of atoms", "a 1", "b 3", "$2 2", "$3 1"]]
    trial.same("a failure: elements and choice", trial.rows(), tables)
    trial.state("failed")
    trial.press("go")
    found = trial.browser.value(
        "(it => [document.activeElement === it, it.value.slice(it.selectionStart, it.selectionEnd)])(document.getElementById('script'))"
    )
    trial.same("the button goes to the place", found, [True, "assert"])
    far = "atoms equality;\n" + "# a line\n" * 3000 + "let s = {'" + "x" * 60 + "}; " + "let t = {}; " * 1 + " " * 400 + "print u;\n"
    trial.run(far)
    trial.is_marked("a place far away", 3002, "let s = {'" + "x" * 60 + "}; let t = {}; " + " " * 400 + "print ")
    trial.state("far-away")
    trial.browser.value("document.getElementById('script').scrollTo(0, 0)")
    trial.write(far)
    trial.same("a change takes the mark away", trial.browser.value("document.querySelector('#marks div')"), None)


def large(trial):
    start = b"atoms equality; let a = {};"
    count = (LIMIT - len(start)) // len(b" print a;")
    script = (start + b" print a;" * count).ljust(LIMIT)
    head = "lois results 1\natoms equality\nparameters\ncase when true\n"
    trial.completes("1 MiB", script.decode(), head + "a = {}\n" * count + "end\n")
    trial.state("one-mebibyte")
    _, figures, text = trial.run(script.decode() + " ")
    trial.same("a byte over 1 MiB", (figures.split(",")[0], text), ("status 5", "refused: input over 1048576 bytes\n"))
    for name, text, run, check in hostile_shapes.scripts():
        # (this one takes minutes)
        if name != "one line, members":
            # the editor, as each text area, has no carriage returns
            text = text.replace(b"\r\n", b"\n").decode()
            trial.completes(name, text, run.decode())
            trial.completes(name, text, check.decode(), "check")


def deep(trial):
    head = "lois results 1\natoms equality\nparameters\ncase when true\n"
    script = "atoms equality;\nlet v = %s;\nlet w = {v};\nprint w;\n" % ("{" * 63 + "}" * 63)
    trial.completes("a value 64 deep", script, f"{head}w = {'{' * 64}{'}' * 64}\nend\n")
    trial.state("64-deep")
    words, figures, text = trial.run("atoms equality;\nlet v = {};\nwhile true turns 70 {\n  v := {v};\n}\n")
    trial.same("a value 65 deep", (words, figures.split(",")[0]), ("Failed: a value is deeper than 64", "status 4"))
    trial.holds("a value 65 deep: its place", "failed at 4:8: depth limit\n" in text, text)


def stopping(trial):
    endless = "atoms order;\nparameter a, b;\nlet v = {};\nwhile v = {} turns 1000000 {\n  if a < b { v := {}; }\n}\n"
    trial.write(endless)
    trial.press("run")
    trial.browser.until("parseFloat(document.getElementById('figures').textContent) > 0.5")
    trial.same("a run tells that it runs", trial.text_of("status"), "Running")
    trial.same("no second run while one runs", trial.browser.value("document.getElementById('run').disabled"), True)
    trial.state("running")
    trial.press("stop")
    trial.answered()
    trial.same("a stopped run", (trial.text_of("status"), trial.text_of("text")), ("Stopped: there is no answer", None))
    trial.state("stopped")
    trial.press("run")
    trial.browser.until("parseFloat(document.getElementById('figures').textContent) > 0.2")
    trial.browser.key("Escape")
    trial.answered()
    trial.same("Escape stops too", trial.text_of("status"), "Stopped: there is no answer")
    row = "atoms equality; let a = atoms; print a;"
    trial.completes("a run after a stopped one", row, "lois results 1\natoms equality\nparameters\ncase when true\na = {$0 for $0}\nend\n")


def memory(trial):
    doubles = "atoms equality;\nlet v = 'a;\nwhile true turns 60 {\n  v := (v, v);\n}\n"
    trial.browser.value("document.getElementById('memory').value = 2 ** 26")
    words, figures, text = trial.run(doubles)
    trial.same("want of memory", (words, text), ("Memory ran out: the run wants more than 64 MiB", None))
    trial.holds("want of memory: status 8", figures.startswith("status 8,"), figures)
    trial.state("memory")
    trial.browser.value("document.getElementById('memory').value = 2 ** 30")
    words, figures, text = trial.run(doubles)
    trial.same("want of 1 GiB", (words, text), ("Memory ran out: the run wants more than 1 GiB", None))


def addresses(trial):
    script = "atoms equality;\n# in an address\nlet a = {'p};\nprint a;\n"
    packer = zlib.compressobj(wbits=-15)
    packed = packer.compress(script.encode()) + packer.flush()
    trial.open("#script=" + base64.urlsafe_b64encode(packed).decode().rstrip("="))
    in_editor = "document.getElementById('script').value"
    trial.same("the script of an address", trial.browser.value(in_editor), script)
    other = script.replace("'p", "'caf\u00e9, 'q")
    trial.write(other)
    trial.press("share")
    trial.browser.until("document.getElementById('shared').textContent !== ''")
    trial.state("shared")
    permissions = ["clipboardReadWrite", "clipboardSanitizedWrite"]
    trial.browser.call("Browser.grantPermissions", permissions=permissions, origin=trial.address.rstrip("/"))
    trial.press("share")
    trial.browser.until("document.getElementById('shared').textContent === 'Copied'")
    found = trial.browser.value("navigator.clipboard.readText().then((text) => text === location.href)")
    trial.same("the address is in the clipboard", found, True)
    address = trial.browser.value("location.hash")
    trial.open(address)
    trial.same("a shared script is the same", trial.browser.value(in_editor), other)
    trial.open("#script=broken")
    trial.holds("an address that can't be read", trial.text_of("status").startswith("Ready"), trial.text_of("status"))
    trial.write("# " + base64.b64encode(os.urandom(60000)).decode())
    trial.press("share")
    trial.browser.until("document.getElementById('shared').textContent !== ''")
    trial.same("a long script isn't put into the address", trial.browser.value("location.hash"), "")


def keyboard(trial):
    trial.open()
    trial.browser.value("document.getElementById('script').focus()")
    trial.browser.value("document.getElementById('script').select()")
    trial.browser.call("Input.insertText", text="atoms equality;\nlet a = 'p;\nprint a;")
    trial.browser.key("Enter", CTRL)
    trial.answered()
    trial.same("Ctrl+Enter runs", trial.text_of("text"), "lois results 1\natoms equality\nparameters\ncase when true\na = 'p\nend\n")
    trial.browser.key("Enter", CTRL | SHIFT)
    trial.answered()
    trial.same("Ctrl+Shift+Enter checks", trial.text_of("text"), "atoms equality ;\nlet a = 'p ;\nprint a ;\n")
    reached = []
    for _ in range(12):
        trial.browser.key("Tab")
        reached.append(trial.browser.value("document.activeElement.id"))
    trial.holds("Tab goes around all controls", {"examples", "run", "check", "memory", "share", "script", "text"} <= set(reached), reached)


def outside(trial):
    """The page's policy refuses what would send anything elsewhere; each refusal is an error of the page's log."""
    given = trial.browser.value(
        "new Promise((end) => { addEventListener('securitypolicyviolation', (it) => end(it.effectiveDirective));"
        " fetch('http://localhost:1/').catch(() => setTimeout(() => end('sent'), 1000)); })"
    )
    trial.same("nothing is sent elsewhere", given, "connect-src")


def main(program, pictures=None):
    if pictures:
        os.makedirs(pictures, exist_ok=True)
    with socket.socket() as free:
        free.bind(("127.0.0.1", 0))
        port = free.getsockname()[1]
    server = subprocess.Popen(
        [os.path.join(TOP, "playground", "serve"), str(port)], stdin=subprocess.DEVNULL, stdout=subprocess.DEVNULL, stderr=subprocess.DEVNULL
    )
    try:
        for _ in range(200):
            with contextlib.suppress(OSError), socket.create_connection(("127.0.0.1", port)):
                break
            time.sleep(0.05)
        with tempfile.TemporaryDirectory(ignore_cleanup_errors=True) as folder:
            browser = Browser(program, folder)
            try:
                trial = Trial(browser, f"http://127.0.0.1:{port}/", pictures)
                browser.size(*WIDE)
                for part in (opening, examples, checking, places, deep, large, stopping, memory, addresses, keyboard):
                    try:
                        part(trial)
                    except (RuntimeError, TimeoutError, TypeError, AttributeError) as fault:
                        trial.holds(part.__name__, False, repr(fault))
                trial.same("the page throws nothing", browser.complaints, [])
                outside(trial)
            finally:
                browser.end()
    finally:
        server.kill()
        server.wait()
    print(f"{trial.passed} passed, {trial.failed} failed")
    return 1 if trial.failed else 0


if __name__ == "__main__":
    sys.exit(main(*sys.argv[1:]))
