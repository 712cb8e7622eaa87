"""Runs the pages of `pcompact timeline --html`: in a headless browser where there is one, else under Node.js over a
document that is none, else not at all."""
import html
import json
import pathlib
import re
import shutil
import subprocess

BROWSERS = ("chromium", "chromium-browser", "google-chrome")
# What is done with a page: lines are shown, keys pressed, and each time it is told what the page shows.
DRIVER = """
const found = { states: {}, keys: [], words: {}, workers: {}, filled: timeline.filled };
const id = (name) => document.getElementById(name);
const shown = () => ({
  line: timeline.line(),
  stages: Array.from(id('regions').children, (cell) => cell.className),
  pending: Array.from(id('regions').children, (cell) => Number(cell.dataset.pending || 0)),
  label: id('line').textContent,
  slider: Number(id('slider').value),
  words: Array.from(id('words-now').querySelectorAll('td'), (cell) => cell.title),
});
const press = (key) => document.dispatchEvent(new KeyboardEvent('keydown', { key, cancelable: true }));
for (const line of WANTED.lines) {
  timeline.show(line);
  found.states[line] = { ...shown(), told: timeline.stateAt(line) };
  found.words[line] = [id('what').textContent, id('why').textContent];
  found.workers[line] = timeline.workers();
}
timeline.show(1);
for (const key of WANTED.keys) {
  press(key);
  found.keys.push([timeline.line(), timeline.isPlaying()]);
}
const begun = performance.now();
for (let i = 0; i < 50; i += 1) timeline.show(1 + ((i * 7919) % timeline.last));
found.step = (performance.now() - begun) / 50;
found.last = timeline.last;
"""
# A page in a frame, as a window can't be as narrow as a telephone, and what is looked at there once it is loaded.
FRAME = """<html><head><meta name="color-scheme" content="light dark"></head><body>
<iframe id="frame" style="width:{width}px; height:900px; border:0" srcdoc="{page}"></iframe></body></html>"""
LAYOUT = """
const found = {};
addEventListener('load', () => {
  const it = document.getElementById('frame').contentDocument;
  const style = it.defaultView.getComputedStyle(it.body);
  Object.assign(found, { room: it.defaultView.innerWidth, wide: it.documentElement.scrollWidth, page: style.backgroundColor, text: style.color });
  document.getElementById('found').textContent = JSON.stringify(found);
});
"""
TELL = """
const told = document.createElement('pre');
told.id = 'found';
told.textContent = JSON.stringify(found);
document.body.appendChild(told);
"""
# As much of a document as the script of a page asks for.
DOCUMENT = """
const listeners = {};
const made = () => ({ textContent: '', className: '', dataset: {}, style: {}, value: '', children: [], parentNode: {},
  set innerHTML(html) { this.children = (html.match(/<(i|li)[ >]/g) || []).map(made); this.html = html; },
  querySelectorAll() { return this.children.map(made); }, setAttribute() {}, addEventListener() {} });
const elements = new Map();
globalThis.document = {
  getElementById: (id) => elements.get(id) || elements.set(id, made()).get(id),
  addEventListener: (kind, listener) => { listeners[kind] = listener; },
  dispatchEvent: (event) => listeners[event.kind](event),
};
globalThis.KeyboardEvent = class { constructor(kind, { key }) { Object.assign(this, { kind, key, target: null, preventDefault() {} }); } };
globalThis.window = globalThis;
globalThis.location = { hash: '' };
globalThis.addEventListener = () => {};
globalThis.requestAnimationFrame = () => {};
document.getElementById('speed').value = '5';
document.getElementById('moves').textContent = MOVES;
document.getElementById('schedule').textContent = SCHEDULE;
"""


def runner() -> str | None:
    """The program that runs pages, if there is one."""
    return next((name for name in (*BROWSERS, "node") if shutil.which(name)), None)


def part(page: str, name: str) -> str:
    """The plain text of a page's script element of this name, or its script where there is no name."""
    head = f'<script type="text/plain" id="{name}">\n' if name else "<script>\n"
    return page.split(head)[1].split("</script>")[0]


def in_browser(browser: str, page: str, script: str, folder: pathlib.Path, *options: str) -> tuple[dict, str]:
    """What a script at the end of a page found in a browser, and what the browser says on standard error of it."""
    driven = folder / "driven.html"
    driven.write_text(page.replace("</body>", f"<script>'use strict';\n{script}{TELL}</script>\n</body>"))
    words = [browser, "--headless", "--no-sandbox", "--disable-gpu", "--enable-logging=stderr", "--log-level=0", *options,
             f"--user-data-dir={folder / 'browser'}", "--dump-dom", driven.as_uri()]
    done = subprocess.run(words, capture_output=True, text=True, timeout=120)
    found = re.search(r'<pre id="found">(.*?)</pre>', done.stdout, re.DOTALL)
    logged = [line for line in done.stderr.splitlines() if "CONSOLE" in line]
    return json.loads(found[1].replace("&amp;", "&").replace("&lt;", "<").replace("&gt;", ">")) if found else {}, "\n".join(logged)


def under_node(page: str, wanted: dict, folder: pathlib.Path) -> tuple[dict, str]:
    """What Node.js found, and what it says on standard error."""
    script = folder / "driven.js"
    script.write_text(f"const WANTED = {json.dumps(wanted)};\nconst MOVES = {json.dumps(part(page, 'moves'))};\n"
                      f"const SCHEDULE = {json.dumps(part(page, 'schedule'))};\n{DOCUMENT}{part(page, '')}{DRIVER}"
                      "console.log(JSON.stringify(found));\n")
    done = subprocess.run(["node", script], capture_output=True, text=True, timeout=120)
    return json.loads(done.stdout) if done.returncode == 0 else {}, done.stderr


def run_page(page: str, wanted: dict, folder: pathlib.Path) -> tuple[dict, str]:
    """What the page showed of the lines and keys that are wanted, and what went wrong in its script."""
    name = runner()
    if name == "node":
        return under_node(page, wanted, folder)
    return in_browser(name, page, f"const WANTED = {json.dumps(wanted)};\n{DRIVER}", folder)


def layout(page: str, width: int, is_dark: bool, folder: pathlib.Path) -> dict:
    """How wide a page's frame is and what the page fills, in points, and the colours of the page and of its text."""
    options = ["--window-size=1600,1000", *(["--blink-settings=preferredColorScheme=0"] if is_dark else [])]
    return in_browser(runner(), FRAME.format(width=width, page=html.escape(page)), LAYOUT, folder, *options)[0]
