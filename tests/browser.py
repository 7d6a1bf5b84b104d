#!/usr/bin/env python3
"""The panel's page in a real browser: Chromium, from Debian's package of that name.  Not part of ./test.

    python3 tests/browser.py [FOLDER]       puts its pictures into FOLDER, or target/panel

On a tablet either way up and on a phone: holds all buttons to their places while alarms, ten-digit counts, a refused message and the second deck come
and the box goes.  Presses buttons by keyboard and by clicks, looks whether the relays of the box switch and the page shows it, pulses relays for a
duration that it writes, clears a count that grows between the question and the answer, sets the clock, and looks at the plot of a day.  Then at the
page of a panel beyond this machine: its login, and what a user may do.  Prints what it saw, and exits 1 at the first thing that is not so.
"""

import base64
import json
import os
import shutil
import subprocess
import sys
import tempfile
import time

from boxd import Boxd, Client, PATIENCE, ROOT, frame, pulse
from model import INPUT_IDS, field
from test_panel import Panel, adduser

LANDSCAPE = {"width": 1280, "height": 800, "deviceScaleFactor": 1, "mobile": False}
PORTRAIT = {"width": 800, "height": 1280, "deviceScaleFactor": 1, "mobile": False}
PHONE = {"width": 412, "height": 915, "deviceScaleFactor": 2, "mobile": True}
SIZES = {"landscape": LANDSCAPE, "portrait": PORTRAIT, "phone": PHONE}
MOST = 4294967295


class Browser:
    """Chromium without a window, spoken to over two pipes: its file descriptors 3 and 4, a zero byte behind each message."""

    def __init__(self, url):
        program = shutil.which("chromium")
        if program is None:
            sys.exit("browser: chromium is missing: install Debian's package chromium")
        self.profile = tempfile.TemporaryDirectory()
        to_read, self.to = os.pipe()
        self.back, to_write = os.pipe()
        words = [program, "--headless=new", "--no-sandbox", "--disable-gpu", "--disable-dev-shm-usage", "--no-first-run",
                 "--remote-debugging-pipe", f"--user-data-dir={self.profile.name}", "about:blank"]
        shell = f"exec 3<&{to_read} 4>&{to_write}; exec \"$@\""
        self.process = subprocess.Popen(["bash", "-c", shell, "bash", *words], pass_fds=(to_read, to_write), stdin=subprocess.DEVNULL,
                                        stdout=subprocess.DEVNULL, stderr=subprocess.DEVNULL)
        os.close(to_read)
        os.close(to_write)
        self.number = 0
        self.held = b""
        self.session = None
        page = next(target for target in self.ask("Target.getTargets")["targetInfos"] if target["type"] == "page")
        self.session = self.ask("Target.attachToTarget", targetId=page["targetId"], flatten=True)["sessionId"]
        self.ask("Page.enable")
        self.ask("Runtime.enable")
        self.ask("Page.navigate", url=url)

    def ask(self, method, **words):
        self.number += 1
        message = {"id": self.number, "method": method, "params": words}
        if self.session:
            message["sessionId"] = self.session
        os.write(self.to, json.dumps(message).encode() + b"\0")
        while True:
            reply = self.next()
            if reply.get("id") == self.number:
                if "error" in reply:
                    raise AssertionError(f"{method}: {reply['error']}")
                return reply["result"]

    def next(self):
        while b"\0" not in self.held:
            data = os.read(self.back, 1 << 20)
            if not data:
                raise AssertionError("the browser has ended")
            self.held += data
        message, self.held = self.held.split(b"\0", 1)
        return json.loads(message)

    def value(self, words):
        """What JavaScript gives for the words, on the page."""
        result = self.ask("Runtime.evaluate", expression=words, returnByValue=True)
        if "exceptionDetails" in result:
            raise AssertionError(result["exceptionDetails"])
        return result["result"].get("value")

    def wait_for(self, words, what):
        """While a page is loaded, what the words look at may not be there yet."""
        end = time.monotonic() + PATIENCE
        while not self.value(f"(() => {{ try {{ return {words}; }} catch (fault) {{ return false; }} }})()"):
            if time.monotonic() > end:
                raise AssertionError(f"never: {what}")
            time.sleep(0.05)
        print(f"browser: {what}", flush=True)

    def key(self, key, code, text=""):
        for kind in ("keyDown", "keyUp"):
            self.ask("Input.dispatchKeyEvent", type=kind, key=key, code=key, windowsVirtualKeyCode=code, text=text if kind == "keyDown" else "")

    def click(self, selector):
        x, y = self.value(f"(r => [r.x + r.width / 2, r.y + r.height / 2])(document.querySelector({selector!r}).getBoundingClientRect())")
        for kind in ("mousePressed", "mouseReleased"):
            self.ask("Input.dispatchMouseEvent", type=kind, x=x, y=y, button="left", clickCount=1)

    def size(self, size):
        self.ask("Emulation.setDeviceMetricsOverride", **size)

    def picture(self, path):
        data = self.ask("Page.captureScreenshot", format="png", captureBeyondViewport=False)["data"]
        with open(path, "wb") as file:
            file.write(base64.b64decode(data))
        print(f"browser: {path}", flush=True)

    def end(self):
        os.close(self.to)
        try:
            self.process.wait(10)
        except subprocess.TimeoutExpired:
            self.process.kill()
            self.process.wait()
        os.close(self.back)
        shutil.rmtree(self.profile.name, ignore_errors=True)


TEXT = "document.body.innerText"
BUTTONS = "[...document.querySelectorAll('#relays button')]"    # of each of relays 1 to 8: close or open, then pulse
DECK = "[...document.querySelectorAll('.place .card')].filter(c => c.checkVisibility({visibilityProperty: true}))"
FOCUSED = "document.activeElement.getAttribute('aria-label')"
PLACES = ("(scrollTo(0, 0), [...document.querySelectorAll('main button, section button')].map(b => b.getBoundingClientRect())"
          ".map(r => [r.x, r.y, r.width, r.height].map(x => Math.round(10 * x)).join(' ')))")
NAMES = "input 1 Lift port forward\ninput 2 Lift port midships\ninput 3 Lift port aft\ninput 4 <b>Not bold</b> & plain\n" \
        "input 6 Løfter styrbord, innerste dekk ved kran\ninput 8 Nødstopp\n"


class Places:
    """Where all buttons are, on each size: they have to stay there."""

    def __init__(self, browser, folder):
        self.browser, self.folder = browser, folder
        self.first = {name: self.of(name) for name in SIZES}

    def of(self, name):
        self.browser.size(SIZES[name])
        return self.browser.value(PLACES)

    def hold(self, what, picture, look="#first"):
        for name, places in self.first.items():
            now = self.of(name)
            moved = [(i, before, after) for i, (before, after) in enumerate(zip(places, now)) if before != after]
            assert len(now) == len(places) == 42 and not moved, f"{what}: on {name} buttons {moved} have moved"
            whole = self.browser.value("document.documentElement.scrollWidth")
            assert whole <= SIZES[name]["width"], f"{what}: the page is wider than {name}"
            self.browser.value(f"document.querySelector('{look}').scrollIntoView()")
            self.browser.picture(os.path.join(self.folder, f"{picture}-{name}.png"))
        print(f"browser: {what}: no button has moved on any size", flush=True)


def write_counts(client, *counts):
    """WriteDevices, flag 2."""
    entries = [field(device, 8) + field(5, 2) + b"\x02" + field(count, 4) for device, count in zip(INPUT_IDS, counts)]
    assert client.ask(frame(b"\x17" + field(len(entries), 2) + b"".join(entries)), 24) == b"\x18" + field(len(entries), 2)


def levels(host, value, *inputs):
    for k in inputs:
        host.tell(f"level {k} {value}")


def try_places(browser, host, client, folder):
    """Alarms come one by one, to all sixteen devices that have some; counts grow to ten digits; a message is refused."""
    browser.wait_for(f"{TEXT}.includes('No alarm') && document.title === 'no alarm – Wellacorn'", "no alarm, which the title says too")
    browser.wait_for("document.querySelectorAll('.input .name')[3].textContent === '<b>Not bold</b> & plain'", "a name is shown as it is written")
    places = Places(browser, folder)
    places.hold("no alarm", "none")
    assert browser.value("document.getElementById('refused').textContent") == "", "a refused message, and none was refused"
    write_counts(client, 12, 3, 41, 7, 0, 8, 20, 124)
    browser.wait_for("document.title === 'ALARM 1: input 8 count alarm 1 – Wellacorn' && " + f"{TEXT}.includes('1 ALARM')", "one alarm, in the title too")
    places.hold("one alarm", "one")
    try_fit(browser)
    write_counts(client, 12, 3, 4100, 7, 0, 8, 20, 124)
    levels(host, 1, 6)
    browser.wait_for("[...document.querySelectorAll('#alarm-list li')].map(i => i.textContent).join('; ') === "
                     "'input 6 alarm; input 3 count alarms 2 and 1; input 8 count alarm 1'", "the most severe alarm stands first")
    assert browser.value("document.title") == "ALARM 3: input 6 alarm … – Wellacorn"
    levels(host, 1, *range(1, 9))
    browser.wait_for(f"{TEXT}.includes('8 ALARMS')", "eight alarms")
    places.hold("eight alarms", "eight")
    client.send(frame(b"\x0A\x0A\xFF\xFF") + frame(b"\x15\x00\x02" + field(0x01FF, 8) + bytes(4)))
    browser.wait_for(f"{TEXT}.includes('16 ALARMS') && {TEXT}.includes('Last refused: connection 0, message of type 21, its list is cut at byte 15 (22), ')",
                     "sixteen devices in alarm, and a refused message in words")
    places.hold("sixteen devices in alarm and a refused message", "sixteen")
    write_counts(client, *[MOST] * 8)
    browser.wait_for(f"{TEXT}.includes('{8 * MOST} counted in all')", "eight counts of ten digits")
    places.hold("counts of ten digits", "digits")
    try_digits(browser)
    return places


def try_fit(browser):
    """Inputs and relays fill one screen of a tablet, the second deck and the day another."""
    for name in ("landscape", "portrait"):
        browser.size(SIZES[name])
        heights = browser.value("['first', 'second'].map(id => document.getElementById(id).getBoundingClientRect().height)")
        assert all(abs(height - SIZES[name]["height"]) <= 1 for height in heights), f"{name}: the screens are {heights} high"
    print("browser: two screens fill a tablet, either way up", flush=True)


def try_digits(browser):
    """Each count is in one line, within its card, and whole."""
    for name, size in SIZES.items():
        browser.size(size)
        fits = browser.value("[...document.querySelectorAll('.count')].map(c => [c.clientWidth, c.firstChild.getBoundingClientRect().width,"
                             " c.firstChild.getClientRects().length, c.textContent])")
        assert all(wide <= room and lines == 1 and text == str(MOST) for room, wide, lines, text in fits), f"{name}: {fits}"
    print("browser: ten digits stand in one line on every size", flush=True)


def calm(host, client):
    """No alarm any more but those of usage; counts, levels and closed relays of a morning."""
    levels(host, 0, *range(1, 9))
    levels(host, 1, 2)
    levels(host, 0, 2)
    write_counts(client, 12, 3, 41, 7, 0, 58, 20, 99)
    client.send(frame(b"\x07" + field(1763190720000, 8)) + frame(b"\x0A\x0A\xFF\x45"))
    client.clock()


def try_buttons(browser, host):
    browser.size(LANDSCAPE)
    browser.wait_for(f"{TEXT}.includes('2025-11-15 07:12') && {BUTTONS}[0].textContent === 'Open' && {BUTTONS}[2].textContent === 'Close'",
                     "the clock of the box is shown")
    browser.value("document.getElementById('ms').focus()")
    for label in ("Open relay 1", "Pulse relay 1 for 500 ms", "Close relay 2"):
        browser.key("Tab", 9)
        assert browser.value(FOCUSED) == label, label
    before = len(host.lines)
    browser.key("Enter", 13, "\r")
    host.wait_for("relay 2 is closed now", before)
    browser.wait_for(f"{BUTTONS}[2].textContent === 'Open' && {TEXT}.includes('Relay 2 is closed.')", "relay 2 was closed by keyboard")
    browser.click("button[aria-label='Open relay 1']")
    host.wait_for("relay 1 is open now", before)
    browser.wait_for(f"{BUTTONS}[0].textContent === 'Close'", "relay 1 was opened by a click")


def try_clearing(browser, host, client, folder):
    """Escape keeps the count; a count that grew is asked about again; then it is cleared."""
    clear = "button[aria-label='Clear the count of input 3']"
    dialog = "document.getElementById('sure')"
    browser.wait_for(f"!document.querySelector(\"{clear}\").disabled && {TEXT}.includes('41')", "input 3 has 41")
    for _ in range(2):
        browser.click(clear)
        browser.wait_for(f"{dialog}.open && {dialog}.innerText.includes('Input 3 (Lift port aft) has 41 counted. Clear it?')", "it is asked before clearing")
        assert browser.value("document.activeElement.id") == "keep", "the safe button is not the focused one"
        browser.key("Escape", 27)
        browser.wait_for(f"!{dialog}.open && document.querySelector(\"{clear}\").disabled === false", "Escape keeps the count")
    browser.value(f"document.querySelector(\"{clear}\").focus()")
    browser.key("Enter", 13, "\r")
    browser.wait_for(f"{dialog}.open", "the keyboard asks too")
    for name, size in SIZES.items():
        browser.size(size)
        browser.picture(os.path.join(folder, f"dialog-{name}.png"))
    browser.size(LANDSCAPE)
    write_counts(client, 12, 3, 44)
    browser.key("Tab", 9)
    browser.key("Enter", 13, "\r")
    browser.wait_for(f"{dialog}.open && {dialog}.innerText.includes('has 44 counted now, not 41. Clear it?')", "a count that grew is asked about again")
    assert browser.value("document.activeElement.id") == "keep", "the safe button is not the focused one"
    assert client.ask(frame(b"\x05\x00\x01"), 1)[17 + 16 + 2:][:4] == field(44, 4), "the count was cleared all the same"
    browser.click("#go")
    browser.wait_for(f"{TEXT}.includes('Input 3 is cleared. It had 44 counted.') && document.querySelectorAll('.count')[2].innerText === '0'",
                     "then it is cleared")


def try_clock(browser, folder):
    browser.click("#set-clock")
    browser.wait_for("document.getElementById('sure').innerText.includes('It shows 2025-11-15 07:1') && document.activeElement.id === 'keep'",
                     "it is asked before the clock is set")
    browser.picture(os.path.join(folder, "dialog-clock.png"))
    browser.click("#go")
    browser.wait_for(f"{TEXT}.includes('The clock of the box is set.') && {TEXT}.includes(new Date().toISOString().slice(0, 10))", "the clock is set")


def write_duration(browser, ms):
    """Writes it as a hand does: all that stands there is replaced."""
    browser.value("(field => { field.focus(); field.select(); })(document.getElementById('ms'))")
    browser.ask("Input.insertText", text=ms)


def try_pulses(browser, host, client, folder):
    browser.wait_for(f"{TEXT}.includes('no pulse')", "it is told that no pulse runs")
    browser.click("button[aria-label='Pulse relay 4 for 500 ms']")
    host.wait_for("asked for a pulse of relay 4, 500 ms: it has begun; relay 4 is closed now")
    browser.wait_for(f"{TEXT}.includes('The pulse of relay 4, 500 ms, has begun.')", "relay 4 was pulsed by a click")
    host.wait_for("the pulse of relay 4, 500 ms, has ended; relay 4 is open now")
    for bad in ("0", "1.5", "4294967296"):
        write_duration(browser, bad)
        browser.wait_for(f"{BUTTONS}.every((b, i) => b.disabled === (i % 2 === 1))", f"{bad} ms is no duration: no pulse can be asked for")
    write_duration(browser, "4000")
    client.send(pulse(5, 4000) + pulse(6, 1))
    client.clock()
    browser.click("button[aria-label='Pulse relay 8 for 4000 ms']")
    browser.wait_for(f"{TEXT}.includes('The pulse of relay 8, 4000 ms, waits behind 2 others.') && {TEXT}.includes('1 pulse runs, 2 wait')",
                     "a pulse of another duration waits behind two others")
    browser.picture(os.path.join(folder, "pulses-landscape.png"))
    browser.wait_for(f"{TEXT}.includes('1 pulse runs, none waits')", "the last one runs")
    browser.wait_for(f"{TEXT}.includes('no pulse')", "all have ended")
    assert host.count("asked for a pulse") == 4


def deck_shows(*words):
    """The cards of the second deck that are to be seen, each with its words: number and state."""
    return f"{DECK}.map(c => c.querySelector('.who').innerText + ' ' + c.querySelector('.state').innerText).join() === {','.join(words)!r}"


def try_deck(browser, host, places):
    assert browser.value(f"{DECK}.length") == 0 and "No module at place 1" in browser.value(TEXT), "a second deck without modules"
    host.tell("filled 2")
    browser.wait_for(deck_shows("Relay 13 OPEN", "Relay 14 OPEN", "Relay 15 OPEN", "Relay 16 OPEN"), "the module at place 2 is shown")
    places.hold("a module at place 2", "place-2", "#second")
    browser.size(LANDSCAPE)
    browser.value("document.querySelector(\"button[aria-label='Close relay 14']\").scrollIntoView()")
    browser.click("button[aria-label='Close relay 14']")
    host.wait_for("relay 14 is closed now")
    browser.wait_for(deck_shows("Relay 13 OPEN", "Relay 14 CLOSED", "Relay 15 OPEN", "Relay 16 OPEN"), "relay 14 was closed by a click")
    host.tell("filled 1")
    browser.wait_for(f"{DECK}.length === 8 && !{TEXT}.includes('No module')", "both modules are shown")
    places.hold("both modules", "deck", "#second")
    host.tell("emptied 2")
    browser.wait_for(deck_shows("Relay 9 OPEN", "Relay 10 OPEN", "Relay 11 OPEN", "Relay 12 OPEN"), "the module at place 2 is gone from the page")
    host.tell("emptied 1")
    browser.wait_for(f"{DECK}.length === 0 && {TEXT}.includes('No module at place 1')", "so is the other")
    places.hold("no module any more", "no-deck")


def try_day(browser, folder):
    """The plot of a day that the panel took up from its file."""
    browser.wait_for("document.querySelectorAll('.plot')[2].innerText.includes('Input 3 Lift port aft') && "
                     "document.querySelectorAll('.plot path.rises').length >= 16", "eight lines are drawn, with a gap in each")
    browser.wait_for("document.querySelectorAll('.plot svg')[0].getAttribute('aria-label').includes('not seen 09:30 to 10:30')", "the gap is told too")
    for name, size in SIZES.items():
        browser.size(size)
        browser.value("document.getElementById('day').scrollIntoView({block: 'end'})")
        browser.picture(os.path.join(folder, f"day-{name}.png"))
    browser.value("scrollTo(0, 0)")


def try_loss(browser, host, places):
    host.process.kill()
    host.ended()
    browser.wait_for(f"{TEXT}.includes('The box does not answer') && [...document.querySelectorAll('main button:not(#log-out), section button')]"
                     ".every(b => b.disabled) && document.title === 'box gone – Wellacorn'",
                     "the box is gone: page and title say so, and no button can be pressed")
    browser.wait_for(f"{TEXT}.includes('Check that the box runs')", "it says what to check")
    places.hold("the box is gone", "gone")
    with Boxd(port=host.port) as again:
        browser.wait_for(f"!{TEXT}.includes('does not answer') && {BUTTONS}.every(b => !b.disabled)", "the box is back: the page finds it")
        again.quit()


def try_login(folder):
    """A panel beyond this machine: a login page, and what a user may do there."""
    with tempfile.TemporaryDirectory() as work:
        users = os.path.join(work, "users")
        with open(users, "w", encoding="ascii") as file:
            file.write(adduser.line("anna", 1, b"salmon", 1000) + "\n" + adduser.line("olav", 2, b"boss", 1000) + "\n")
        with Boxd("--users", users) as host, \
                Panel(host.port, "--user", "olav", secret="boss", listen=("--listen", "0.0.0.0:0")) as panel:
            browser = Browser(f"http://127.0.0.1:{panel.port}/")
            try:
                try_session(browser, host, folder)
            finally:
                browser.end()


def write_login(browser, name, password):
    for field_, words in (("name", name), ("password", password)):
        browser.value(f"document.getElementById('{field_}').select()")
        browser.ask("Input.insertText", text=words)
    browser.key("Enter", 13, "\r")


def try_session(browser, host, folder):
    browser.wait_for("document.getElementById('password') !== null && document.activeElement.id === 'name'", "a login is asked")
    for name, size in SIZES.items():
        browser.size(size)
        browser.picture(os.path.join(folder, f"login-{name}.png"))
    browser.size(LANDSCAPE)
    write_login(browser, "anna", "trout")
    browser.wait_for(f"{TEXT}.includes('The box refused that name and password.')", "a wrong password is refused")
    browser.wait_for(f"!!document.getElementById('relays') || (document.getElementById('in').disabled || ({writes('anna', 'salmon')}), false)",
                     "a right one is let in")
    browser.wait_for(f"{TEXT}.includes('Log out') && {BUTTONS}.every(b => !b.disabled) && document.getElementById('set-clock').disabled",
                     "a user may switch relays and not set the clock")
    browser.picture(os.path.join(folder, "session-landscape.png"))
    browser.click("button[aria-label='Close relay 5']")
    host.wait_for("relay 5 is closed now")
    browser.wait_for(f"{TEXT}.includes('Relay 5 is closed.')", "relay 5 was closed by the user")
    browser.click("#log-out")
    browser.wait_for("document.getElementById('password') !== null", "after logging out a login is asked again")


def writes(name, password):
    """Words for the page that fill the login in and send it; a wrong password before it may still be slowing it down, so it is sent until it is taken."""
    return (f"document.getElementById('name').value = '{name}', document.getElementById('password').value = '{password}', "
            "document.getElementById('form').requestSubmit()")


def plausible_day(path, offset):
    """A day until five in the afternoon, with a busy morning and an hour in which the box was not seen; gives the time zone in which it is five now."""
    now = time.gmtime(time.time() + 3600 * offset)
    until = now.tm_hour * 4 + now.tm_min // 15
    rows = [[None if 38 <= q < 42 or q > until else (q * q * (k + 3) // 7) % (9 if 24 <= q < 52 else 3) * (k + 1) // 3 for q in range(96)]
            for k in range(8)]
    with open(path, "w", encoding="ascii") as file:
        json.dump({"wellacorn": "day", "date": time.strftime("%Y-%m-%d", now), "last": [0] * 8, "quarters": rows}, file)


def try_panel(folder, work):
    offset = 17 - time.gmtime().tm_hour
    paths = {name: os.path.join(work, name) for name in ("settings", "names", "day")}
    for name, words in (("settings", "100 1000 0 1 " * 8 + "1 " * 8), ("names", NAMES)):
        with open(paths[name], "w", encoding="utf-8") as file:
            file.write(words)
    plausible_day(paths["day"], offset)
    zone = dict(os.environ, TZ=f"BARGE{-offset:+d}")
    with Boxd("--settings", paths["settings"]) as host, Client(host.port) as client, \
            Panel(host.port, "--names", paths["names"], "--day", paths["day"], env=zone) as panel:
        browser = Browser(f"http://127.0.0.1:{panel.port}/")
        try:
            try_all(browser, host, client, panel, folder)
        finally:
            browser.end()


def try_all(browser, host, client, panel, folder):
    try_day(browser, folder)
    places = try_places(browser, host, client, folder)
    calm(host, client)
    try_buttons(browser, host)
    try_clearing(browser, host, client, folder)
    try_pulses(browser, host, client, folder)
    try_clock(browser, folder)
    try_deck(browser, host, places)
    try_loss(browser, host, places)
    panel.process.terminate()
    panel.ended()
    browser.wait_for(f"{TEXT}.includes('The panel program does not answer') && {BUTTONS}.every(b => b.disabled)",
                     "the panel program is gone: the page says so")
    places.hold("the panel program is gone", "panel-gone")


def main():
    folder = sys.argv[1] if len(sys.argv) > 1 else os.path.join(ROOT, "target", "panel")
    os.makedirs(folder, exist_ok=True)
    with tempfile.TemporaryDirectory() as work:
        try_panel(folder, work)
    try_login(folder)
    print("browser: all as it should be")


if __name__ == "__main__":
    main()
