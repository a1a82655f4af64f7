"""Tries the page of examples/page in a browser: see bench/page.sh.

usage: page.py BROWSER FOLDER [PICTURES]

FOLDER is for what the run makes. Pictures of the page go to the folder PICTURES.
"""
import base64
import json
import os
import re
import subprocess
import sys
import time
import urllib.parse
import urllib.request

HERE = os.path.dirname(os.path.abspath(__file__))
TOP = os.path.dirname(HERE)
sys.path.insert(0, os.path.join(TOP, "examples/live"))

from play_live import HOST, Server, Wrong, free_port, owed, run
from talk import VERSION
from websocket import Closed, WebSocket

PAGE = os.path.join(TOP, "examples/page/index.html")
GAME, WAIT = "Lantern Caves", 15
# What somebody may say, or call a thing, and what no page may run.
MARKUP = "<img src=x onerror=\"document.title='broken'\"> <b>&amp;"


class Browser:
    """A browser without a window, with one page, over the DevTools protocol."""

    def __init__(self, program, folder):
        profile = os.path.join(folder, "profile")
        words = ["--headless=new", "--disable-gpu", "--no-first-run", "--remote-debugging-port=0", "--user-data-dir=" + profile, "--window-size=1280,800"]
        # Its sandbox isn't for root.
        words += ["--no-sandbox"] if os.geteuid() == 0 else []
        self.process = subprocess.Popen([program, *words, "about:blank"], stdin=subprocess.DEVNULL, stdout=subprocess.DEVNULL, stderr=subprocess.DEVNULL)
        self.number, self.wrong = 0, []
        try:
            port = self.port(os.path.join(profile, "DevToolsActivePort"))
            with urllib.request.urlopen("http://%s:%d/json/list" % (HOST, port), timeout=WAIT) as answer:
                pages = [target for target in json.load(answer) if target["type"] == "page"]
            self.socket = WebSocket(HOST, port, wait=WAIT, path=urllib.parse.urlsplit(pages[0]["webSocketDebuggerUrl"]).path)
        except BaseException:
            self.end()
            raise
        for name in ("Page", "Runtime", "DOM"):
            self.call(name + ".enable")

    def port(self, name):
        """The port that the browser writes into its profile once it listens."""
        for _ in range(WAIT * 20):
            if os.path.exists(name):
                with open(name, encoding="ascii") as file:
                    line = file.readline().strip()
                if line:
                    return int(line)
            if self.process.poll() is not None:
                break
            time.sleep(0.05)
        raise Wrong("the browser doesn't start")

    def end(self):
        self.process.kill()
        self.process.wait()

    def call(self, method, **words):
        self.number += 1
        self.socket.send(json.dumps({"id": self.number, "method": method, "params": words}))
        deadline = time.monotonic() + WAIT
        while True:
            text = self.socket.receive(max(0.0, deadline - time.monotonic()))
            if text is None:
                raise Wrong("the browser doesn't answer %s" % method)
            answer = json.loads(text)
            if answer.get("method") == "Runtime.exceptionThrown":
                self.wrong.append(answer["params"]["exceptionDetails"])
            if answer.get("method") == "Runtime.consoleAPICalled" and answer["params"]["type"] == "error":
                self.wrong.append(answer["params"]["args"])
            if answer.get("id") == self.number:
                if "error" in answer:
                    raise Wrong("%s: %s" % (method, answer["error"]["message"]))
                return answer["result"]

    def ask(self, script):
        """The value of an expression in the page."""
        answer = self.call("Runtime.evaluate", expression=script, returnByValue=True, awaitPromise=True)
        if "exceptionDetails" in answer:
            raise Wrong("%s: %s" % (script, answer["exceptionDetails"]))
        return answer["result"].get("value")

    def until(self, what, script):
        """Waits until an expression holds, and gives its value."""
        deadline = time.monotonic() + WAIT
        while time.monotonic() < deadline:
            value = self.ask(script)
            if value:
                return value
            time.sleep(0.05)
        raise Wrong("the page doesn't show %s; it shows: %s" % (what, self.ask("document.body.innerText")[:1500]))

    def open(self, address):
        self.call("Page.navigate", url="about:blank")
        self.call("Page.navigate", url=address)
        self.until("itself", "document.readyState === 'complete' && !!document.getElementById('join')")

    def click(self, selector):
        """Clicks in the middle of an element, by the mouse."""
        place = self.ask("(() => { const found = document.querySelector(%s); if (!found) return null; found.scrollIntoView({block: 'center'}); const box = found.getBoundingClientRect();"
                         " return [box.x + box.width / 2, box.y + box.height / 2, box.width]; })()" % json.dumps(selector))
        if not place or place[2] == 0:
            raise Wrong("there is nothing to click: %s" % selector)
        for kind in ("mousePressed", "mouseReleased"):
            self.call("Input.dispatchMouseEvent", type=kind, x=place[0], y=place[1], button="left", clickCount=1)

    def type(self, selector, line, key=None):
        """Types into a field, in the place of what stands there."""
        self.click(selector)
        self.ask("document.querySelector(%s).select()" % json.dumps(selector))
        self.call("Input.insertText", text=line)
        if key:
            for kind in ("keyDown", "keyUp"):
                self.call("Input.dispatchKeyEvent", type=kind, key=key, code=key, windowsVirtualKeyCode=13, text="\r" if kind == "keyDown" else "")

    def picture(self, name):
        if len(sys.argv) > 3:
            with open(os.path.join(sys.argv[3], name + ".png"), "wb") as file:
                file.write(base64.b64decode(self.call("Page.captureScreenshot", format="png")["data"]))

    def size(self, width, height):
        self.call("Emulation.setDeviceMetricsOverride", width=width, height=height, deviceScaleFactor=1, mobile=width < 700)


class Friend:
    """A player by examples/live/talk.py, a process of its own."""

    def __init__(self, port, name):
        self.name, self.heard = name, ""
        self.process = subprocess.Popen([sys.executable, "-u", os.path.join(TOP, "examples/live/talk.py"), "%s:%d" % (HOST, port), name, GAME], stdin=subprocess.PIPE, stdout=subprocess.PIPE, bufsize=0)
        os.set_blocking(self.process.stdout.fileno(), False)
        self.hears("is connected")

    def type(self, line):
        self.process.stdin.write(line.encode() + b"\n")

    def hears(self, text):
        """Waits until a text was told since the last one that was waited for."""
        deadline = time.monotonic() + WAIT
        while text not in self.heard:
            more = self.process.stdout.read()
            self.heard += (more or b"").decode()
            if time.monotonic() > deadline:
                raise Wrong("%s doesn't hear %r, but %r" % (self.name, text, self.heard))
            time.sleep(0.02)
        self.heard = self.heard.split(text, 1)[1]

    def end(self):
        self.process.kill()
        self.process.wait()


class Plain:
    """A session that says packets and waits for others."""

    def __init__(self, port, name, tags):
        self.socket = WebSocket(HOST, port)
        self.send(cmd="Connect", game=GAME, name=name, items_handling=7, tags=tags, version=VERSION)
        self.wait("Connected")

    def send(self, **packet):
        self.socket.send(json.dumps([packet]))

    def wait(self, kind):
        deadline = time.monotonic() + WAIT
        while True:
            text = self.socket.receive(max(0.0, deadline - time.monotonic()))
            if text is None:
                raise Wrong("no %s comes" % kind)
            for packet in json.loads(text):
                if packet["cmd"] == kind:
                    return packet


# ---- what the page shows

TEXT = "document.getElementById(%s).innerText"
LIST = "[...document.querySelectorAll('#item-rows > li:not(.empty)')].map(row => row.innerText.split('\\n'))"


def shows(page, where, text):
    page.until("%r in #%s" % (text, where), (TEXT % json.dumps(where)) + ".includes(%s)" % json.dumps(text))


def place(page, name):
    """The button of a location that isn't checked."""
    number = page.ask("[...document.querySelectorAll('#missing > li')].find(row => row.querySelector('.place').textContent === %s)?.dataset.location" % json.dumps(name))
    if number is None:
        raise Wrong("%s isn't among the missing locations" % name)
    return "#missing [data-location='%s'] button" % number


def join(page, port, name, game="", mode="player"):
    page.type("#join [name=address]", "%s:%d" % (HOST, port))
    page.type("#join [name=name]", name)
    page.type("#join [name=game]", game)
    page.click("#join label:has([value=%s])" % mode)
    page.click("#join button.main")


def tables(folder):
    """A players file and a world file: those of the examples, with markup for the names of an item and a location."""
    with open(os.path.join(TOP, "examples/lantern_caves.json"), encoding="utf-8") as file:
        world = file.read().replace('"Cave-in"', json.dumps(MARKUP)).replace('"Lullaby"', json.dumps(MARKUP))
    with open(os.path.join(TOP, "examples/players.json"), encoding="utf-8") as file:
        players = file.read().replace("examples/lantern_caves.json", os.path.join(folder, "lantern_caves.json"))
    for name, text in (("players.json", players), ("lantern_caves.json", world)):
        with open(os.path.join(folder, name), "w", encoding="utf-8") as file:
            file.write(text)
    return os.path.join(folder, "players.json"), os.path.join(folder, "lantern_caves.json")


def no_markup(page):
    if page.ask("document.querySelector('#room img, #room b, #map img, #map b') !== null || document.title !== 'multiworld'"):
        raise Wrong("markup of others was taken for the page's own")


def done(line):
    print(line, flush=True)


# ---- what is tried

def try_joining(page, server):
    join(page, free_port(), "Ann", GAME)
    shows(page, "state", "no answer, trying again")
    join(page, server.port, "Nobody", GAME)
    shows(page, "refused", "The name isn't one of the room's")
    join(page, server.port, "Ann", GAME)
    page.until("that it is connected", "document.getElementById('state').className === 'on'")
    shows(page, "progress", "0 of 6")
    for name in ("Bat Roost", "Dragon's Hoard", "Under the Bridge"):
        place(page, name)
    done("a room that isn't there gives no answer, a wrong name is refused; Ann joins by the page, and sees her six locations by name")


def try_finds(page, cleo):
    page.until("who is connected", "document.querySelectorAll('#people-rows .on').length === 2")
    page.click(place(page, "Bottom of the Well"))
    shows(page, "item-rows", "Lantern")
    shows(page, "progress", "1 of 6")
    # The page forgets an item: the next one's index then doesn't fit, and it asks for the whole list.
    page.ask("room.items.pop() && 0")
    cleo.type("/check Mine Cart")
    shows(page, "item-rows", "Old Key\nCleo found it at Mine Cart")
    shows(page, "toast", "Cleo sent you Old Key")
    page.until("the whole list", "(%s).length === 2 && room.items.length === 2" % LIST)
    page.click("#show-checked")
    shows(page, "checked", "Bottom of the Well\nLantern")
    page.click("#show-missing")
    done("a check by a click, what stood there, and an item that a friend found, with the whole list where its index didn't fit")


def try_chat(page, cleo):
    page.type("#say input", "hello Cleo " + MARKUP, "Enter")
    cleo.hears("Ann: hello Cleo " + MARKUP)
    cleo.type("hello Ann " + MARKUP)
    shows(page, "log", "Cleo: hello Ann " + MARKUP)
    page.click("#words button")
    shows(page, "log", "!hint_location")
    done("chat both ways, with markup that stays text, and a command")


def try_hints(page, cleo):
    page.type("#buy input", "Rope", "Enter")
    shows(page, "hint-rows", "your Rope\nBat Roost with Bob")
    page.until("the hint's status", "document.querySelector('#hint-rows select').value === '30'")
    page.ask("(() => { const status = document.querySelector('#hint-rows select'); status.value = '20'; status.dispatchEvent(new Event('change')); })()")
    cleo.type("!hint Lantern")
    shows(page, "hint-rows", "Cleo: Lantern\nMine Cart in your world")
    page.until("the changed status", "document.querySelector('#hint-rows select').value === '20'")
    shows(page, "hint-count", "2 open of 2")
    done("hints of both sides, and a status that is changed")


def try_storage(page, bob):
    bob.send(cmd="SetNotify", keys=["page_note_0"])
    page.click("#more summary")
    page.type("#team-note", "meet at the well")
    if bob.wait("SetReply")["value"] != "meet at the well":
        raise Wrong("the team's note isn't what was typed")
    page.ask("document.activeElement.blur()")
    bob.send(cmd="Set", key="page_note_0", default="", want_reply=False, operations=[{"operation": "replace", "value": "no, at the inn"}])
    page.until("the note of another", "document.getElementById('team-note').value === 'no, at the inn'")
    page.click("#death-link")
    bob.wait("PrintJSON")
    bob.send(cmd="Bounce", tags=["DeathLink"], data={"time": 0, "source": "Bob", "cause": "Bob met a bat"})
    shows(page, "log", "Bob met a bat")
    page.click("#died")
    # His own death comes back to him first.
    if [bob.wait("Bounced")["data"]["source"] for _ in range(2)] != ["Bob", "Ann"]:
        raise Wrong("the death isn't Ann's")
    page.click("#more summary")
    done("a note that the team shares, and death links both ways")


def try_break(page, server, cleo):
    before = page.ask(LIST)
    server.kill()
    page.until("that the connection is lost", "document.getElementById('state').innerText.includes('trying again')")
    page.click(place(page, "Chest in the Inn"))
    if page.ask(LIST) != before:
        raise Wrong("the list changed while the server was gone")
    page.picture("lost")
    server.start()
    page.until("that it is connected again", "document.getElementById('state').className === 'on'")
    shows(page, "progress", "2 of 6")
    cleo.hears("is connected")
    # What Ann finds in her own inn may stand behind the list from before.
    after = page.ask(LIST)
    if after[len(after) - len(before):] != before or len(after) > len(before) + 1:
        raise Wrong("after the break the list is %s, and was %s" % (after, before))
    page.until("who is connected", "document.querySelectorAll('#people-rows .on').length >= 2")
    page.call("Page.reload")
    page.until("that it goes on by itself", "document.getElementById('state')?.className === 'on'")
    page.until("its items", "(%s).length === %d" % (LIST, len(after)))
    if page.ask(LIST) != after:
        raise Wrong("loaded again the list is %s, and was %s" % (page.ask(LIST), after))
    done("the server was killed and started again: the same list, and a check from in between was sent; loaded again the page goes on")


def try_all(page, seed, bob, cleo):
    """All three check what is left, and Ann reaches her goal."""
    for entry in seed["locations"]:
        if entry[0] == 2:
            bob.send(cmd="LocationChecks", locations=[entry[1]])
        elif entry[0] == 3:
            cleo.type("/check %d" % entry[1])
    while page.ask("document.querySelectorAll('#missing button').length"):
        page.click("#missing button:not(:disabled)")
        page.until("the answer", "document.querySelectorAll('#missing button:disabled').length === 0")
    shows(page, "progress", "6 of 6")
    shows(page, "missing", "Every location is checked.")
    page.click("#goal")
    page.click("#goal")
    cleo.hears("Ann reached the goal")
    shows(page, "goal", "Goal reached ✓")
    shows(page, "people-rows", "goal reached")
    shows(page, "item-rows", MARKUP)
    no_markup(page)
    page.until("that a hint is found", "document.querySelectorAll('#hint-rows .found').length === 2")
    done("the game is played to its end, and Ann's goal is told")


def try_looks(page, server, seed):
    """Other widths, and a tracker and a text client."""
    page.picture("room")
    page.call("Emulation.setEmulatedMedia", features=[{"name": "prefers-color-scheme", "value": "dark"}])
    page.picture("dark")
    page.call("Emulation.setEmulatedMedia", features=[])
    page.click("#by-name")
    page.size(390, 780)
    for panel in ("places", "items", "hints", "chat", "people"):
        page.click("#tabs [data-panel=%s]" % panel)
        page.until("one panel", "[...document.querySelectorAll('.panel')].filter(panel => panel.offsetWidth).map(panel => panel.id).join() === '%s'" % panel)
        if page.ask("document.documentElement.scrollWidth > innerWidth"):
            raise Wrong("on a phone the panel %s is wider than the page" % panel)
        page.picture("phone_" + panel)
    page.size(820, 1000)
    page.picture("tablet")
    page.size(1280, 800)
    page.click("#by-time")
    page.click("#leave")
    page.picture("entrance")
    join(page, server.port, "Cleo", mode="tracker")
    shows(page, "progress", "6 of 6")
    if page.ask("document.querySelectorAll('#missing button').length") or page.ask("document.getElementById('goal').offsetWidth"):
        raise Wrong("a tracker has a button to check or to end the game")
    page.click("#leave")
    join(page, server.port, "Bob", mode="text")
    page.until("the text client", "document.getElementById('chat').offsetWidth > 0 && document.getElementById('places').offsetWidth === 0")
    page.picture("text")
    page.click("#leave")
    done("a phone's width, a tracker and a text client, neither of which names a game")


def try_spheres(page, players, world, seed_name, seed):
    page.click("#to-map")
    document = page.call("DOM.getDocument")["root"]["nodeId"]
    node = page.call("DOM.querySelector", nodeId=document, selector="#pick")["nodeId"]
    page.call("DOM.setFileInputFiles", nodeId=node, files=[players, seed_name])
    shows(page, "chosen", "lantern_caves.json")
    page.picture("files")
    page.call("DOM.setFileInputFiles", nodeId=node, files=[world])
    page.until("the spheres", "document.getElementById('map').offsetWidth > 0")
    drawn = page.ask("[...document.querySelectorAll('.cell')].map(cell => cell.dataset.cell + ':' + [...cell.querySelectorAll('.find')].map(find => find.querySelector('.place').textContent + '\\n' + find.querySelector('.item').textContent).join('\\n\\n'))")
    found = {}
    for cell in drawn:
        spot, _, finds = cell.partition(":")
        slot, sphere = map(int, spot.split(" "))
        for find in filter(None, finds.split("\n\n")):
            place_name, _, item = find.partition("\n")
            found.setdefault(sphere, set()).add((seed["slots"][slot - 1]["names"][0], place_name, item))
    told = spoiler(players, seed_name)
    if found != told:
        raise Wrong("the page draws %s, and spoiler.py tells %s" % (found, told))
    arrows = page.ask("document.querySelectorAll('#board path').length")
    if arrows != sum(map(len, told.values())):
        raise Wrong("there are %d lines" % arrows)
    no_markup(page)
    page.picture("spheres")
    page.size(390, 780)
    page.picture("phone_spheres")
    page.size(1280, 800)
    done("the spheres of the seed, as spoiler.py tells them")


def spoiler(players, seed_name):
    """The spheres by examples/tools/spoiler.py: who finds where what."""
    told = subprocess.run([sys.executable, "examples/tools/spoiler.py", players, seed_name], cwd=TOP, stdout=subprocess.PIPE, text=True, check=True).stdout
    spheres, number = {}, 0
    for line in told.split("\n\n")[0].splitlines()[1:]:
        if line.startswith("sphere "):
            number = int(line.split(" ")[1])
        else:
            who, spot, item = re.match(r"  (\w+), (.*?): (.*)$", line).groups()
            spheres.setdefault(number, set()).add((who, spot, re.sub(r"^(Ann|Bob|Cleo)'s ", "", item)))
    return spheres


def compare(seen, lists, missing, names):
    """The list that the page showed, the last one first, beside the one that the journal owes."""
    if missing["Ann"]:
        raise Wrong("the journal has locations of Ann that aren't checked: %s" % missing["Ann"])
    wanted = [names[item["item"]] for item in reversed(lists["Ann"])]
    found = [row[1] for row in seen]
    if found != wanted:
        raise Wrong("the page shows %s, and the journal owes %s" % (found, wanted))


def main():
    folder = sys.argv[2]
    seed_name, journal = os.path.join(folder, "seed.json"), os.path.join(folder, "room.journal")
    players, world = tables(folder)
    run("generate", players, seed_name, "--seed", "7")
    run("new-room", seed_name, journal)
    with open(seed_name, encoding="utf-8") as file:
        seed = json.load(file)
    server, ends = Server(seed_name, journal), []
    server.start()
    ends.append(server.kill)
    try:
        page = Browser(sys.argv[1], folder)
        ends.append(page.end)
        page.size(1280, 800)
        page.open("file://%s#address=%s:%d&name=Ann&game=Lantern%%20Caves" % (urllib.parse.quote(PAGE), HOST, server.port))
        page.until("what its address fills in", "['address', 'name', 'game'].map(name => document.getElementById('join').elements[name].value).join() === '%s:%d,Ann,%s'" % (HOST, server.port, GAME))
        try_joining(page, server)
        cleo = Friend(server.port, "Cleo")
        ends.append(cleo.end)
        try_finds(page, cleo)
        try_chat(page, cleo)
        try_hints(page, cleo)
        try_storage(page, Plain(server.port, "Bob", ["DeathLink"]))
        page.picture("playing")
        try_break(page, server, cleo)
        try_all(page, seed, Plain(server.port, "Bob", ["NoText"]), cleo)
        seen = page.ask(LIST)
        try_looks(page, server, seed)
        try_spheres(page, players, world, seed_name, seed)
        if page.wrong:
            raise Wrong("the page's script failed: %s" % page.wrong)
    finally:
        for end in reversed(ends):
            end()
    names = {number: name for name, number in seed["games"][GAME]["item_name_to_id"].items()}
    compare(seen, *owed(seed_name, journal, seed), names)
    print("all is right: the page showed Ann the %d items that the journal owes her, after a kill" % len(seen))


if __name__ == "__main__":
    try:
        main()
    except (Wrong, Closed, OSError) as wrong:
        print("wrong: %s" % wrong)
        sys.exit(1)
