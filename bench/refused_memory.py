"""The runs of bench/refused_memory.sh.

usage: refused_memory.py PROGRAM FOLDER

FOLDER has refuse.so, and takes what the runs write.
"""
import collections
import hashlib
import json
import os
import socket
import struct
import subprocess
import sys
import threading
import time

HERE = os.path.dirname(os.path.abspath(__file__))
EXAMPLES = os.path.join(os.path.dirname(HERE), "examples")
sys.path.insert(0, os.path.join(EXAMPLES, "live"))

from websocket import Closed, WebSocket

PROGRAM, FOLDER = sys.argv[1:]
ROOM = os.path.join(EXAMPLES, "room_a.json")
HOST = "127.0.0.1"
LINE = b"no memory\n"
wrong = 0


def path(name):
    return os.path.join(FOLDER, name)


def read(name):
    with open(name, "rb") as file:
        return file.read()


def write(name, data):
    with open(name, "wb") as file:
        file.write(data)


def say(*words):
    global wrong
    wrong += 1
    print("  wrong:", *words)


# ---- runs

def refusing(number):
    """The environment of a run in which the allocation with this number is refused; None refuses none."""
    if os.path.exists(path("refused")):
        os.remove(path("refused"))
    names = dict(os.environ)
    if number is not None:
        names.update(LD_PRELOAD=path("refuse.so"), REFUSE=str(number), REFUSED=path("refused"))
    return names


def run(words, script, number=None):
    """A run to its end: its status, its output and its error line."""
    done = subprocess.run([PROGRAM] + words, input=script, env=refusing(number), stdout=subprocess.PIPE, stderr=subprocess.PIPE, timeout=60)
    return done.returncode, done.stdout, done.stderr


def judged(number, ended, whole):
    """Whether a run ended as it may: done, with all of the output, or for want of memory, with a front of it."""
    status, out, err = ended
    if status == 0 and out == whole and err == b"":
        return True
    if status == 6 and whole.startswith(out) and LINE.startswith(err):
        return True
    say("at allocation", number, "it ended with status", status, repr(out[-200:]), repr(err))
    return False


def each_refusal(name, prepare, once, after):
    """Runs once for each allocation, and says how it went."""
    ends = collections.Counter()
    number = 0
    begin = time.time()
    while True:
        number += 1
        prepare()
        ended = once(number)
        if not os.path.exists(path("refused")):
            break
        ends[ended[0]] += 1
        after(number, ended)
    told = ", ".join("%d with status %d" % (count, status) for status, count in sorted(ends.items()))
    print("%s: %d runs, %s; %.0f s" % (name, number - 1, told, time.time() - begin), flush=True)


# ---- journals

def bodies(journal):
    """The batches that a journal's closed gates stand for, as one text."""
    place, text = 40, bytearray()
    while place + 5 <= len(journal) and journal[place] == 1:
        size = struct.unpack_from(">I", journal, place + 1)[0]
        text += journal[place + 5:place + 5 + size]
        place += 5 + size
    return bytes(text)


def journal_of(seed, text):
    """A journal of a seed file with one batch, or none, and an open gate behind it."""
    batch = b"\x01" + struct.pack(">I", len(text)) + text if text else b""
    return b"MWJRNL1\n" + hashlib.sha256(read(seed)).digest() + batch + b"\x00"


def checks_of(slot, locations):
    return struct.pack(">BBHI", 1, 0, slot, len(locations)) + b"".join(struct.pack(">q", location) for location in locations)


CONNECT = '[{"cmd":"Connect","game":"G","items_handling":7,"name":"%s","tags":["NoText"],"version":{"build":0,"class":"Version","major":0,"minor":5}}]'
ASK = ("open\ntext 1 %s\ntake 1\n" % (CONNECT % "Ann")).encode()


def checked_later(number, before):
    """What Ann has checked by a later run, which must find each record that stood in the journal."""
    status, out, err = run(["drive", ROOM, path("journal")], ASK)
    if status != 0 or not bodies(read(path("journal"))).startswith(before):
        say("at allocation", number, "a later run ended with status", status, repr(err))
        return []
    packets = [packet for line in out.decode().splitlines() for packet in json.loads(line.partition(" ")[2])]
    return [packet["checked_locations"] for packet in packets if packet["cmd"] == "Connected"][0]


# ---- the kinds of run

def drive_in_memory():
    script = read(os.path.join(EXAMPLES, "first_check.txt"))
    whole = run(["drive", ROOM], script)[1]
    each_refusal("drive, a check in memory", lambda: None, lambda number: run(["drive", ROOM], script, number), lambda number, ended: judged(number, ended, whole))


def drive_on_journal():
    script = read(os.path.join(EXAMPLES, "first_check.txt"))
    new = journal_of(ROOM, b"")
    whole = run(["drive", ROOM], script)[1]

    def after(number, ended):
        judged(number, ended, whole)
        before = bodies(read(path("journal")))
        if before not in (b"", checks_of(1, [101])):
            say("at allocation", number, "the journal stands for", before.hex())
        later = checked_later(number, before)
        if b'"checked_locations":[101]' in ended[1] and 101 not in later:
            say("at allocation", number, "a check that was shown is gone")

    each_refusal("drive, a check on a journal", lambda: write(path("journal"), new), lambda number: run(["drive", ROOM, path("journal")], script, number), after)


def drive_on_batch():
    held = journal_of(ROOM, checks_of(1, [101]))

    def after(number, ended):
        judged(number, ended, b"")
        if checked_later(number, checks_of(1, [101])) != [101]:
            say("at allocation", number, "the check is gone")

    each_refusal("drive, no commands on a journal with a check", lambda: write(path("journal"), held), lambda number: run(["drive", ROOM, path("journal")], b"", number), after)


def drive_on_torn_gate():
    torn = bytearray(journal_of(ROOM, checks_of(1, [101])))
    torn[40] = 7

    def after(number, ended):
        judged(number, ended, b"")
        if checked_later(number, b"") != []:
            say("at allocation", number, "a check is there that was never safe")

    each_refusal("drive, no commands on a journal whose gate is torn", lambda: write(path("journal"), bytes(torn)), lambda number: run(["drive", ROOM, path("journal")], b"", number), after)


def generate():
    world = {"format": "mw-world-1", "game": "G", "regions": ["Menu"], "entrances": [], "filler": "Coin", "goal": {"has": "Sword"}, "pool": [{"item": "Sword", "count": 1}],
             "items": [{"name": "Sword", "id": 1, "class": "progression"}, {"name": "Coin", "id": 2, "class": "filler"}],
             "locations": [{"name": "First", "id": 1, "region": "Menu", "rule": True}, {"name": "Second", "id": 2, "region": "Menu", "rule": {"has": "Sword"}}]}
    write(path("w.json"), json.dumps(world).encode())
    write(path("players.json"), json.dumps({"format": "mw-players-1", "players": [{"names": ["Ann"], "world": path("w.json")}]}).encode())
    words = ["generate", path("players.json"), path("seed.json"), "--seed", "0"]
    status, whole, _ = run(words, b"")
    seed = read(path("seed.json"))
    if status != 0 or whole != b"seed 0 try 0 spheres 1\n1 Ann: First -> Ann: Sword\n":
        say("without a refusal it ended with status", status, repr(whole))

    def prepare():
        if os.path.exists(path("seed.json")):
            os.remove(path("seed.json"))

    def after(number, ended):
        judged(number, ended, whole)
        if os.path.exists(path("seed.json")) and read(path("seed.json")) != seed:
            say("at allocation", number, "the seed file is another")
        elif ended[0] == 0 and not os.path.exists(path("seed.json")):
            say("at allocation", number, "there is no seed file")

    each_refusal("generate, two locations", prepare, lambda number: run(words, b"", number), after)


class Client(threading.Thread):
    """A client that plays a slot: it connects, sends its checks once it is in, and listens until it hears a word or the connection is over."""

    def __init__(self, server, port, name, checks, word):
        super().__init__(daemon=True)
        self.server, self.port, self.name_of, self.checks, self.word, self.heard = server, port, name, checks, word, []

    def run(self):
        try:
            link = self.dial()
            if link is None:
                return
            link.send(CONNECT % self.name_of)
            until = time.monotonic() + 3
            while time.monotonic() < until and self.server.poll() is None and not (self.word and any(self.word in text for text in self.heard)):
                text = link.receive(0.1)
                if text is None:
                    continue
                self.heard.append(text)
                if self.checks and '"cmd":"Connected"' in text:
                    link.send('[{"cmd":"LocationChecks","locations":%s}]' % json.dumps(self.checks))
            link.close(wait=1.0)
        except (Closed, OSError):
            pass

    def dial(self):
        """A connection, or none where the server is over before."""
        while self.server.poll() is None:
            try:
                return WebSocket(HOST, self.port, 5.0)
            except ConnectionRefusedError:
                time.sleep(0.005)
        return None


def serve():
    new = journal_of(ROOM, b"")
    heard = []

    def once(number):
        with socket.socket() as found:
            found.bind((HOST, 0))
            port = found.getsockname()[1]
        words = [PROGRAM, "serve", ROOM, path("journal"), "--bind", "%s:%d" % (HOST, port), "--workers", "2", "--accept", "2"]
        server = subprocess.Popen(words, env=refusing(number), stdin=subprocess.DEVNULL, stdout=subprocess.PIPE, stderr=subprocess.PIPE)
        clients = [Client(server, port, "Ann", [], '"cmd":"ReceivedItems","index":1'), Client(server, port, "Bob", [201], '"checked_locations":[201]')]
        for client in clients:
            client.start()
        try:
            out, err = server.communicate(timeout=30)
        except subprocess.TimeoutExpired:
            server.kill()
            out, err = server.communicate()
            say("at allocation", number, "it didn't end")
        for client in clients:
            client.join()
        heard[:] = ["".join(client.heard) for client in clients]
        return server.returncode, out, err

    def after(number, ended):
        status, _, err = ended
        if not (status == 0 and err == b"" or status == 6 and LINE.startswith(err)):
            say("at allocation", number, "it ended with status", status, repr(err))
        before = bodies(read(path("journal")))
        if before not in (b"", checks_of(2, [201])):
            say("at allocation", number, "the journal stands for", before.hex())
        checked_later(number, before)
        if before == b"" and ('"checked_locations":[201]' in heard[1] or '"cmd":"ReceivedItems","index":1' in heard[0]):
            say("at allocation", number, "a check that was shown is gone")

    each_refusal("serve, two clients", lambda: write(path("journal"), new), once, after)


drive_in_memory()
drive_on_journal()
drive_on_batch()
drive_on_torn_gate()
generate()
serve()
sys.exit(1 if wrong else 0)
