"""Plays a whole game live: makes a seed of a players file and a room, starts `serve`, lets a process for each player play over WebSocket, kills the server twice in the middle and starts it again
on the same journal, and holds each player's list of items beside the one that the journal owes.

usage: python3 examples/live/play_live.py [SEED NUMBER [PLAYERS [PASSWORD]]]

The seed's number is 7, and the players file examples/players.json, where they aren't said. PASSWORD is the one that the players file sets, where it does. World files are read from the top of the checkout.

The program is crates/mw_cli/out/mw_cli, or what the variable MULTIWORLD names. It listens on this machine alone, and all is over within two minutes. The last line says that all is right, or what isn't.
"""
import json
import os
import random
import selectors
import socket
import subprocess
import sys
import tempfile
import time

HERE = os.path.dirname(os.path.abspath(__file__))
TOP = os.path.dirname(os.path.dirname(HERE))
PROGRAM = os.path.abspath(os.environ.get("MULTIWORLD", os.path.join(TOP, "crates/mw_cli/out/mw_cli")))
PLAYERS = os.path.join(TOP, "examples/players.json")
HOST, KILLS, SECONDS = "127.0.0.1", 2, 90


class Wrong(Exception):
    """What isn't right."""


def run(*words, script=""):
    """What the program prints."""
    done = subprocess.run([PROGRAM, *words], input=script, stdout=subprocess.PIPE, stderr=subprocess.PIPE, text=True, cwd=TOP, timeout=60)
    if done.returncode != 0:
        raise Wrong("%s ends with %d: %s" % (words[0], done.returncode, done.stderr.strip()))
    return done.stdout


def free_port():
    with socket.socket() as found:
        found.bind((HOST, 0))
        return found.getsockname()[1]


class Server:
    """The server as it runs on one journal, from one kill to the next."""

    def __init__(self, seed, journal):
        self.port = free_port()
        self.words = [PROGRAM, "serve", seed, journal, "--bind", "%s:%d" % (HOST, self.port), "--workers", "8"]
        self.process = None

    def start(self):
        self.process = subprocess.Popen(self.words, cwd=TOP, stdin=subprocess.DEVNULL, stderr=subprocess.PIPE, text=True)

    def kill(self):
        """Ends it by SIGKILL, as a loss of power would."""
        self.process.kill()
        self.process.wait()
        self.process.stderr.close()

    def look(self):
        """It must run as long as nobody kills it."""
        if self.process.poll() is not None:
            raise Wrong("the server ended with %d: %s" % (self.process.returncode, self.process.stderr.read().strip()))


def start_players(seed, server, password):
    players = {}
    for slot in seed["slots"]:
        name = slot["names"][0]
        words = [HOST, str(server.port), slot["game"], name, str(len(seed["slots"])), str(SECONDS), *([] if password is None else [password])]
        players[name] = subprocess.Popen([sys.executable, "-u", os.path.join(HERE, "player.py"), *words], stdout=subprocess.PIPE, bufsize=0)
    return players


def play(server, players, total):
    """Lets them play, kills the server as the game goes on, and gives each player's last list."""
    checked, items, kills = dict.fromkeys(players, 0), {}, 0
    deadline = time.monotonic() + SECONDS + 10
    ways = selectors.DefaultSelector()
    for name, player in players.items():
        ways.register(player.stdout, selectors.EVENT_READ, name)
    while ways.get_map():
        server.look()
        if time.monotonic() > deadline:
            raise Wrong("the game didn't come to its end in time")
        for key, _ in ways.select(1.0):
            line = key.fileobj.readline().decode()
            if not line:
                ways.unregister(key.fileobj)
            elif line.startswith(key.data + " checked "):
                checked[key.data] = int(line.split(" ")[-1])
            elif line.startswith(key.data + " items "):
                items[key.data] = json.loads(line.split(" items ", 1)[1])
            else:
                print(line.rstrip("\n"))
        if kills < KILLS and sum(checked.values()) >= total * (kills + 1) // (KILLS + 1):
            # At a moment that differs from run to run.
            time.sleep(random.uniform(0, 0.3))
            server.kill()
            kills += 1
            print("the server was killed when players had heard of %d checks of %d, and is started again" % (sum(checked.values()), total), flush=True)
            server.start()
    for name, player in players.items():
        if player.wait() != 0 or name not in items:
            raise Wrong("%s didn't play to the end" % name)
    if kills != KILLS:
        raise Wrong("the game was over before the server was killed %d times" % KILLS)
    return items


def owed(seed_name, journal, seed, password=None):
    """What the journal owes each player who connects: the whole list, and which locations are missing."""
    script, names = [], []
    for slot in seed["slots"]:
        names.append(slot["names"][0])
        connect = {"cmd": "Connect", "game": slot["game"], "name": names[-1], "password": password, "items_handling": 7, "tags": ["NoText"], "version": {"class": "Version", "major": 0, "minor": 5, "build": 0}}
        script += ["open", "text %d %s" % (len(names), json.dumps([connect])), "take %d" % len(names)]
    lists, missing = dict.fromkeys(names, []), {}
    for line in run("drive", seed_name, journal, script="\n".join(script)).splitlines():
        number, _, text = line.partition(" ")
        for packet in json.loads(text):
            if packet["cmd"] == "ReceivedItems" and packet["index"] == 0:
                lists[names[int(number) - 1]] = packet["items"]
            elif packet["cmd"] == "Connected":
                missing[names[int(number) - 1]] = packet["missing_locations"]
    return lists, missing


def compare(items, lists, missing):
    for name, found in items.items():
        if missing.get(name) != []:
            raise Wrong("the journal has locations of %s that aren't checked: %s" % (name, missing.get(name)))
        if found != lists[name]:
            raise Wrong("%s has %s, and the journal owes %s" % (name, found, lists[name]))
        places = [(item["player"], item["location"]) for item in found if item["player"] != 0]
        if len(places) != len(set(places)):
            raise Wrong("%s was given an item twice: %s" % (name, found))


def main(number="7", tables=PLAYERS, password=None):
    if not os.access(PROGRAM, os.X_OK):
        raise Wrong("there is no program %s: build it by (cd crates/mw_cli && rt run)" % PROGRAM)
    with tempfile.TemporaryDirectory() as folder:
        seed_name, journal = os.path.join(folder, "seed.json"), os.path.join(folder, "room.journal")
        run("generate", os.path.abspath(tables), seed_name, "--seed", number)
        run("new-room", seed_name, journal)
        with open(seed_name, encoding="utf-8") as file:
            seed = json.load(file)
        server = Server(seed_name, journal)
        server.start()
        players = start_players(seed, server, password)
        try:
            items = play(server, players, len(seed["locations"]))
        finally:
            for player in players.values():
                player.kill()
                player.wait()
                player.stdout.close()
            server.kill()
        compare(items, *owed(seed_name, journal, seed, password))
        print("all is right: %d players have the %d items that the journal owes them, after %d kills" % (len(items), sum(map(len, items.values())), KILLS))


if __name__ == "__main__":
    try:
        main(*sys.argv[1:4])
    except Wrong as wrong:
        print("wrong: %s" % wrong)
        sys.exit(1)
