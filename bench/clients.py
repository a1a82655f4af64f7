"""Plays a whole game against `serve` with clients that others wrote: see bench/clients.sh.

usage: clients.py CLIENT ..

A CLIENT is the command of one, to which the room's address is added. The three players of examples/players.json take the clients in turn.
"""
import json
import os
import queue
import random
import statistics
import subprocess
import sys
import tempfile
import threading
import time

HERE = os.path.dirname(os.path.abspath(__file__))
sys.path.insert(0, os.path.join(os.path.dirname(HERE), "examples/live"))

from play_live import HOST, PLAYERS, Server, Wrong, compare, owed, run
from player import GOAL, VERSION

WAIT, SLOW = 20, 1000  # seconds for one thing to come, and milliseconds that a push may take
KEY = "tally"


class Client:
    """A player by one of the clients: what was sent, and what came."""

    def __init__(self, command, url, slot, game, name, heard):
        self.slot, self.game, self.name = slot, game, name
        self.items, self.before, self.packets, self.told = [], [], [], {}
        self.missing, self.connections, self.library, self.over = [], 0, "", None
        self.process = subprocess.Popen([*command.split(" "), url], stdin=subprocess.PIPE, stdout=subprocess.PIPE, text=True)
        threading.Thread(target=self.listen, args=(heard,), daemon=True).start()

    def listen(self, heard):
        for line in self.process.stdout:
            heard.put((self, line))
        heard.put((self, "0 ended "))

    def send(self, **packet):
        self.process.stdin.write(json.dumps([packet]) + "\n")
        self.process.stdin.flush()

    def heed(self, line):
        moment, kind, rest = line.rstrip("\n").split(" ", 2)
        if kind == "open":
            self.library = rest
        elif kind == "closed":
            self.over = rest
        elif kind == "ended":
            self.over = "ended"
        else:
            for packet in json.loads(rest):
                self.take(int(moment), packet)

    def take(self, moment, packet):
        self.packets.append(packet)
        kind = packet["cmd"]
        if kind == "RoomInfo":
            self.send(cmd="Connect", game=self.game, name=self.name, password=None, items_handling=7, tags=["DeathLink"], version=VERSION)
        elif kind == "Connected":
            self.missing, self.before, self.items = packet["missing_locations"], self.items, []
            self.connections += 1
            self.over = None
        elif kind == "RoomUpdate":
            self.missing = [number for number in self.missing if number not in packet["checked_locations"]]
        elif kind == "ReceivedItems":
            if packet["index"] not in (0, len(self.items)):
                raise Wrong("%s gets index %d, and has %d items" % (self.name, packet["index"], len(self.items)))
            self.items = self.items[:packet["index"]] + packet["items"]
        elif kind == "InvalidPacket":
            raise Wrong("%s: the room didn't take a packet: %s" % (self.name, packet["text"]))
        elif kind == "PrintJSON" and packet["type"] == "ItemSend":
            self.told.setdefault((packet["item"]["player"], packet["item"]["location"]), moment)

    def has(self, **members):
        """Whether a packet with these members came since the last one that was waited for."""
        for at, packet in enumerate(self.packets):
            if all(packet.get(name) == value for name, value in members.items()):
                del self.packets[:at + 1]
                return True
        return False


class Table:
    """The players around one server."""

    def __init__(self, server, seed, commands):
        self.server, self.heard, self.times = server, queue.Queue(), []
        url = "ws://%s:%d" % (HOST, server.port)
        self.players = [Client(commands[index % len(commands)], url, index + 1, slot["game"], slot["names"][0], self.heard) for index, slot in enumerate(seed["slots"])]
        self.sent = {}

    def until(self, what, holds):
        """Heeds what comes until something holds."""
        deadline = time.monotonic() + WAIT
        while not holds():
            self.server.look()
            try:
                client, line = self.heard.get(timeout=min(0.5, max(0.0, deadline - time.monotonic())))
                client.heed(line)
            except queue.Empty:
                if time.monotonic() >= deadline:
                    raise Wrong("this doesn't come: %s" % what) from None

    def all_have(self, what, players=None, **members):
        for player in players or self.players:
            self.until("%s, at %s" % (what, player.name), lambda: player.has(**members))

    def joined(self, count):
        self.until("all are connected", lambda: all(player.connections == count and player.over is None for player in self.players))

    def check(self, player, number):
        self.sent[player.slot, number] = time.time() * 1000
        player.send(cmd="LocationChecks", locations=[number])

    def round(self):
        """Each player checks a location, and all are told of each."""
        spots = [(player, player.missing[0]) for player in self.players if player.missing]
        for player, number in spots:
            self.check(player, number)
            self.until("%s's check is told to all" % player.name, lambda: number not in player.missing and all((player.slot, number) in other.told for other in self.players))
            self.times += [other.told[player.slot, number] - self.sent[player.slot, number] for other in self.players if other is not player]


def done(line):
    print(line, flush=True)


def try_talk(table):
    for player in table.players:
        player.send(cmd="Say", text="hello from %s" % player.name)
        table.all_have("a chat", type="Chat", message="hello from %s" % player.name)
    done("each heard the others in the chat")


def try_hint(table):
    ann, bob, _ = table.players
    ann.send(cmd="Say", text="!hint Rope")
    table.all_have("a hint", [ann, bob], type="Hint", receiving=1, found=False)
    ann.send(cmd="Get", keys=["_read_hints_0_1"])
    table.until("the hints", lambda: any(packet["cmd"] == "Retrieved" for packet in ann.packets))
    hint = next(packet for packet in ann.packets if packet["cmd"] == "Retrieved")["keys"]["_read_hints_0_1"][0]
    ann.send(cmd="UpdateHint", player=hint["finding_player"], location=hint["location"], status=20)
    ann.packets.clear()
    ann.send(cmd="Get", keys=["_read_hints_0_1"])
    table.all_have("the changed hint", [ann], keys={"_read_hints_0_1": [dict(hint, status=20)]})
    done("a hint was bought, told to its finder, read, and given another status")


def try_storage(table):
    ann, bob, cleo = table.players
    for player in table.players:
        player.send(cmd="SetNotify", keys=[KEY])
        player.send(cmd="Get", keys=[KEY])
        table.all_have("no value", [player], cmd="Retrieved", keys={KEY: None})
    ann.send(cmd="Set", key=KEY, default=0, want_reply=False, operations=[{"operation": "add", "value": 3}])
    table.all_have("a set value", cmd="SetReply", key=KEY, value=3)
    bob.send(cmd="Set", key=KEY, default=0, want_reply=True, operations=[{"operation": "mul", "value": 4}, {"operation": "max", "value": 5}])
    table.all_have("another value", cmd="SetReply", key=KEY, value=12, original_value=3)
    cleo.send(cmd="Get", keys=[KEY])
    table.all_have("the value", [cleo], cmd="Retrieved", keys={KEY: 12})
    done("a value was set, told to who watches it, and read")


def try_death(table):
    for player in table.players:
        data = {"time": int(time.time()), "source": player.name, "cause": "%s met a bat" % player.name}
        player.send(cmd="Bounce", tags=["DeathLink"], data=data)
        table.all_have("a death link", cmd="Bounced", tags=["DeathLink"], data=data)
    done("each heard of each death")


def try_kill(table):
    """The server is killed while a check is on its way, and started again."""
    for player in table.players:
        if player.missing:
            player.send(cmd="LocationChecks", locations=[player.missing[0]])
    time.sleep(random.uniform(0, 0.2))
    table.server.kill()
    table.server.start()
    table.joined(2)
    for player in table.players:
        if player.items[:len(player.before)] != player.before:
            raise Wrong("%s had %s, and has %s" % (player.name, player.before, player.items))
    table.players[0].send(cmd="Get", keys=[KEY])
    table.all_have("the value from before", [table.players[0]], cmd="Retrieved", keys={KEY: 12})
    done("the server was killed and started again: all came back with the items that they had, and the stored value is there")


def try_goals(table):
    for player in table.players:
        player.send(cmd="StatusUpdate", status=GOAL)
        table.all_have("a goal", type="Goal", slot=player.slot)
    keys = ["_read_client_status_0_%d" % player.slot for player in table.players]
    table.players[-1].send(cmd="Get", keys=keys)
    table.all_have("the statuses", [table.players[-1]], cmd="Retrieved", keys=dict.fromkeys(keys, GOAL))
    done("each reached the goal, and all were told")


def play(table):
    table.joined(1)
    done("joined: " + ", ".join("%s by %s" % (player.name, player.library) for player in table.players))
    try_talk(table)
    table.round()
    try_hint(table)
    try_storage(table)
    try_death(table)
    table.round()
    try_kill(table)
    for _ in range(20):
        table.round()
    try_goals(table)
    if max(table.times) > SLOW:
        raise Wrong("a push took %d ms" % max(table.times))
    done("%d pushes to others came %.0f ms after their check in the median, and at most %.0f ms" % (len(table.times), statistics.median(table.times), max(table.times)))


def main(commands):
    with tempfile.TemporaryDirectory() as folder:
        seed_name, journal = os.path.join(folder, "seed.json"), os.path.join(folder, "room.journal")
        run("generate", PLAYERS, seed_name, "--seed", "7")
        run("new-room", seed_name, journal)
        with open(seed_name, encoding="utf-8") as file:
            seed = json.load(file)
        server = Server(seed_name, journal)
        server.start()
        table = Table(server, seed, commands)
        try:
            play(table)
        finally:
            for player in table.players:
                player.process.kill()
                player.process.wait()
            server.kill()
        items = {player.name: player.items for player in table.players}
        compare(items, *owed(seed_name, journal, seed))
        print("all is right: %d players have the %d items that the journal owes them, after a kill" % (len(items), sum(map(len, items.values()))))


if __name__ == "__main__":
    try:
        main(sys.argv[1:])
    except Wrong as wrong:
        print("wrong: %s" % wrong)
        sys.exit(1)
