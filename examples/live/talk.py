"""A text client: joins a room as a player, tells in plain words what comes, and sends what is typed.

usage: talk.py HOST:PORT NAME GAME [PASSWORD]

A line that is typed is said in the chat; one that begins with ! is a command of the room, as !help. One that begins with / is the client's own:

  /check LOCATION   checks a location of your own, by its exact name or its number
  /goal             you have reached your goal
  /hints            reads all hints that concern you
  /items            shows your list of items
  /quit             leaves

Where the connection breaks it connects again.
"""
import json
import os
import select
import sys
import time

from websocket import Closed, WebSocket

sys.path.insert(0, os.path.join(os.path.dirname(os.path.abspath(__file__)), "../tools"))

from files import SeedNames
from watch import Watcher

VERSION = {"class": "Version", "major": 0, "minor": 5, "build": 0}
SESSION = 0  # the watcher counts sessions, and a client has one
GOAL = 30


class RoomNames(SeedNames):
    """The names of slots, items and locations, as the room tells them."""

    def __init__(self, tables, connected):
        super().__init__({"slots": [], "games": tables})
        self.names = {(player["team"], player["slot"]): player["name"] for player in connected["players"]}
        self.of_slot = {int(slot): about["game"] for slot, about in connected["slot_info"].items()}

    def game(self, slot):
        return self.of_slot[slot]

    def player(self, slot, team=0):
        return self.names[team, slot]


class Talk:
    """What the client keeps over its connections."""

    def __init__(self, address, name, game, password=None):
        host, _, port = address.rpartition(":")
        self.address = (host, int(port))
        self.connect = {"cmd": "Connect", "game": game, "name": name, "password": password, "items_handling": 7, "tags": [], "version": VERSION}
        self.socket = self.connected = self.watcher = None
        self.tables, self.items = {}, []
        self.begun = b""  # what was typed of a line that isn't whole

    def send(self, **packet):
        self.socket.send(json.dumps([packet], ensure_ascii=False))

    def heed(self, packet):
        kind = packet["cmd"]
        if kind == "RoomInfo":
            self.send(cmd="GetDataPackage")
        elif kind == "DataPackage":
            self.tables = packet["data"]["games"]
            self.send(**self.connect)
        elif kind == "ConnectionRefused":
            sys.exit("the room refuses: " + ", ".join(packet["errors"]))
        elif kind == "ReceivedItems" and packet["index"] not in (0, len(self.items)):
            self.send(cmd="Sync")
        else:
            if kind == "Connected":
                self.connected = packet
                self.watcher = Watcher(RoomNames(self.tables, packet))
            elif kind == "ReceivedItems":
                # What comes again, after a new connection or a Sync, isn't told again.
                known = len(self.items) if packet["index"] == 0 else 0
                self.items = self.items[:packet["index"]] + packet["items"]
                packet = dict(packet, index=packet["index"] + known, items=packet["items"][known:])
            self.tell(packet)

    def tell(self, packet):
        for line in getattr(self.watcher, packet["cmd"])(SESSION, packet):
            print(line, flush=True)

    def typed(self, line):
        """Does what a line asks for; whether the client goes on."""
        word, _, rest = line.partition(" ")
        if word == "/quit":
            return False
        if self.connected is None:
            print("not connected yet")
        elif word == "/check":
            self.check(rest)
        elif word == "/goal":
            self.send(cmd="StatusUpdate", status=GOAL)
        elif word == "/hints":
            self.send(cmd="Get", keys=["_read_hints_%d_%d" % (self.connected["team"], self.connected["slot"])])
        elif word == "/items":
            self.tell({"cmd": "ReceivedItems", "index": 0, "items": self.items})
        elif line.startswith("/"):
            print("no such command: " + word)
        elif line:
            self.send(cmd="Say", text=line)
        return True

    def check(self, location):
        number = self.tables[self.connect["game"]]["location_name_to_id"].get(location)
        if number is None and location.isdigit():
            number = int(location)
        if number is None:
            print("no location is called so: " + location)
        else:
            self.send(cmd="LocationChecks", locations=[number])

    def run(self):
        """Talks over one connection, until the player leaves."""
        self.socket, self.connected = WebSocket(*self.address), None
        while True:
            for text in self.socket.poll():
                for packet in json.loads(text):
                    self.heed(packet)
            if sys.stdin in select.select([self.socket, sys.stdin], [], [])[0]:
                data = os.read(sys.stdin.fileno(), 1 << 16)
                *lines, self.begun = (self.begun + data).split(b"\n")
                if not data or not all(self.typed(line.decode()) for line in lines):
                    self.socket.close()
                    return


def main(words):
    if not 3 <= len(words) <= 4:
        sys.exit(__doc__.strip())
    talk = Talk(*words)
    while True:
        try:
            talk.run()
            return
        except (Closed, OSError) as error:
            print("the connection is over (%s); trying again" % error)
            time.sleep(2)


if __name__ == "__main__":
    try:
        main(sys.argv[1:])
    except KeyboardInterrupt:
        pass
