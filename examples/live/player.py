"""Plays one slot of a room to the end: checks its locations, a few at a time, keeps its items by the protocol's index, and connects again whenever the connection breaks.

usage: player.py HOST PORT GAME NAME PLAYERS SECONDS [PASSWORD]

The player's number of slots in the room is PLAYERS. It prints a line "NAME checked N" whenever more of its locations are checked, and once each player has reached its goal a last line, its list of
items as JSON behind "NAME items ". It gives up, with status 1, after so many SECONDS.
"""
import json
import sys
import time

from websocket import Closed, WebSocket

VERSION = {"class": "Version", "major": 0, "minor": 5, "build": 0}
AT_ONCE = 2  # how many locations it checks with one packet
PAUSE = 0.25  # how long it waits between two of them, in seconds
GOAL = 30  # the status of a player who has reached the goal


class Player:
    """What a player's client keeps, however often it has to connect."""

    def __init__(self, host, port, game, name, players, password=None):
        self.address = (host, int(port))
        self.game, self.name, self.players, self.password = game, name, int(players), password
        self.socket = None
        self.team = self.slot = None
        self.items = []  # the list that the room owes, as far as it came
        self.missing = []
        self.checked = set()
        self.done = False  # whether each player has reached the goal
        self.asked = False  # whether it is waiting for a whole list
        self.forgot = False  # whether it lost an item on purpose
        self.greeted = False
        self.sent = self.pushes = self.syncs = self.connections = self.prints = 0

    def send(self, **packet):
        """Sends a packet; each third one comes in fragments of 16 bytes, behind a ping."""
        text = json.dumps([packet], ensure_ascii=False)
        self.sent += 1
        if self.sent % 3 == 0:
            self.socket.ping(b"still there")
            self.socket.send(text, piece=16)
        else:
            self.socket.send(text)

    # ---- what the room says, one function a packet

    def RoomInfo(self, packet):
        self.send(cmd="Connect", game=self.game, name=self.name, password=self.password, items_handling=7, tags=[], version=VERSION)

    def ConnectionRefused(self, packet):
        sys.exit("%s is refused: %s" % (self.name, ", ".join(packet["errors"])))

    def Connected(self, packet):
        self.team, self.slot = packet["team"], packet["slot"]
        self.connections += 1
        lost = self.checked - set(packet["checked_locations"])
        if lost:
            sys.exit("%s: the room forgot that %s were checked" % (self.name, sorted(lost)))
        self.missing = packet["missing_locations"]
        self.note(packet["checked_locations"])
        if not self.greeted:
            self.greeted = True
            self.send(cmd="Say", text="hello from %s" % self.name)

    def RoomUpdate(self, packet):
        self.note(packet.get("checked_locations", []))

    def note(self, locations):
        """Notes locations that the room says are checked, also where another player's command did it."""
        before = len(self.checked)
        self.checked.update(locations)
        self.missing = [location for location in self.missing if location not in self.checked]
        if len(self.checked) > before:
            print("%s checked %d" % (self.name, len(self.checked)), flush=True)

    def ReceivedItems(self, packet):
        """A list with index 0 is the whole list; one that fits behind what is here goes on from it; at any other index something is missing, and the whole list is asked for."""
        index, items = packet["index"], packet["items"]
        if index == 0:
            self.items, self.asked = list(items), False
        elif index == len(self.items):
            self.pushes += 1
            self.items += items
        elif not self.asked:
            self.sync()
        if len(self.items) >= 3 and not self.forgot:
            self.forgot = True  # once, as a client that lost something
            self.items.pop()

    def Retrieved(self, packet):
        self.done = list(packet["keys"].values()) == [GOAL] * self.players

    def PrintJSON(self, packet):
        self.prints += 1

    def InvalidPacket(self, packet):
        sys.exit("%s: the room didn't take a packet: %s" % (self.name, packet["text"]))

    # ---- what the player does

    def hear(self, wait):
        """Heeds what comes within so many seconds."""
        deadline = time.monotonic() + wait
        while True:
            text = self.socket.receive(max(0.0, deadline - time.monotonic()))
            if text is None:
                return
            for packet in json.loads(text):
                getattr(self, packet["cmd"])(packet)

    def play(self):
        """Plays over one connection, until it breaks or the game is over."""
        self.socket = WebSocket(*self.address)
        self.slot, self.asked = None, False
        while not self.done:
            self.hear(PAUSE)
            if self.slot is None:
                continue
            if self.missing:
                self.send(cmd="LocationChecks", locations=self.missing[:AT_ONCE])
            else:
                self.send(cmd="StatusUpdate", status=GOAL)
                self.ask_statuses()
        # All checks of all players are made, so the whole list is the last one. It stands before the answer to what is asked behind it.
        self.sync()
        self.done = False
        self.ask_statuses()
        while not self.done:
            self.hear(PAUSE)
        self.socket.close()

    def sync(self):
        self.syncs += 1
        self.asked = True
        self.send(cmd="Sync")

    def ask_statuses(self):
        self.send(cmd="Get", keys=["_read_client_status_%d_%d" % (self.team, slot) for slot in range(1, self.players + 1)])


def main(words):
    player = Player(*words[:5], *words[6:])
    deadline = time.monotonic() + float(words[5])
    over = False
    while not over and time.monotonic() < deadline:
        try:
            player.play()
            over = True
        except (Closed, OSError):
            player.done = False
            time.sleep(0.1)
    if not over:
        sys.exit("%s didn't come to the end in time" % player.name)
    print("%s was connected %d times, heard %d pushes and %d prints, and asked for the whole list %d times" % (player.name, player.connections, player.pushes, player.prints, player.syncs))
    print("%s items %s" % (player.name, json.dumps(player.items)), flush=True)


if __name__ == "__main__":
    if not 7 <= len(sys.argv) <= 8:
        sys.exit(__doc__.strip())
    main(sys.argv[1:])
