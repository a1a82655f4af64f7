"""Tells what `drive` printed in plain words, with the names of a seed file.

usage: drive SEED .. < SCRIPT | watch.py SEED

Each line begins with the session's number, and with its player once it is connected.
"""
import json
import sys

from files import SeedNames, read_json, stop


class Watcher:
    """What is known of the sessions: which slot of which team each plays."""

    def __init__(self, names):
        self.names = names
        self.members = {}

    def who(self, session):
        if session not in self.members:
            return str(session)
        team, slot = self.members[session]
        return "%d %s" % (session, self.names.player(slot, team))

    def player(self, session, slot):
        """A slot's name, as the session's team has it."""
        team = self.members.get(session, (0, 0))[0]
        return self.names.player(slot, team)

    def of(self, session, slot):
        return self.player(session, slot) + "'s"

    def slot(self, session):
        return self.members[session][1]

    # One function a packet: its lines.

    def RoomInfo(self, session, packet):
        yield "the room of seed %s, with %s" % (packet["seed_name"], ", ".join(packet["games"]))
        if packet["password"]:
            yield "it asks for a password"

    def ConnectionRefused(self, session, packet):
        yield "is refused: %s" % ", ".join(packet["errors"])

    def Connected(self, session, packet):
        self.members[session] = (packet["team"], packet["slot"])
        checked, missing = len(packet["checked_locations"]), len(packet["missing_locations"])
        yield "is connected: %d of %d locations checked, hint points: %d" % (checked, checked + missing, packet["hint_points"])

    def ReceivedItems(self, session, packet):
        slot = self.slot(session)
        for number, item in enumerate(packet["items"], packet["index"] + 1):
            name = self.names.item(slot, item["item"])
            if item["player"] == 0:
                yield "has item %d: %s, from the start" % (number, name)
            else:
                place = self.names.location(item["player"], item["location"])
                yield "has item %d: %s, which %s found (%s)" % (number, name, self.player(session, item["player"]), place)

    def RoomUpdate(self, session, packet):
        for location in packet["checked_locations"]:
            yield "%s is checked" % self.names.location(self.slot(session), location)
        yield "hint points: %d" % packet["hint_points"]

    def LocationInfo(self, session, packet):
        for item in packet["locations"]:
            place = self.names.location(self.slot(session), item["location"])
            yield "%s holds %s %s" % (place, self.of(session, item["player"]), self.names.item(item["player"], item["item"]))

    def DataPackage(self, session, packet):
        yield "the names of %s" % ", ".join(packet["data"]["games"])

    def InvalidPacket(self, session, packet):
        yield "that was no packet (%s): %s" % (packet["original_cmd"], packet["text"])

    def Retrieved(self, session, packet):
        for key, value in packet["keys"].items():
            if key.startswith("_read_hints_") and value is not None:
                yield "%s has %d hints" % (key, len(value))
                for hint in value:
                    yield self.hint(session, hint)
            else:
                yield "%s is %s" % (key, json.dumps(value, ensure_ascii=False))

    def hint(self, session, hint):
        item = self.names.item(hint["receiving_player"], hint["item"])
        place = self.names.location(hint["finding_player"], hint["location"])
        receiver, finder = self.of(session, hint["receiving_player"]), self.of(session, hint["finding_player"])
        return "  %s %s is at %s in %s world%s" % (receiver, item, place, finder, ", and found" if hint["found"] else "")

    def SetReply(self, session, packet):
        value, before = (json.dumps(packet[name], ensure_ascii=False) for name in ("value", "original_value"))
        yield "%s sets %s to %s, from %s" % (self.player(session, packet["slot"]), packet["key"], value, before)

    def Bounced(self, session, packet):
        data = packet.get("data")
        if "DeathLink" in packet.get("tags", []) and isinstance(data, dict):
            yield "%s died: %s" % (data.get("source"), data.get("cause"))
        else:
            yield "hears a Bounce: %s" % json.dumps(data, ensure_ascii=False)

    def PrintJSON(self, session, packet):
        if packet["type"] == "ItemSend":
            yield self.found(session, packet)
        else:
            yield "".join(self.part(session, part) for part in packet["data"])

    def found(self, session, packet):
        item, receiver = packet["item"], packet["receiving"]
        name = self.names.item(receiver, item["item"])
        place = self.names.location(item["player"], item["location"])
        finder = self.player(session, item["player"])
        whose = "their" if receiver == item["player"] else self.of(session, receiver)
        return "%s found %s %s (%s)" % (finder, whose, name, place)

    def part(self, session, part):
        kind = part.get("type")
        if kind == "player_id":
            return self.player(session, int(part["text"]))
        if kind == "item_id":
            return self.names.item(part["player"], int(part["text"]))
        if kind == "location_id":
            return self.names.location(part["player"], int(part["text"]))
        return part["text"]

    def line(self, line):
        """Tells one line of `drive`."""
        number, _, text = line.partition(" ")
        if text == "gone":
            print("%s is no open session" % number)
            return
        if text == "overrun":
            print("%s was owed more than it may keep" % number)
            return
        if not number.isdigit() or not text.startswith("["):
            print(line)  # what `generate` and others print
            return
        session = int(number)
        if session in self.members and text.startswith('[{"cmd":"RoomInfo"'):
            del self.members[session]  # sessions count from 1 again after a crash
        for packet in json.loads(text):
            for told in getattr(self, packet["cmd"])(session, packet):
                print("%s: %s" % (self.who(session), told), flush=True)


def main(words):
    if len(words) != 1:
        stop(__doc__.strip())
    watcher = Watcher(SeedNames(read_json(words[0])))
    for line in sys.stdin:
        watcher.line(line.rstrip("\n"))


if __name__ == "__main__":
    main(sys.argv[1:])
