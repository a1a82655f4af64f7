"""What the tools read: players files with their worlds, and seed files."""
import json
import sys


def stop(line):
    """Ends the tool with a line on the error output."""
    print(line, file=sys.stderr)
    sys.exit(2)


def read_json(name):
    try:
        with open(name, encoding="utf-8") as file:
            return json.load(file)
    except OSError as error:
        stop("%s: %s" % (name, error.strerror))
    except ValueError as error:
        stop("%s: no JSON: %s" % (name, error))


def read_tables(name):
    """A players file, and each world file that it names, read from the folder in which the tool runs."""
    players = read_json(name)
    worlds = {}
    for player in players["players"]:
        if player["world"] not in worlds:
            worlds[player["world"]] = read_json(player["world"])
    return players, worlds


class SeedNames:
    """The names in a seed file: of slots and groups, and of the items and locations of their games."""

    def __init__(self, seed):
        self.slots = seed["slots"]
        # A file of the first form has no groups, whatever it says.
        self.groups = seed["groups"] if seed["format"] == "mw-multidata-2" else []
        self.items = {}
        self.locations = {}
        self.location_ids = {}
        for game, tables in seed["games"].items():
            self.items[game] = {number: name for name, number in tables["item_name_to_id"].items()}
            self.locations[game] = {number: name for name, number in tables["location_name_to_id"].items()}
            self.location_ids[game] = tables["location_name_to_id"]

    def group(self, receiver):
        """The group of a number behind the slots, and None where that is a slot's."""
        return self.groups[receiver - len(self.slots) - 1] if receiver > len(self.slots) else None

    def game(self, receiver):
        return (self.group(receiver) or self.slots[receiver - 1])["game"]

    def player(self, receiver, team=0):
        """The name of a slot in a team, or of a group."""
        group = self.group(receiver)
        return group["name"] if group else self.slots[receiver - 1]["names"][team]

    def owns(self, slot, receiver):
        """Whether a slot gets what is for a receiver."""
        group = self.group(receiver)
        return slot in group["members"] if group else slot == receiver

    def item(self, receiver, number):
        """The name of an item that a slot or a group receives."""
        return self.items[self.game(receiver)].get(number, str(number))

    def location(self, finder, number):
        """The name of a location of a slot."""
        return self.locations[self.game(finder)].get(number, str(number))

    def find(self, name):
        """The team and the slot of a player's name, and None where nobody has it."""
        for slot, entry in enumerate(self.slots, 1):
            if name in entry["names"]:
                return entry["names"].index(name), slot
        return None
