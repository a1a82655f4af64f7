"""Finds what the program lets pass in a players file and its worlds, and what is seldom meant.

usage: lint.py PLAYERS

It names members that are ignored, with the known one that may have been meant; forms of a rule that don't count;
locations that are never reached, even with all items of the pool, with the entrances that stop them; and goals that
are never met. What is refused it leaves to the program: run `reach` first. It ends with 0 where it found nothing.
"""
import difflib
import sys

from files import read_tables, stop

PLAYERS = ["format", "teams", "room", "players"]
LINK = ["name", "members", "items"]
ROOM = ["password", "hint_cost", "location_check_points", "release", "collect", "remaining"]
PLAYER = ["names", "world", "options"]
OPTIONS = ["local_items", "non_local_items", "exclude_locations", "priority_locations", "start_inventory"]
WORLD = ["format", "game", "origin", "regions", "items", "entrances", "locations", "pool", "filler", "goal"]
TABLES = {
    "items": ["name", "id", "class"],
    "entrances": ["name", "from", "to", "rule"],
    "locations": ["name", "id", "region", "kind", "rule", "event"],
    "pool": ["item", "count"],
}
FORMS = ["has", "has_all", "has_any", "count", "can_reach", "and", "or"]
BESIDE = {"has": ["count"], "count": ["at_least"]}


class Findings:
    def __init__(self):
        self.lines = []

    def add(self, path, text):
        self.lines.append("%s %s" % (path, text))

    def members(self, path, value, known):
        """Members of an object that nobody reads."""
        for name in value:
            if name not in known:
                near = difflib.get_close_matches(name, known, 1, 0.5)
                self.add(path, "%s is ignored%s" % (name, ": %s is known" % near[0] if near else ""))

    def rule(self, path, rule):
        """What of a rule doesn't count: all but its first form."""
        if not isinstance(rule, dict):
            return
        form = form_of(rule)
        if form is None:
            return
        for name in rule:
            if name != form and name not in BESIDE.get(form, []):
                near = difflib.get_close_matches(name, BESIDE.get(form, []), 1, 0.5)
                self.add(path, "%s is ignored beside %s%s" % (name, form, ": %s is known" % near[0] if near else ""))
        if form == "can_reach":
            first = "region" if "region" in rule[form] else "location"
            self.members(path + "/" + form, rule[form], [first])
        for index, inner in enumerate(rule[form] if form in ("and", "or") else []):
            self.rule("%s/%s/%d" % (path, form, index), inner)


def form_of(rule):
    """The form by which a rule is judged; a count needs its at_least."""
    for form in FORMS:
        if form in rule and (form != "count" or "at_least" in rule):
            return form
    return None


def check_players(found, name, players):
    # The second form alone has links and accessibility.
    second = players["format"] == "mw-players-2"
    found.members(name, players, PLAYERS + ["links"] if second else PLAYERS)
    found.members(name + " /room", players.get("room", {}), ROOM)
    for index, player in enumerate(players["players"]):
        path = "%s /players/%d" % (name, index)
        found.members(path, player, PLAYER)
        found.members(path + "/options", player.get("options", {}), OPTIONS + ["accessibility"] if second else OPTIONS)
    for index, link in enumerate(players.get("links", []) if second else []):
        found.members("%s /links/%d" % (name, index), link, LINK)


def check_world(found, name, world):
    found.members(name, world, WORLD)
    for table, known in TABLES.items():
        for index, entry in enumerate(world[table]):
            path = "%s /%s/%d" % (name, table, index)
            found.members(path, entry, known)
            found.rule(path + "/rule", entry.get("rule"))
    found.rule(name + " /goal", world["goal"])


class Walk:
    """What a slot comes to with all items of its pool and those that it begins with."""

    def __init__(self, world, start):
        self.world = world
        self.items = dict(start)
        for entry in world["pool"]:
            self.items[entry["item"]] = self.items.get(entry["item"], 0) + entry["count"]
        self.regions = {world.get("origin", "Menu")}
        self.locations = set()
        while self.step():
            pass

    def step(self):
        """Whether something new is reached."""
        before = len(self.regions) + len(self.locations)
        for way in self.world["entrances"]:
            if way["from"] in self.regions and self.holds(way["rule"]):
                self.regions.add(way["to"])
        for place in self.world["locations"]:
            if place["name"] not in self.locations and place["region"] in self.regions and self.holds(place["rule"]):
                self.locations.add(place["name"])
                if place["id"] is None:
                    self.items[place["event"]] = self.items.get(place["event"], 0) + 1
        return len(self.regions) + len(self.locations) > before

    def count(self, name):
        return self.items.get(name, 0)

    def reaches(self, place):
        if "region" in place:
            return place["region"] in self.regions
        return place["location"] in self.locations

    def holds(self, rule):
        if isinstance(rule, bool):
            return rule
        judges = {
            "has": lambda name: self.count(name) >= rule.get("count", 1),
            "has_all": lambda names: all(map(self.count, names)),
            "has_any": lambda names: any(map(self.count, names)),
            "count": lambda names: sum(map(self.count, names)) >= rule["at_least"],
            "can_reach": self.reaches,
            "and": lambda rules: all(map(self.holds, rules)),
            "or": lambda rules: any(map(self.holds, rules)),
        }
        form = form_of(rule)
        return judges[form](rule[form])

    def stop_of(self, place):
        """Why a location isn't reached."""
        if place["region"] in self.regions:
            return "its own rule never holds"
        # Ways into regions from which this one could be come to, that lead out of what is reached.
        wanted, ways = {place["region"]}, []
        for _ in self.world["regions"]:
            wanted |= {way["from"] for way in self.world["entrances"] if way["to"] in wanted and way["from"] not in self.regions}
        for way in self.world["entrances"]:
            if way["to"] in wanted and way["from"] in self.regions:
                ways.append(way["name"])
        return "stopped at %s" % ", ".join(ways) if ways else "no entrance leads to %s" % place["region"]


def check_reach(found, slot, player, world):
    walk = Walk(world, player.get("options", {}).get("start_inventory", {}))
    who = "slot %d %s:" % (slot, player["names"][0])
    for place in world["locations"]:
        if place["name"] not in walk.locations:
            found.add(who, "%s is never reached: %s" % (place["name"], walk.stop_of(place)))
    if not walk.holds(world["goal"]):
        found.add(who, "the goal is never met")


def main(words):
    if len(words) != 1:
        stop(__doc__.strip())
    found = Findings()
    try:
        players, worlds = read_tables(words[0])
        check_players(found, words[0], players)
        for name, world in worlds.items():
            check_world(found, name, world)
        for slot, player in enumerate(players["players"], 1):
            check_reach(found, slot, player, worlds[player["world"]])
    except (KeyError, TypeError, AttributeError, IndexError):
        found.add(words[0], "or a world file lacks a member, or has one of another kind: run reach, which names it")
    for line in found.lines:
        print(line)
    sys.exit(1 if found.lines else 0)


if __name__ == "__main__":
    main(sys.argv[1:])
