"""Writes the two scripts of examples/evening anew: three friends play the seed of its players file to all three goals, each checking what they can reach, over two runs with a crash between.

usage: evening.py SEED FIRST SECOND, from the top of the checkout

SEED is the seed file that examples/evening/play.sh makes; the scripts go to the files FIRST and SECOND.
"""
import os
import sys

sys.path.insert(0, os.path.join(os.path.dirname(os.path.dirname(os.path.abspath(__file__))), "examples/tools"))

from files import SeedNames, read_json, read_tables
from lint import Walk
from play import Script

PLAYERS, PASSWORD = "examples/evening/players.json", "lamplight"
GOAL, NO_PRIORITY = 30, 10


class Hand(Walk):
    """What a slot comes to with the items that it has."""

    def __init__(self, world, items):
        self.world, self.items = world, {}
        for item in items:
            self.items[item] = self.items.get(item, 0) + 1
        self.regions, self.locations = {world.get("origin", "Menu")}, set()
        while self.step():
            pass


class Game:
    """What was found so far, as the players know it."""

    def __init__(self, seed):
        players, worlds = read_tables(PLAYERS)
        self.names = SeedNames(seed)
        self.worlds = [worlds[player["world"]] for player in players["players"]]
        self.held = {(slot, number): (item, receiver) for slot, number, item, receiver, _ in seed["locations"]}
        self.items = [[self.names.item(slot, item) for item, _ in entry["start"]] for slot, entry in enumerate(seed["slots"], 1)]
        self.checked, self.goals = set(), set()

    def hand(self, slot):
        return Hand(self.worlds[slot - 1], self.items[slot - 1])

    def open(self, slot):
        """The numbers of the locations that a slot can reach and hasn't checked."""
        reached = self.hand(slot).locations
        return [place["id"] for place in self.worlds[slot - 1]["locations"] if place["id"] is not None and place["name"] in reached and (slot, place["id"]) not in self.checked]

    def place_of(self, receiver, item):
        """The slot and the location that hold an item for a player."""
        return next(place for place, held in self.held.items() if held[1] == receiver and self.names.item(receiver, held[0]) == item)

    def check(self, slot, numbers):
        for number in numbers:
            if (slot, number) not in self.checked:
                self.checked.add((slot, number))
                item, receiver = self.held[slot, number]
                self.items[receiver - 1].append(self.names.item(receiver, item))

    def won(self, slot):
        return slot not in self.goals and self.hand(slot).holds(self.worlds[slot - 1]["goal"])

    def reach_goal(self, slot):
        """At the goal what a slot's world still holds is released."""
        self.goals.add(slot)
        self.check(slot, [number for finder, number in self.held if finder == slot])

    def left(self):
        return any((slot, number) not in self.checked for slot, number in self.held)


class Run:
    """One run of `drive`: who is connected, and what they do."""

    def __init__(self, game, head):
        self.game = game
        self.script = Script(game.names, PASSWORD, ["DeathLink"])
        self.script.lines += ["# " + line for line in head]

    def note(self, line):
        self.script.lines += ["", "# " + line]

    def join(self, *players):
        for player in players:
            self.script.play(player)
            self.take(player)

    def act(self, who, **packet):
        self.script.play(who)
        self.script.send(**packet)

    def say(self, player, text):
        self.act(player, cmd="Say", text=text)

    def take(self, *players):
        """What these players are owed is printed; without a name, what all are."""
        sessions = self.script.sessions
        for player in players or sorted(sessions, key=sessions.get):
            self.script.take(sessions[player])

    def check(self, player, slot):
        """The player checks all that they can reach."""
        numbers = self.game.open(slot)
        if numbers:
            self.act(player, cmd="LocationChecks", locations=numbers)
            self.game.check(slot, numbers)
            self.take()
        return numbers

    def write(self, name):
        with open(name, "w", encoding="utf-8") as file:
            file.write("\n".join(self.script.lines) + "\n")


def first_run(game):
    run = Run(game, ["The first half of an evening: Mia, Jon and Ada join, look around, and play until the machine goes down.",
                     "examples/evening/play.sh runs it, and bench/evening.py wrote it."])
    run.note("Mia mistypes the password, and then doesn't.")
    run.script.password = "lamplihgt"
    run.join("Mia")
    run.script.password = PASSWORD
    del run.script.sessions["Mia"]
    run.script.lines.append("lost 1")
    run.join("Mia", "Jon", "Ada")
    run.note("They greet one another, and see who is there.")
    run.say("Mia", "good evening, you two")
    run.say("Jon", "hello from the other island")
    run.say("Ada", "!players")
    run.take()
    run.note("Ada keeps an eye on a counter that Mia raises by 2, and then halves.")
    run.act("Ada", cmd="SetNotify", keys=["bells"])
    run.act("Mia", cmd="Set", key="bells", default=0, want_reply=True, operations=[{"operation": "add", "value": 2}])
    run.act("Mia", cmd="Set", key="bells", default=0, want_reply=False, operations=[{"operation": "right_shift", "value": 1}])
    run.act("Jon", cmd="Get", keys=["bells"])
    run.take()
    run.note("Each checks what they can reach.")
    for slot, player in enumerate(("Mia", "Jon", "Ada"), 1):
        run.check(player, slot)
    run.note("Mia buys a hint of her Rope, and Ada one of what her Cuckoo holds. Jon buys three, and asks for one that is there already and for one that he can't pay.")
    run.say("Mia", "!hint Rope")
    run.say("Ada", "!hint_location Cuckoo")
    for item in ("Rope", "Rope", "Diving Bell", "Oil Can", "Oil Can"):
        run.say("Jon", "!hint " + item)
    run.say("Jon", "!hint")
    run.take()
    run.note("Jon can wait for his Diving Bell: he gives its hint another status.")
    finder, location = game.place_of(2, "Diving Bell")
    run.act("Jon", cmd="UpdateHint", player=finder, location=location, status=NO_PRIORITY)
    run.script.hints()
    run.take()
    run.note("Jon scouts his Gallery, which makes a hint for who receives what lies there.")
    run.act("Jon", cmd="LocationScouts", locations=[119], create_as_hint=2)
    run.take()
    run.note("Jon falls off a cliff: all who have the tag DeathLink hear of it.")
    run.act("Jon", cmd="Bounce", tags=["DeathLink"], data={"time": 0, "source": "Jon", "cause": "Jon fell off a cliff"})
    run.take()
    run.note("Jon's connection breaks. The others go on, and when he is back he is told all that came for him.")
    run.script.play("Jon")
    run.script.lost()
    for player, slot in (("Ada", 3), ("Mia", 1)):
        run.check(player, slot)
    run.join("Jon")
    run.act("Jon", cmd="Sync")
    run.take()
    for slot, player in ((2, "Jon"), (3, "Ada")):
        run.check(player, slot)
    run.note("Mia checks once more. Before anybody is told the machine goes down, so it isn't kept.")
    lost = game.open(1)
    if not lost:
        sys.exit("Mia has nothing left to check before the crash: take another seed")
    run.act("Mia", cmd="LocationChecks", locations=lost)
    run.script.lines.append("crash")
    return run, lost


def second_run(game, lost):
    run = Run(game, ["The second half, on the journal that the first one left. examples/evening/play.sh runs it, and bench/evening.py wrote it."])
    run.note("All are back, and get their lists. What Mia checked last is missing, so her client sends it again.")
    run.join("Mia", "Jon", "Ada")
    run.act("Mia", cmd="LocationChecks", locations=lost)
    game.check(1, lost)
    run.take()
    run.note("Hints and the counter are still there.")
    run.script.play("Ada")
    run.script.hints()
    run.act("Ada", cmd="Get", keys=["bells"])
    run.take()
    run.note("Each goes on with what they can reach. Who has reached the goal says so at once, and what their world still holds is released by itself.")
    for _ in range(30):
        found = 0
        for slot, player in enumerate(("Mia", "Jon", "Ada"), 1):
            if slot not in game.goals and not game.won(slot):
                found += len(run.check(player, slot))
            elif game.won(slot):
                run.note("%s has reached the goal." % player)
                run.act(player, cmd="StatusUpdate", status=GOAL)
                game.reach_goal(slot)
                if len(game.goals) == 1:
                    run.say(player, "!remaining")
                run.take()
                found += 1
        if not found:
            break
    if len(game.goals) != 3 or game.left():
        sys.exit("they don't come to the end: take another seed")
    run.note("Each is told how all stand, and the last thing is kept too.")
    for player in ("Mia", "Jon", "Ada"):
        run.act(player, cmd="Get", keys=["_read_client_status_0_%d" % slot for slot in (1, 2, 3)])
        run.say(player, "!missing")
        run.script.hints()
    run.say("Mia", "good night")
    run.take()
    run.script.lines.append("commit")
    return run


def main(words):
    if len(words) != 3:
        sys.exit(__doc__.strip())
    game = Game(read_json(words[0]))
    first, lost = first_run(game)
    first.write(words[1])
    second_run(game, lost).write(words[2])


if __name__ == "__main__":
    main(sys.argv[1:])
