"""Writes a script for `drive`: players connect, check locations, talk, and take what they are owed.

usage: play.py SEED [--password TEXT] [--silent] NAME STEP ..

NAME is a player's name in the seed file SEED. The steps, one after the other:

  check LOCATION    the player checks a location of their own, by its name or its number
  say TEXT          the player says something; a text that begins with ! is a command
  hint ITEM         the same as: say "!hint ITEM"
  hints             the player reads all hints that concern them
  goal              the player has reached the goal
  sync              the player asks for the whole list of items
  take              what the player is owed is printed
  lost              the player's connection breaks
  as NAME           the steps that follow are another player's, who connects first

What was owed and not taken is taken at the end. With --silent nobody hears chat and other prints.
"""
import json
import sys

from files import SeedNames, read_json, stop

VERSION = {"class": "Version", "major": 0, "minor": 5, "build": 0}


class Script:
    """The lines of a script, and who plays in which session."""

    def __init__(self, names, password, tags):
        self.names = names
        self.password = password
        self.tags = tags
        self.lines = []
        self.sessions = {}
        self.untaken = set()
        self.opened = 0
        self.player = None

    def send(self, **packet):
        session = self.sessions[self.player]
        text = json.dumps([packet], ensure_ascii=False, separators=(",", ":"))
        self.lines.append("text %d %s" % (session, text))
        self.untaken.update(self.sessions.values())

    def play(self, player):
        """The player connects, unless they did before."""
        found = self.names.find(player)
        if found is None:
            stop("no player has the name %s" % player)
        self.player = player
        if player in self.sessions:
            return
        self.opened += 1
        self.sessions[player] = self.opened
        self.lines.append("open")
        connect = {"cmd": "Connect", "game": self.names.game(found[1]), "name": player, "items_handling": 7}
        if self.password is not None:
            connect["password"] = self.password
        self.send(**connect, tags=self.tags, version=VERSION)

    def check(self, location):
        game = self.names.game(self.names.find(self.player)[1])
        number = self.names.location_ids[game].get(location)
        if number is None and location.isdigit():
            number = int(location)
        if number is None:
            stop("%s has no location %s" % (game, location))
        self.send(cmd="LocationChecks", locations=[number])

    def hints(self):
        self.send(cmd="Get", keys=["_read_hints_%d_%d" % self.names.find(self.player)])

    def take(self, session):
        self.lines.append("take %d" % session)
        self.untaken.discard(session)

    def lost(self):
        session = self.sessions.pop(self.player)
        self.lines.append("lost %d" % session)
        self.untaken.discard(session)

    def end(self):
        for session in sorted(self.untaken):
            self.take(session)


STEPS = {
    "check": lambda script, word: script.check(word),
    "say": lambda script, word: script.send(cmd="Say", text=word),
    "hint": lambda script, word: script.send(cmd="Say", text="!hint " + word),
    "as": lambda script, word: script.play(word),
}

WORDLESS = {
    "goal": lambda script: script.send(cmd="StatusUpdate", status=30),
    "hints": lambda script: script.hints(),
    "sync": lambda script: script.send(cmd="Sync"),
    "take": lambda script: script.take(script.sessions[script.player]),
    "lost": lambda script: script.lost(),
}


def run_steps(script, words):
    words = list(words)
    while words:
        step = words.pop(0)
        if step != "as" and script.player not in script.sessions:
            stop("%s is no longer connected: as NAME connects a player" % script.player)
        if step in WORDLESS:
            WORDLESS[step](script)
        elif step in STEPS and words:
            STEPS[step](script, words.pop(0))
        elif step in STEPS:
            stop("%s wants a word behind it" % step)
        else:
            stop("no step is called %s" % step)


def main(words):
    password, tags = None, []
    plain = []
    while words:
        word = words.pop(0)
        if word == "--password" and words:
            password = words.pop(0)
        elif word == "--silent":
            tags = ["NoText"]
        else:
            plain.append(word)
            if len(plain) == 2:
                break
    if len(plain) < 2:
        stop(__doc__.strip())
    script = Script(SeedNames(read_json(plain[0])), password, tags)
    script.play(plain[1])
    run_steps(script, words)
    script.end()
    print("\n".join(script.lines))


if __name__ == "__main__":
    main(sys.argv[1:])
