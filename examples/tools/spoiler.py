"""Tells everything: what lies where, by sphere and by player, with names.

usage: spoiler.py PLAYERS SEED

PLAYERS is a players file, whose world files are read from the folder in which the tool runs, and SEED the seed
file that `generate` made of it.
"""
import sys

from files import SeedNames, read_json, read_tables, stop

CLASSES = {0: "filler", 1: "progression", 2: "useful", 4: "trap"}


def owned(names, finder, receiver, item):
    """An item, with its receiver where that isn't who finds it; a group's is never the finder's alone."""
    if receiver == finder:
        return item
    whose = names.player(receiver)
    return whose + ("' " if whose.endswith("s") else "'s ") + item


def spot_line(names, worlds, held, slot, index):
    """A location of a sphere: who finds there what."""
    location = worlds[slot - 1]["locations"][index]
    if location["id"] is None:
        item = location["event"]
    else:
        number, receiver = held[slot, location["id"]]
        item = owned(names, slot, receiver, names.item(receiver, number))
    return "  %s, %s: %s" % (names.player(slot), location["name"], item)


def tell_spheres(names, worlds, held, spheres):
    print("By sphere: what rules may ask for, in the order in which it can be found")
    for number, sphere in enumerate(spheres, 1):
        print("sphere %d" % number)
        for slot, index in sphere:
            print(spot_line(names, worlds, held, slot, index))


def tell_start(names, slot, start):
    counts = {}
    for item, _ in start:
        name = names.item(slot, item)
        counts[name] = counts.get(name, 0) + 1
    if counts:
        print("  begins with %s" % ", ".join("%d %s" % (count, name) for name, count in counts.items()))


def tell_slot(names, slot, entry, entries):
    print("%s (%s)" % (" / ".join(entry["names"]), entry["game"]))
    tell_start(names, slot, entry["start"])
    for _, location, item, receiver, flags in entries:
        told = owned(names, slot, receiver, names.item(receiver, item))
        print("  %s: %s, %s" % (names.location(slot, location), told, CLASSES[flags]))


def tell_players(names, seed):
    print("By player: what lies in each world")
    entries = {}
    for held in seed["locations"]:
        entries.setdefault(held[0], []).append(held)
    for slot, entry in enumerate(seed["slots"], 1):
        tell_slot(names, slot, entry, entries.get(slot, []))


def tell_owners(names, seed):
    print("By receiver: where each player's items lie in other worlds")
    for slot, entry in enumerate(seed["slots"], 1):
        print(" / ".join(entry["names"]))
        for finder, location, item, receiver, _ in seed["locations"]:
            if names.owns(slot, receiver) and finder != slot:
                print("  %s: %s, %s" % (names.item(slot, item), names.player(finder), names.location(finder, location)))


def main(words):
    if len(words) != 2:
        stop(__doc__.strip())
    players, files = read_tables(words[0])
    seed = read_json(words[1])
    worlds = [files[player["world"]] for player in players["players"]]
    names = SeedNames(seed)
    if [world["game"] for world in worlds] != [entry["game"] for entry in seed["slots"]]:
        stop("the seed file isn't of these players: check tells where they differ")
    held = {(slot, location): (item, receiver) for slot, location, item, receiver, _ in seed["locations"]}
    try:
        tell_spheres(names, worlds, held, seed["spheres"])
    except (KeyError, IndexError):
        stop("the seed file isn't of these worlds: check tells where they differ")
    print()
    tell_players(names, seed)
    print()
    tell_owners(names, seed)


if __name__ == "__main__":
    main(sys.argv[1:])
