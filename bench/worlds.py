"""Writes the worlds that the benches of the generator share into a folder, each with its players files. With --deep the deep worlds too."""
import json
import random
import sys

folder = sys.argv[1]


def write(name, value):
    with open(folder + "/" + name, "w") as f:
        json.dump(value, f, separators=(",", ":"))


def world(game, regions, items, entrances, locations, pool):
    """A world whose goal is the first key; what is left is filled with coins."""
    last = len(items)
    items = items + [{"name": "Gem", "id": last + 1, "class": "useful"}, {"name": "Coin", "id": last + 2, "class": "filler"}]
    return {"format": "mw-world-1", "game": game, "regions": regions, "items": items, "entrances": entrances,
            "locations": locations, "pool": pool, "filler": "Coin", "goal": {"has": "Key 1"}}


def keys(count):
    return [{"name": "Key %d" % k, "id": k, "class": "progression"} for k in range(1, count + 1)]


def one_each(count):
    return [{"item": "Key %d" % k, "count": 1} for k in range(1, count + 1)]


def regions_world(game, places, count):
    """A chain of regions of nine locations each; every way but the first five wants a key."""
    names = ["Menu"] + ["R%d" % r for r in range(1, places // 10)]
    entrances = [{"name": "To %s" % names[r], "from": names[r - 1], "to": names[r], "rule": True if r <= 5 else {"has": "Key %d" % (r % count + 1)}}
                 for r in range(1, len(names))]
    locations = [{"name": "L%d" % n, "id": n + 1, "region": names[n // 9], "rule": True} for n in range(len(names) * 9)]
    return world(game, names, keys(count), entrances, locations, one_each(count) + [{"item": "Gem", "count": count}])


def chain_world(game, count):
    """A chain of keys: the way into each region names its own key, and each region has one location; the first one has room for all keys."""
    names = ["Menu"] + ["R%d" % r for r in range(1, count + 1)]
    entrances = [{"name": "To %s" % names[r], "from": names[r - 1], "to": names[r], "rule": {"has": "Key %d" % r}} for r in range(1, count + 1)]
    homes = names + ["Menu"] * count
    locations = [{"name": "L%d" % n, "id": n + 1, "region": homes[n], "rule": True} for n in range(len(homes))]
    return world(game, names, keys(count), entrances, locations, one_each(count))


def last_world(game, count):
    """A chain of regions without a rule between them, in each of which a way with its own key leads on to a dead end: all free locations are in the last region of the chain, so each list walks the
    whole chain."""
    names = ["Menu"] + ["R%d" % r for r in range(1, count + 1)] + ["End %d" % r for r in range(1, count + 1)]
    entrances = [{"name": "To R%d" % r, "from": names[r - 1], "to": names[r], "rule": {"can_reach": {"region": names[r - 1]}}} for r in range(1, count + 1)]
    entrances += [{"name": "To End %d" % r, "from": names[r], "to": "End %d" % r, "rule": {"has": "Key %d" % r}} for r in range(1, count + 1)]
    locations = [{"name": "L%d" % n, "id": n + 1, "region": names[count], "rule": True} for n in range(2 * count)]
    return world(game, names, keys(count), entrances, locations, one_each(count))


def deep_world(game, places, gates, number):
    """A chain of regions of nine locations each. One way in so many wants a key, and so does every other location: one of as many keys as go with the chain so far. What a key opens holds keys that open
    more, so many spheres follow one another, and without one key much of what lies behind is out of reach. Worlds of different numbers want different keys."""
    draw = random.Random(number)
    names = ["Menu"] + ["R%d" % r for r in range(1, places // 10)]
    count = places // 5

    def key(region):
        return {"has": "Key %d" % (draw.randrange(region * count // len(names)) + 1)}

    entrances = [{"name": "To %s" % names[r], "from": names[r - 1], "to": names[r], "rule": key(r) if r > 5 and draw.randrange(gates) == 0 else True} for r in range(1, len(names))]
    locations = [{"name": "L%d" % n, "id": n + 1, "region": names[n // 9], "rule": key(n // 9) if n // 9 > 5 and n % 2 == 1 else True} for n in range(len(names) * 9)]
    return world(game, names, keys(count), entrances, locations, one_each(count) + [{"item": "Gem", "count": count}])


worlds = {
    "small": regions_world("small", 2000, 400),
    "large": regions_world("large", 10000, 2000),
    "chain": chain_world("chain", 1000),
    "long_chain": chain_world("long_chain", 4000),
    "last": last_world("last", 1000),
}
# Lists of players: the world of each.
several = {name: [name] for name in worlds}
several.update({"huge": ["large"] * 5, "limit": ["large"] * 20})
if "--deep" in sys.argv:
    worlds.update({"thousand": deep_world("thousand", 1000, 50, 0), "five": deep_world("five", 5000, 10, 0), "ten": deep_world("ten", 10000, 5, 0)})
    worlds.update({"apart%d" % n: deep_world("apart%d" % n, 1000, 14, n) for n in range(1, 51)})
    several.update({"deep_thousand": ["thousand"] * 50, "deep_apart": ["apart%d" % n for n in range(1, 51)], "deep_five": ["five"] * 10, "deep_ten": ["ten"] * 5, "deep_biggest": ["ten"] * 20})
for name, value in worlds.items():
    write(name + "_world.json", value)


def plain(players):
    """The same for plain_taking_out.rs: how many places, keys and players there are, the place where each player begins, and each step: from, to, the key's number or -1, and whether it leads to a location."""
    lines, place, first_key = [], 0, 0
    for name in players:
        value = worlds[name]
        at = {region: place + r for r, region in enumerate(value["regions"])}
        lines.append("%d" % place)
        to_location = place + len(at)
        for step in value["entrances"]:
            lines.append("%d %d %d 0" % (at[step["from"]], at[step["to"]], key_number(step["rule"], first_key)))
        for number, step in enumerate(value["locations"]):
            lines.append("%d %d %d 1" % (at[step["region"]], to_location + number, key_number(step["rule"], first_key)))
        place = to_location + len(value["locations"])
        first_key += len(value["pool"]) - 1
    return "%d %d %d\n" % (place, first_key, len(players)) + "\n".join(lines) + "\n"


def key_number(rule, first):
    return -1 if rule is True else first + int(rule["has"].split()[1]) - 1


for name, players in several.items():
    if name.startswith("deep"):
        with open("%s/%s.plain" % (folder, name), "w") as f:
            f.write(plain(players))
    write(name + ".json", {"format": "mw-players-1", "players": [{"names": ["P%d" % p], "world": "%s/%s_world.json" % (folder, of)} for p, of in enumerate(players, 1)]})
if "--deep" in sys.argv:
    # The 50 slots of one world once more: ten links of five slots, each with 20 keys, and every third slot wants no more than its goal.
    players = [{"names": ["P%d" % p], "world": folder + "/thousand_world.json", "options": {"accessibility": "minimal" if p % 3 == 0 else "items"}} for p in range(1, 51)]
    links = [{"name": "Link %d" % (n + 1), "members": list(range(5 * n + 1, 5 * n + 6)), "items": ["Key %d" % (10 * k + n + 1) for k in range(20)]} for n in range(10)]
    write("deep_linked.json", {"format": "mw-players-2", "players": players, "links": links})
