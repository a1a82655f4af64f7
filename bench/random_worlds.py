"""Compares `generate` of the built program with a plain fill, step by step, on small random worlds: of each number one for a players file of the first form, and one for a file of the second form, with
links and with each accessibility.

usage: random_worlds.py PROGRAM COUNT [SEED]
The plain fill makes each list of places anew from nothing, for each copy in turn."""
import json, os, random, struct, subprocess, sys, tempfile

program, count = sys.argv[1], int(sys.argv[2])
first = int(sys.argv[3]) if len(sys.argv) > 3 else 0


# ---- the words of ChaCha20
def chacha_words(seed, stream):
    key = list(struct.unpack("<8I", struct.pack("<Q", seed) + bytes(24)))
    counter = 0
    while True:
        state = [0x61707865, 0x3320646e, 0x79622d32, 0x6b206574] + key + [counter & 0xffffffff, counter >> 32, stream & 0xffffffff, stream >> 32]
        x = state[:]

        def quarter(a, b, c, d):
            for p, q, r, n in ((a, b, d, 16), (c, d, b, 12), (a, b, d, 8), (c, d, b, 7)):
                x[p] = (x[p] + x[q]) & 0xffffffff
                v = x[r] ^ x[p]
                x[r] = ((v << n) | (v >> (32 - n))) & 0xffffffff

        for _ in range(10):
            for i in range(4):
                quarter(i, i + 4, i + 8, i + 12)
            quarter(0, 5, 10, 15), quarter(1, 6, 11, 12), quarter(2, 7, 8, 13), quarter(3, 4, 9, 14)
        for a, b in zip(x, state):
            yield (a + b) & 0xffffffff
        counter += 1


def shuffle(words, entries):
    for i in range(len(entries) - 1, 0, -1):
        j = (next(words) * (i + 1)) >> 32
        entries[i], entries[j] = entries[j], entries[i]


# ---- random worlds
def rule(r, keys, regions, locations, depth=0):
    form = r.randrange(10 if depth < 2 else 7)
    some = lambda: r.sample(keys, r.randrange(1, min(3, len(keys)) + 1))
    if form <= 1:
        return True
    if form == 2:
        return {"has": r.choice(keys)}
    if form == 3:
        return {"has": r.choice(keys), "count": r.randrange(1, 3)}
    if form == 4:
        return {r.choice(["has_all", "has_any"]): some()}
    if form == 5:
        return {"count": some(), "at_least": r.randrange(1, 4)}
    if form == 6:
        return {"can_reach": {"region": r.choice(regions)}} if r.random() < 0.5 else {"can_reach": {"location": r.choice(locations)}}
    return {r.choice(["and", "or"]): [rule(r, keys, regions, locations, depth + 1) for _ in range(r.randrange(0, 3))]}


def world(r, game):
    regions = ["Menu"] + ["R%d" % i for i in range(1, r.randrange(2, 7))]
    keys = ["Key %d" % i for i in range(1, r.randrange(3, 8))]
    items = [{"name": k, "id": i + 1, "class": "progression"} for i, k in enumerate(keys)]
    items += [{"name": "Gem", "id": 101, "class": "useful"}, {"name": "Coin", "id": 102, "class": "filler"}, {"name": "Bomb", "id": 103, "class": "trap"}]
    events = ["Event %d" % i for i in range(r.randrange(0, 3))]
    items += [{"name": e, "id": None, "class": "progression"} for e in events]
    names = ["L%d" % i for i in range(r.randrange(8, 20))]
    asked = keys + events
    locations = []
    for i, name in enumerate(names):
        l = {"name": name, "id": i + 1, "region": r.choice(regions), "rule": True if r.random() < 0.5 else rule(r, asked, regions, names)}
        if r.random() < 0.2:
            l["kind"] = r.choice(["priority", "excluded", "default"])
        locations.append(l)
    for e in events:
        names.append("At " + e)
        locations.insert(r.randrange(len(locations) + 1), {"name": "At " + e, "id": None, "event": e, "region": r.choice(regions), "rule": rule(r, asked, regions, names[:1])})
    entrances = []
    for i in range(1, len(regions)):
        entrances.append({"name": "E%d" % i, "from": regions[r.randrange(i)], "to": regions[i], "rule": rule(r, asked, regions, names)})
    for i in range(r.randrange(3)):
        entrances.append({"name": "X%d" % i, "from": r.choice(regions), "to": r.choice(regions), "rule": rule(r, asked, regions, names)})
    pool = [{"item": k, "count": r.choice([1, 1, 1, 2])} for k in keys] + [{"item": "Gem", "count": r.randrange(1, 3)}, {"item": "Bomb", "count": 1}]
    r.shuffle(pool)
    return {"format": "mw-world-1", "game": game, "regions": regions, "items": items, "entrances": entrances, "locations": locations, "pool": pool, "filler": "Coin", "goal": rule(r, asked, regions, names)}


def options(r, w):
    keys = [i["name"] for i in w["items"] if i["id"] is not None]
    places = [l["name"] for l in w["locations"] if l["id"] is not None]
    o = {}
    if r.random() < 0.4:
        o["local_items"] = r.sample(keys, 1)
    if r.random() < 0.4:
        o["non_local_items"] = r.sample(keys, 1)
    if r.random() < 0.4:
        o["exclude_locations"] = r.sample(places, 2)
    if r.random() < 0.4:
        o["priority_locations"] = r.sample(places, 2)
    if r.random() < 0.3:
        o["start_inventory"] = {r.choice(keys): 1}
    return o


def links(r, games, worlds):
    """One to three links, each of some players of one game; their items may come again, also ones of which no copy is left."""
    found = []
    shared = [g for g in set(games) if games.count(g) > 1]
    for n in range(r.randrange(1, 4)):
        game = r.choice(sorted(shared))
        players = [s for s, g in enumerate(games) if g == game]
        members = sorted(r.sample(players, r.randrange(2, len(players) + 1)))
        names = [i["name"] for i in worlds[members[0]]["items"] if i["id"] is not None]
        found.append({"name": "Link %d" % (n + 1), "members": [s + 1 for s in members], "items": [r.choice(names) for _ in range(r.randrange(0, 4))]})
    return found


# ---- the plain fill
def holds(rule, bag, reached, s):
    if rule is True or rule is False:
        return rule
    if "has" in rule:
        return bag.get((s, rule["has"]), 0) >= rule.get("count", 1)
    if "has_all" in rule:
        return all(bag.get((s, i), 0) for i in rule["has_all"])
    if "has_any" in rule:
        return any(bag.get((s, i), 0) for i in rule["has_any"])
    if "count" in rule:
        return sum(bag.get((s, i), 0) for i in rule["count"]) >= rule["at_least"]
    if "can_reach" in rule:
        (kind, name), = rule["can_reach"].items()
        return (s, kind, name) in reached
    if "and" in rule:
        return all(holds(x, bag, reached, s) for x in rule["and"])
    return any(holds(x, bag, reached, s) for x in rule["or"])


def reach(worlds, base, placed, owners):
    reached, bag = {(s, "region", "Menu") for s in range(len(worlds))}, dict(base)
    going = True
    while going:
        going = False
        for s, w in enumerate(worlds):
            steps = [(e["from"], ("region", e["to"]), e["rule"]) for e in w["entrances"]] + [(l["region"], ("location", l["name"]), l["rule"]) for l in w["locations"]]
            for start, to, ask in steps:
                place = (s,) + to
                if place not in reached and (s, "region", start) in reached and holds(ask, bag, reached, s):
                    reached.add(place)
                    going = True
                    for receiver, item in placed.get(place, []):
                        for owner in owners[receiver]:
                            bag[(owner, item)] = bag.get((owner, item), 0) + 1
    return reached, bag


def shared_copies(worlds, links):
    """The copies of each slot's pool that links leave, and of each link, by item: the last copies leave the pools."""
    pools = [[e["item"] for e in w["pool"] for _ in range(e["count"])] for w in worlds]
    taken = []
    for link in links:
        members, copies = [m - 1 for m in link["members"]], []
        for item in link["items"]:
            n = min(pools[s].count(item) for s in members)
            copies += [item] * n
            for s in members:
                for _ in range(n):
                    del pools[s][len(pools[s]) - 1 - pools[s][::-1].index(item)]
        taken.append(copies)
    return pools, taken


def plain(worlds, opts, links, seed, tries):
    many = len(worlds) > 1
    access = [o.get("accessibility", "items") for o in opts]
    owners = [[s] for s in range(len(worlds))] + [[m - 1 for m in link["members"]] for link in links]
    classes = [{i["name"]: i["class"] for i in w["items"]} for w in worlds]
    start, events = {}, {}
    for s, w in enumerate(worlds):
        for item, n in opts[s].get("start_inventory", {}).items():
            start[(s, item)] = start.get((s, item), 0) + n
        for l in w["locations"]:
            if l["id"] is None:
                events[(s, "location", l["name"])] = [(s, l["event"])]
    pools, taken = shared_copies(worlds, links)

    def add(bag, copy):
        for s in owners[copy[0]]:
            bag[(s, copy[1])] = bag.get((s, copy[1]), 0) + 1

    def lost_goal(reached, bag):
        return next((s for s, w in enumerate(worlds) if not holds(w["goal"], bag, reached, s)), None)

    def lost_place(reached):
        return next(((s, n) for s, w in enumerate(worlds) if access[s] == "full" for n, l in enumerate(w["locations"]) if (s, "location", l["name"]) not in reached), None)

    copies, openings = {"progression": [], "useful": [], "rest": []}, []
    for receiver, entries in enumerate(pools + taken):
        for item in entries:
            group = classes[owners[receiver][0]][item]
            copies[group if group in copies else "rest"].append((receiver, item))
    everything = dict(start)
    for group in copies.values():
        for copy in group:
            add(everything, copy)
    placed_events = {k: list(v) for k, v in events.items()}
    reached, bag = reach(worlds, everything, placed_events, owners)
    slot = lost_goal(reached, bag)
    if slot is not None:
        return "not beatable: slot %d" % (slot + 1)
    lost = lost_place(reached)
    if lost is not None:
        return "not full: slot %d location %d" % (lost[0] + 1, lost[1])
    for s, w in enumerate(worlds):
        for l in w["locations"]:
            if l["id"] is not None:
                kind = l.get("kind", "default")
                if l["name"] in opts[s].get("exclude_locations", []) or kind == "excluded":
                    kind = "excluded"
                elif l["name"] in opts[s].get("priority_locations", []) or kind == "priority":
                    kind = "priority"
                openings.append((s, l["name"], kind))
    have = sum(len(c) for c in copies.values())
    if have > len(openings):
        return "too many items: %d for %d places" % (have, len(openings))

    def accepts(copy, opening):
        s, item = copy
        if not many or s >= len(worlds):
            return True
        if item in opts[s].get("local_items", []):
            return opening[0] == s
        if item in opts[s].get("non_local_items", []):
            return opening[0] != s
        return True

    for stream in range(tries):
        words = chacha_words(seed, stream)
        asked, places, helping, filling = list(copies["progression"]), list(openings), list(copies["useful"]), list(copies["rest"])
        for entries in (asked, places, helping, filling):
            shuffle(words, entries)
        by_kind = lambda *kinds: [o for k in kinds for o in places if o[2] == k]
        held, placed = {}, {k: list(v) for k, v in events.items()}

        def put(copy, among, test):
            for o in among:
                if (o[0], o[1]) not in held and accepts(copy, o) and test(o):
                    held[(o[0], o[1])] = copy
                    return o
            return None

        stuck = False
        for k, copy in enumerate(asked):
            base = dict(start)
            for later in asked[k + 1:]:
                add(base, later)
            reached, bag = reach(worlds, base, placed, owners)
            is_sure = lost_goal(reached, bag) is None and lost_place(reached) is None
            may_miss = is_sure and all(access[s] == "minimal" for s in owners[copy[0]])
            o = put(copy, by_kind("priority", "default"), lambda o: (o[0], "location", o[1]) in reached or (may_miss and access[o[0]] == "minimal"))
            if o is None:
                stuck = True
                break
            placed.setdefault((o[0], "location", o[1]), []).append(copy)
        if not stuck:
            stuck = any(put(c, by_kind("priority", "default"), lambda o: True) is None for c in helping)
        if not stuck:
            stuck = any(put(c, by_kind("excluded", "priority", "default"), lambda o: True) is None for c in filling)
        if stuck:
            continue
        found = []
        for s, w in enumerate(worlds):
            for l in w["locations"]:
                if l["id"] is not None:
                    receiver, item = held.get((s, l["name"]), (s, w["filler"]))
                    ids = {i["name"]: i["id"] for i in worlds[owners[receiver][0]]["items"]}
                    found.append([s + 1, l["id"], ids[item], receiver + 1])
        return stream, found
    return "exhausted after %d tries" % tries


def compare(folder, n, worlds, opts, links, seed):
    """Runs the program on these players and compares what came with the plain fill: what kind of answer is due, and whether it came."""
    for s, w in enumerate(worlds):
        json.dump(w, open("%s/w%d.json" % (folder, s), "w"))
    games = [w["game"] for w in worlds]
    players = [{"names": ["P%d" % (s + 1)], "world": "%s/w%d.json" % (folder, games.index(w["game"])), "options": opts[s]} for s, w in enumerate(worlds)]
    file = {"format": "mw-players-1", "players": players} if links is None else {"format": "mw-players-2", "players": players, "links": links}
    json.dump(file, open(folder + "/players.json", "w"))
    out = folder + "/seed.json"
    if os.path.exists(out):
        os.remove(out)
    run = subprocess.run([program, "generate", folder + "/players.json", out, "--seed", str(seed), "--tries", "20"], stdout=subprocess.PIPE, stderr=subprocess.PIPE, text=True)
    expected = plain(worlds, opts, links or [], seed, 20)
    line = (run.stdout or run.stderr).split("\n")[0]
    if isinstance(expected, str):
        kind, same = expected.split(":")[0].split(" after")[0], line == expected
    else:
        kind = "seed"
        same = line.startswith("seed %d try %d " % (seed, expected[0]))
        if same:
            made = json.load(open(out))
            same = sorted(l[:4] for l in made["locations"]) == sorted(expected[1]) and [g["members"] for g in made.get("groups", [])] == [link["members"] for link in links or []]
        if same:
            again = subprocess.run([program, "check", folder + "/players.json", out], stdout=subprocess.PIPE, text=True)
            same = again.returncode == 0
    if not same:
        print("world %d%s differs: %r, status %d, expected %s" % (n, "" if links is None else " with links", line, run.returncode, str(expected)[:200]))
    return kind, same


tally = {}
with tempfile.TemporaryDirectory() as folder:
    for n in range(first, first + count):
        r = random.Random(n)
        worlds = [world(r, "G%d" % s) for s in range(r.randrange(1, 4))]
        opts = [options(r, w) for w in worlds]
        answer = compare(folder, n, worlds, opts, None, r.randrange(2 ** 63))
        tally[("first form",) + answer] = tally.get(("first form",) + answer, 0) + 1
        # two to four players of one or two games, of which one has several players
        made = [world(r, "G0"), world(r, "G1")]
        numbers = [0, 0] + [r.randrange(2) for _ in range(r.randrange(3))]
        r.shuffle(numbers)
        worlds = [made[g] for g in numbers]
        opts = [dict(options(r, w), accessibility=r.choice(["full", "items", "items", "minimal", "minimal"])) for w in worlds]
        answer = compare(folder, n, worlds, opts, links(r, numbers, worlds), r.randrange(2 ** 63))
        tally[("second form",) + answer] = tally.get(("second form",) + answer, 0) + 1
for kind, times in sorted(tally.items()):
    print(*kind, times)
