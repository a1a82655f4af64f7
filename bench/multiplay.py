"""What bench/multiplay.sh does: a room, two clients that keep their items, and kills.

usage: multiplay.py MULTIWORLD MULTIPLAY FOLDER KILLS
"""
import json
import os
import random
import socket
import struct
import subprocess
import sys
import time

PROGRAM, CLIENT, FOLDER = sys.argv[1:4]
KILLS = int(sys.argv[4])
HOST = "127.0.0.1"
PLAYERS, LOCATIONS = 2, 400
MANY_TURNS = 1000000
# The first message is the RoomInfo, and the second one has the Connected and the whole list behind it.
TURNS_TO_CONNECT = 2


def path(name):
    return os.path.join(FOLDER, name)


def make_room():
    """A seed file of two players of one world, whose items are shuffled over both, and its journal."""
    with open(path("world.json"), "w", encoding="utf-8") as file:
        json.dump({"format": "mw-world-1", "game": "G", "regions": ["Menu"], "entrances": [], "filler": "Coin", "goal": True,
                   "items": [{"name": "Gem", "id": 1, "class": "useful"}, {"name": "Coin", "id": 2, "class": "filler"}],
                   "locations": [{"name": "L%d" % n, "id": n, "region": "Menu", "rule": True} for n in range(1, LOCATIONS + 1)],
                   "pool": [{"item": "Gem", "count": LOCATIONS // 2}]}, file)
    players = [{"names": ["P%d" % slot], "world": path("world.json")} for slot in range(1, PLAYERS + 1)]
    with open(path("players.json"), "w", encoding="utf-8") as file:
        json.dump({"format": "mw-players-1", "players": players}, file)
    subprocess.run([PROGRAM, "generate", path("players.json"), path("seed.json"), "--seed", "7"], check=True, stdout=subprocess.DEVNULL)
    subprocess.run([PROGRAM, "new-room", path("seed.json"), path("room.journal")], check=True, stdout=subprocess.DEVNULL)


def free_port():
    with socket.socket() as found:
        found.bind((HOST, 0))
        return found.getsockname()[1]


def start_server(port):
    """A server that listens, once it does."""
    server = subprocess.Popen([PROGRAM, "serve", path("seed.json"), path("room.journal"), "--bind", "%s:%d" % (HOST, port)], stdin=subprocess.DEVNULL)
    for _ in range(500):
        try:
            socket.create_connection((HOST, port), 1).close()
            return server
        except OSError:
            time.sleep(0.01)
    server.kill()
    raise SystemExit("the server doesn't listen")


def start_client(port, slot, turns, ids):
    """A client of a slot that sends these checks."""
    words = [CLIENT, "%s:%d" % (HOST, port), "P%d" % slot, "G", path("save%d" % slot), str(turns)]
    client = subprocess.Popen(words, stdin=subprocess.PIPE, stdout=subprocess.PIPE, stderr=subprocess.PIPE)
    try:
        client.stdin.write("".join("%d\n" % number for number in ids).encode())
        client.stdin.close()
    except BrokenPipeError:
        pass
    client.stdin = None
    return client


def saved(slot):
    """The list that a save file stands for: the bodies of its batches, one after the other."""
    if not os.path.exists(path("save%d" % slot)):
        return []
    with open(path("save%d" % slot), "rb") as file:
        text = file.read()
    place, bodies = 40, b""
    while place < len(text) and text[place] == 1:
        length = struct.unpack(">I", text[place + 1:place + 5])[0]
        bodies += text[place + 5:place + 5 + length]
        place += 5 + length
    found, place = [], 0
    while place < len(bodies):
        kind, count = struct.unpack(">BI", bodies[place:place + 5])
        place += 5
        items = [struct.unpack(">QqHB", bodies[place + 19 * n:place + 19 * (n + 1)]) for n in range(count)]
        place += 19 * count
        found = items if kind == 1 else found + items
    return found


def owed(slot):
    """The list that a Connect on the journal gives."""
    connect = {"cmd": "Connect", "game": "G", "items_handling": 7, "name": "P%d" % slot, "tags": ["NoText"],
               "version": {"build": 0, "class": "Version", "major": 0, "minor": 5}}
    script = "open\ntext 1 %s\ntake 1\n" % json.dumps([connect], separators=(",", ":"))
    run = subprocess.run([PROGRAM, "drive", path("seed.json"), path("room.journal")], input=script.encode(), stdout=subprocess.PIPE, check=True)
    found = []
    for line in run.stdout.decode().splitlines():
        if "[" not in line:
            continue
        for packet in json.loads(line[line.index("["):]):
            if packet["cmd"] == "ReceivedItems":
                found = [(item["item"], item["location"], item["player"], item["flags"]) for item in packet["items"]]
    return found


def printed(text):
    """The list that a client printed."""
    lines = text.splitlines()
    assert lines and lines[0] == "items %d" % (len(lines) - 1), lines[:1]
    return [tuple(int(word) for word in line.split(" ")) for line in lines[1:]]


def main():
    make_room()
    left = {slot: list(range(1, LOCATIONS + 1)) for slot in range(1, PLAYERS + 1)}
    lists = {slot: [] for slot in left}
    differences, killed = 0, {"server": 0, "client": 0}
    for _ in range(KILLS):
        port = free_port()
        server = start_server(port)
        clients = {}
        for slot, numbers in left.items():
            ids = random.sample(numbers, min(len(numbers), random.randint(0, 8)))
            clients[slot] = start_client(port, slot, MANY_TURNS, ids)
        names = [("server", server)] + [("client", client) for client in clients.values()]
        random.shuffle(names)
        for name, process in names:
            time.sleep(random.random() * 0.08)
            killed[name] += process.poll() is None
            process.kill()
        for _, process in names:
            process.wait()
        for slot, client in clients.items():
            client.stdout.close()
            client.stderr.close()
            now = saved(slot)
            if now[:len(lists[slot])] != lists[slot]:
                print("P%d: %d items were saved, and now %d others" % (slot, len(lists[slot]), len(now)))
                differences += 1
            lists[slot] = now
    port = free_port()
    server = start_server(port)
    shown = {}
    for slot in left:
        client = start_client(port, slot, TURNS_TO_CONNECT, [])
        out, err = client.communicate(timeout=60)
        if client.returncode != 9:
            print("P%d: status %d, %s" % (slot, client.returncode, err.decode().strip()))
            differences += 1
        shown[slot] = printed(out.decode()) if out else []
    server.kill()
    server.wait()
    for slot, found in shown.items():
        if not (found == owed(slot) == saved(slot)):
            print("P%d: %d items are shown, %d saved and %d owed" % (slot, len(found), len(saved(slot)), len(owed(slot))))
            differences += 1
    counts = ", ".join("P%d has %d items" % (slot, len(found)) for slot, found in shown.items())
    print("%d times: the server was killed %d times, a client %d times; %s; %d differences" % (KILLS, killed["server"], killed["client"], counts, differences))
    raise SystemExit(1 if differences else 0)


main()
