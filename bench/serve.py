"""The figures of bench/serve.sh: a seed, a server, and clients that count.

usage: serve.py PROGRAM DISK MEMORY

DISK and MEMORY are folders, on a disk and in memory.
"""
import json
import multiprocessing
import os
import selectors
import socket
import statistics
import struct
import subprocess
import sys
import time

HERE = os.path.dirname(os.path.abspath(__file__))
sys.path.insert(0, os.path.join(os.path.dirname(HERE), "examples/live"))

from websocket import Closed, WebSocket

PROGRAM, DISK, MEMORY = sys.argv[1:]
HOST = "127.0.0.1"
VERSION = {"class": "Version", "major": 0, "minor": 5, "build": 0}
# 32 clients, each with 5 checks a second, for 20 seconds.
PACE, PACED_CLIENTS, PACED_SECONDS = 0.2, 32, 20
# 64 clients, each with up to 4 messages of 4 checks on their way, for 10 seconds at most.
LOAD_CLIENTS, LOAD_SECONDS, ON_THEIR_WAY, IN_A_MESSAGE, CLIENT_PROCESSES = 64, 10, 4, 4, 2
REST_SECONDS = 10


def compact(packet):
    return json.dumps([packet], separators=(",", ":"))


# ---- the seed

def make_seed(slots, per):
    """A seed file of so many slots with so many free locations each, and as many useful items, which are shuffled over all slots."""
    world, players, seed = (os.path.join(DISK, name) for name in ("world.json", "players.json", "seed_%d.json" % slots))
    with open(world, "w", encoding="utf-8") as file:
        json.dump({"format": "mw-world-1", "game": "G", "regions": ["Menu"], "entrances": [], "filler": "Coin", "goal": True,
                   "items": [{"name": "Gem", "id": 1, "class": "useful"}, {"name": "Coin", "id": 2, "class": "filler"}],
                   "locations": [{"name": "L%d" % n, "id": n, "region": "Menu", "rule": True} for n in range(1, per + 1)],
                   "pool": [{"item": "Gem", "count": per}]}, file)
    with open(players, "w", encoding="utf-8") as file:
        json.dump({"format": "mw-players-1", "players": [{"names": ["P%d" % slot], "world": world} for slot in range(1, slots + 1)]}, file)
    subprocess.run([PROGRAM, "generate", players, seed, "--seed", "7"], check=True, stdout=subprocess.DEVNULL)
    return seed


# ---- the server

class Server:
    """A server on a new journal in a folder."""

    def __init__(self, seed, folder, workers):
        self.journal = os.path.join(folder, "room.journal")
        if os.path.exists(self.journal):
            os.remove(self.journal)
        subprocess.run([PROGRAM, "new-room", seed, self.journal], check=True, stdout=subprocess.DEVNULL)
        with socket.socket() as found:
            found.bind((HOST, 0))
            self.port = found.getsockname()[1]
        self.process = subprocess.Popen([PROGRAM, "serve", seed, self.journal, "--bind", "%s:%d" % (HOST, self.port), "--workers", str(workers)], stdin=subprocess.DEVNULL)

    def __enter__(self):
        return self

    def __exit__(self, *_):
        self.process.kill()
        self.process.wait()

    def spent(self):
        """The seconds of the processor that it has used."""
        with open("/proc/%d/stat" % self.process.pid, encoding="ascii") as file:
            fields = file.read().rpartition(") ")[2].split(" ")
        return (int(fields[11]) + int(fields[12])) / os.sysconf("SC_CLK_TCK")

    def memory(self):
        """The megabytes that it holds, and the most that it held."""
        found = {}
        with open("/proc/%d/status" % self.process.pid, encoding="ascii") as file:
            for line in file:
                name, _, rest = line.partition(":")
                if name in ("VmRSS", "VmHWM"):
                    found[name] = int(rest.split()[0]) / 1024
        return found["VmRSS"], found["VmHWM"]


def batches_and_checks(journal):
    """How many batches a journal holds, and how many checks stand in them."""
    with open(journal, "rb") as file:
        data = file.read()
    at, batches, body = 40, 0, bytearray()
    while data[at] == 1:
        size = struct.unpack_from(">I", data, at + 1)[0]
        body += data[at + 5:at + 5 + size]
        at, batches = at + 5 + size, batches + 1
    at, checks = 0, 0
    while at < len(body):
        if body[at] == 1:
            count = struct.unpack_from(">I", body, at + 4)[0]
            checks += count
            at += 8 + 8 * count
        else:
            at += {2: 4, 3: 4, 4: 5}[body[at]]
    return batches, checks


def sync_time(folder):
    """The median time of a small write with a sync, in milliseconds."""
    times = []
    with open(os.path.join(folder, "sync"), "wb", buffering=0) as file:
        for _ in range(100):
            begin = time.monotonic()
            file.write(b"0123456789abcdef")
            os.fsync(file.fileno())
            times.append(time.monotonic() - begin)
    return 1000 * statistics.median(times)


# ---- the clients

def connect(port, slot):
    """A client of a slot that is connected. The server may still be reading its files."""
    deadline = time.monotonic() + 60
    while True:
        try:
            client = WebSocket(HOST, port)
            break
        except (Closed, OSError):
            if time.monotonic() > deadline:
                raise
            time.sleep(0.05)
    client.slot = slot
    client.send(compact({"cmd": "Connect", "game": "G", "items_handling": 7, "name": "P%d" % slot, "tags": ["NoText"], "version": VERSION}))
    while True:
        text = client.receive(deadline - time.monotonic())
        if text is None:
            raise TimeoutError("slot %d isn't connected in time" % slot)
        if '"cmd":"Connected"' in text:
            return client


def connect_all(port, slots):
    ways = selectors.DefaultSelector()
    clients = [connect(port, slot) for slot in slots]
    for client in clients:
        ways.register(client, selectors.EVENT_READ, client)
    return ways, clients


def part(clients):
    for client in clients:
        client.close(wait=0.5)


def paced(server):
    """The times from a check to its push at another client, in milliseconds, and how many checks were sent."""
    ways, clients = connect_all(server.port, range(1, PACED_CLIENTS + 1))
    sent, times = {}, []
    rounds = int(PACED_SECONDS / PACE)
    start = time.monotonic() + 0.5
    # When each client sends each of its checks: one after the other, evenly.
    plan = [(start + PACE * (turn + number / len(clients)), client, turn + 1) for turn in range(rounds) for number, client in enumerate(clients)]
    plan.reverse()
    end = start + PACED_SECONDS + 2
    while time.monotonic() < end:
        now = time.monotonic()
        while plan and plan[-1][0] <= now:
            _, client, location = plan.pop()
            sent[client.slot, location] = time.monotonic()
            client.send(compact({"cmd": "LocationChecks", "locations": [location]}))
        wait = max(0.0, (plan[-1][0] if plan else end) - time.monotonic())
        for key, _ in ways.select(wait):
            texts = key.data.poll()
            now = time.monotonic()
            for text in texts:
                for packet in json.loads(text):
                    if packet["cmd"] == "ReceivedItems":
                        times += [1000 * (now - sent[item["player"], item["location"]]) for item in packet["items"] if item["player"] != key.data.slot]
    part(clients)
    return times, len(sent)


def rest(ways, seconds):
    """Hears and answers what comes for so many seconds."""
    end = time.monotonic() + seconds
    while time.monotonic() < end:
        for key, _ in ways.select(max(0.0, end - time.monotonic())):
            key.data.poll()


def load(port, slots, per, begin, told):
    """One process of clients at full load: connects, tells so, begins when it is told, and tells how many checks were answered and in what time."""
    ways, clients = connect_all(port, slots)
    told.put("connected")
    while not begin.wait(0.2):
        rest(ways, 0)
    for client in clients:
        client.next = 1
    answered, start = 0, time.monotonic()
    end = last = start + LOAD_SECONDS

    def send(client):
        if client.next <= per:
            client.send(compact({"cmd": "LocationChecks", "locations": list(range(client.next, client.next + IN_A_MESSAGE))}))
            client.next += IN_A_MESSAGE

    for client in clients:
        for _ in range(ON_THEIR_WAY):
            send(client)
    while time.monotonic() < end and answered < per * len(clients):
        for key, _ in ways.select(max(0.0, end - time.monotonic())):
            for text in key.data.poll():
                # A RoomUpdate comes first in its message.
                if text.startswith('[{"checked_locations"'):
                    answered += IN_A_MESSAGE
                    last = time.monotonic()
                    send(key.data)
    told.put((answered, last - start))
    for client in clients:
        client.stream.close()


# ---- the figures

def figures_of_pushes(seed, folder, where):
    with Server(seed, folder, PACED_CLIENTS) as server:
        times, sent = paced(server)
        spent = server.spent()
    times.sort()
    middle, most = times[len(times) // 2], times[len(times) * 99 // 100]
    print("%d clients, %d checks a second each, journal %s: from a check to its push at another client %.1f ms in the median, %.1f ms for 99 of 100 (%d checks sent, %d pushes, %.1f s of the processor)"
          % (PACED_CLIENTS, round(1 / PACE), where, middle, most, sent, len(times), spent), flush=True)


def figures_of_rest(seed, folder, per):
    with Server(seed, folder, LOAD_CLIENTS) as server:
        ways, clients = connect_all(server.port, range(1, LOAD_CLIENTS + 1))
        rest(ways, 2)
        before, begin = server.spent(), time.monotonic()
        rest(ways, REST_SECONDS)
        used = 100 * (server.spent() - before) / (time.monotonic() - begin)
        now, most = server.memory()
        print("%d workers, %d connected clients, %d locations, at rest: %.2f %% of a processor, %.0f MB, %.0f MB at most" % (LOAD_CLIENTS, LOAD_CLIENTS, LOAD_CLIENTS * per, used, now, most), flush=True)
        part(clients)


def figures_of_load(seed, folder, where, per):
    with Server(seed, folder, LOAD_CLIENTS) as server:
        begin, told = multiprocessing.Event(), multiprocessing.Queue()
        shares = [range(first, LOAD_CLIENTS + 1, CLIENT_PROCESSES) for first in range(1, CLIENT_PROCESSES + 1)]
        processes = [multiprocessing.Process(target=load, args=(server.port, share, per, begin, told), daemon=True) for share in shares]
        for process in processes:
            process.start()
        for _ in processes:
            told.get(timeout=60)
        before = server.spent()
        begin.set()
        answers = [told.get(timeout=LOAD_SECONDS + 60) for _ in processes]
        spent = server.spent() - before
        answered, passed = sum(answer[0] for answer in answers), max(answer[1] for answer in answers)
        now, most = server.memory()
        for process in processes:
            process.join(10)
        batches, checks = batches_and_checks(server.journal)
    print("%d workers, %d clients at full load, messages of %d checks, journal %s: %.0f checks a second (%d in %.1f s), %d appends, %.1f checks in each, %.0f %% of a processor, %.0f MB, %.0f MB at most"
          % (LOAD_CLIENTS, LOAD_CLIENTS, IN_A_MESSAGE, where, answered / passed, answered, passed, batches, checks / max(1, batches), 100 * spent / passed, now, most), flush=True)


def main():
    places = [(DISK, "on a disk"), (MEMORY, "in memory")]
    for folder, where in places:
        print("a write of 16 bytes with its sync %s: %.2f ms in the median" % (where, sync_time(folder)), flush=True)
    seed = make_seed(PACED_CLIENTS, int(PACED_SECONDS / PACE))
    for folder, where in places:
        figures_of_pushes(seed, folder, where)
    per = 2000
    seed = make_seed(LOAD_CLIENTS, per)
    figures_of_rest(seed, MEMORY, per)
    for folder, where in places:
        figures_of_load(seed, folder, where, per)


if __name__ == "__main__":
    main()
