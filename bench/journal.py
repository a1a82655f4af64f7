"""What bench/journal.sh measures: journals, pair rooms, and runs that are killed.

usage: journal.py MULTIWORLD FOLDER KILLS all|thin
"""
import hashlib
import json
import os
import random
import re
import struct
import subprocess
import sys
import time

PROGRAM, FOLDER = sys.argv[1:3]
KILLS = int(sys.argv[3])
LIMIT = 1 << 30

CONNECT = 'open\ntext 1 [{"cmd":"Connect","game":"G","items_handling":7,"name":"P1","tags":["NoText"],"version":{"build":0,"class":"Version","major":0,"minor":5}}]\n'
CHECK = 'text 1 [{"cmd":"LocationChecks","locations":[%d]}]\n'
STORE = 'text 1 [{"cmd":"Set","default":0,"key":"k%d","operations":[{"operation":"replace","value":%d}],"want_reply":false}]\n'
GET = 'text 1 [{"cmd":"Get","keys":["k0","k1","k2"]}]\n'
FOUND_FIRST = re.compile(r'"checked_locations":\[([0-9,]*)\],"cmd":"Connected"')
SHOWN_LATER = re.compile(r'"checked_locations":\[([0-9,]*)\],"cmd":"RoomUpdate"')
GOT = re.compile(r'"keys":\{"k0":([0-9]+),"k1":([0-9]+),"k2":([0-9]+)\}')


def path(name):
    return os.path.join(FOLDER, name)


def content(name):
    with open(path(name), "rb") as file:
        return file.read()


def apart(work, *given):
    """Does this in a process of its own, so that this one stays small: the memory that the system tells of a run is at least what its parent had as it began."""
    child = os.fork()
    if child == 0:
        work(*given)
        os._exit(0)
    _, status = os.waitpid(child, 0)
    assert status == 0


# ---- files

def write_seed(name, slots, per):
    """A seed file of so many slots with so many locations each."""
    games = {"G": {"item_name_to_id": {"Item": 1}, "location_name_to_id": {"L%d" % n: n for n in range(1, per + 1)}}}
    server = {"collect": "goal", "hint_cost": 10, "location_check_points": 1, "password": "", "release": "goal", "remaining": "goal"}
    people = [{"names": ["P%d" % s], "game": "G", "start": []} for s in range(1, slots + 1)]
    locations = [[s, n, 1, s % slots + 1, 0] for s in range(1, slots + 1) for n in range(1, per + 1)]
    seed = {"format": "mw-multidata-1", "seed_name": "bench", "teams": 1, "spheres": [], "server": server, "games": games, "slots": people, "locations": locations}
    with open(path(name), "w", encoding="utf-8") as file:
        json.dump(seed, file, separators=(",", ":"))


def check_record(slot, location):
    return struct.pack(">BBHIQ", 1, 0, slot, 1, location)


def stored_record(key, value):
    return b"\x07" + struct.pack(">I", len(key)) + key + struct.pack(">I", len(value)) + value


def header(seed):
    return b"MWJRNL1\n" + hashlib.sha256(content(seed)).digest()


def batch(body):
    """An open gate and a batch."""
    return b"\x01" + struct.pack(">I", len(body)) + body


def write_journal(name, seed, bodies):
    """A journal of a seed file with these bodies."""
    with open(path(name), "wb") as file:
        file.write(header(seed))
        for body in bodies:
            file.write(batch(body))
        file.write(b"\x00")


def write_checks(name, seed):
    """A journal of 1,000,000 checks, each in a batch of its own."""
    write_journal(name, seed, (check_record(slot, n) for slot in range(1, 101) for n in range(1, 10001)))


def write_full_journal(name, seed):
    """A journal that has room for no record: batches that store a long text under one key, the last one of which ends ten bytes before the limit."""
    with open(path(name), "wb") as file:
        file.write(header(seed))
        place = 40
        while place < LIMIT - 10:
            left = LIMIT - 10 - place
            size = 500000 if left > 1000000 else left if left < 600000 else 400000
            body = stored_record(b"k", b'"' + b"a" * (size - 5 - 10 - 2) + b'"')
            file.write(batch(body))
            place += 5 + len(body)
        file.write(b"\x00")


def write_pair(name, seed, records):
    """A pair room whose journal 0 has these records, a thousand in each batch."""
    write_journal(name, seed, [])
    write_journal(name + ".0", seed, (b"".join(records[first:first + 1000]) for first in range(0, len(records), 1000)))
    write_journal(name + ".1", seed, [])


def write_old_values(name, seed):
    """A pair room of 1,000,000 records: 50,000 checks, and 950,000 values of 50,000 keys, of which the last of each counts."""
    records = [check_record(slot, location) for slot in range(1, 101) for location in range(1, 501)]
    records += [stored_record(b"k%d" % (n % 50000), b"%d" % n) for n in range(950000)]
    write_pair(name, seed, records)


def fill_choice(name, seed, length):
    """A CHOICE of this length: one batch that names the journal 0 again and again, which takes no place on the disk."""
    with open(path(name), "wb") as file:
        file.write(header(seed) + b"\x01" + struct.pack(">I", length - 46))
        file.truncate(length)


def batches(name):
    """How many batches a journal has: each was made safe by two syncs."""
    text = content(name)
    place, count = 40, 0
    while text[place] == 1:
        place, count = place + 5 + struct.unpack(">I", text[place + 1:place + 5])[0], count + 1
    return count


# ---- runs

def words_of(words):
    return [PROGRAM, words[0]] + [word if word.startswith("--") else path(word) for word in words[1:]]


class Run:
    """One run to its end: its status, its output, its error line, the seconds that passed, those of the processor, and its memory in MB."""

    def __init__(self, words, script=""):
        with open(path("given"), "w", encoding="utf-8") as file:
            file.write(script)
        with open(path("given"), "rb") as given, open(path("told"), "wb") as told, open(path("line"), "wb") as line:
            begin = time.time()
            child = subprocess.Popen(words_of(words), stdin=given, stdout=told, stderr=line)
            _, status, used = os.wait4(child.pid, 0)
            self.passed = time.time() - begin
        self.status = child.returncode = os.waitstatus_to_exitcode(status)
        self.spent = used.ru_utime + used.ru_stime
        self.memory = used.ru_maxrss / 1024
        self.told = content("told").decode()
        self.line = content("line").decode()

    def __str__(self):
        return "status %d, %.2f s passed, %.2f s of the processor, %.0f MB" % (self.status, self.passed, self.spent, self.memory)


def make_room(seed, journal):
    assert Run(["new-room", seed, journal]).status == 0


def killed(words, given, told, most):
    """A run that is killed within so many seconds, where it hasn't ended: its status."""
    with open(given, "rb") as script, open(told, "wb") as output:
        child = subprocess.Popen(words_of(words), stdin=script, stdout=output)
        time.sleep(random.uniform(0.0, most))
        child.kill()
        return child.wait()


def numbers(text):
    return set(map(int, filter(None, text.split(","))))


# ---- journals

def measure_takes():
    def checks(each):
        """2,000 checks with a take after so many of them each."""
        return CONNECT + "".join(CHECK % n + ("take 1\n" if n % each == 0 else "") for n in range(1, 2001))

    print("2,000 checks in memory, a take after each fiftieth:", Run(["drive", "small.json"], checks(50)))
    for each in (1, 50, 2000):
        make_room("small.json", "small.journal")
        run = Run(["drive", "small.json", "small.journal"], checks(each))
        print("2,000 checks on a journal, a take after each %d: %s; %d syncs in appends" % (each, run, 2 * batches("small.journal")))
        os.remove(path("small.journal"))


def measure_recovery():
    print("a seed file of %d MB, in memory:" % (os.path.getsize(path("large.json")) // 1000000), Run(["drive", "large.json"]))
    apart(write_checks, "large.journal", "large.json")
    print("a journal with 1,000,000 checks of it:", Run(["drive", "large.json", "large.journal"]))
    os.remove(path("large.journal"))


def measure_full_journal():
    apart(write_full_journal, "full.journal", "small.json")
    run = Run(["drive", "small.json", "full.journal"], CONNECT + CHECK % 1 + "commit\n")
    print("a full journal of %d bytes: %s, %s" % (os.path.getsize(path("full.journal")), run, run.line.strip()))
    os.remove(path("full.journal"))


def is_locked(name):
    """Whether some program has the file's lock."""
    with open("/proc/locks", encoding="ascii") as file:
        return ":%d " % os.stat(path(name)).st_ino in file.read()


def run_two_programs():
    make_room("small.json", "shared.journal")
    first = subprocess.Popen(words_of(["drive", "small.json", "shared.journal"]), stdin=subprocess.PIPE, stdout=subprocess.PIPE)
    while not is_locked("shared.journal") and first.poll() is None:
        time.sleep(0.01)
    kept = content("shared.journal")
    beside = [Run([command, "small.json", "shared.journal"]) for command in ("drive", "new-room")]
    answers = [(run.status, run.told, run.line) for run in beside]
    is_refused = answers == [(5, "", "device failed\n")] * 2 and content("shared.journal") == kept
    shown = first.communicate((CONNECT + CHECK % 1 + "take 1\n").encode())[0]
    goes_on = first.returncode == 0 and b'"checked_locations":[1]' in shown
    after = Run(["drive", "small.json", "shared.journal"], CONNECT + "take 1\n")
    is_found = after.status == 0 and '"checked_locations":[1]' in after.told
    print("two programs on one journal: the second %s; the first %s; its check %s found afterwards" % (
        "ends with status 5 and changes nothing" if is_refused else "was answered %s" % answers, "goes on" if goes_on else "ended with status %s" % first.returncode, "is" if is_found else "isn't"))


def kill_runs():
    shown, next_check, losses, extra = set(), 1, 0, 0
    make_room("killed.json", "killed.journal")
    for _ in range(KILLS):
        with open(path("script"), "w", encoding="utf-8") as file:
            file.write(CONNECT + "take 1\n" + "".join(CHECK % n + ("take 1\n" if n % 3 == 0 else "") for n in range(next_check, min(next_check + 400, 10001))))
        killed(["drive", "killed.json", "killed.journal"], path("script"), path("output"), 0.05)
        text = content("output").decode()
        whole = text[:text.rfind("\n") + 1]
        first = FOUND_FIRST.search(whole)
        if first:
            found = numbers(first.group(1))
            losses += len(shown - found)
            extra += len(found - shown)
            shown |= found
        for more in SHOWN_LATER.finditer(whole):
            shown |= numbers(more.group(1))
        next_check = max(shown, default=0) + 1
        if next_check > 9000:
            shown, next_check = set(), 1
            os.remove(path("killed.journal"))
            make_room("killed.json", "killed.journal")
    print("%d runs that were killed: %d checks that were shown are missing, %d came back that were not shown yet" % (KILLS, losses, extra))


# ---- pair rooms

def measure_thin():
    apart(write_old_values, "long", "large.json")
    recovered = Run(["drive", "large.json", "long", "--pair"])
    thinned = Run(["thin", "large.json", "long"])
    again = Run(["drive", "large.json", "long", "--pair"])
    print("a pair room of 1,000,000 records: recovered: %s; thinned: %s (%.2f times as long, %.2f times the processor's time, %.2f times the memory), %s; recovered then: %s" % (
        recovered, thinned, thinned.passed / recovered.passed, thinned.spent / recovered.spent, thinned.memory / recovered.memory, thinned.told.strip(), again))
    for end in ("", ".0", ".1"):
        os.remove(path("long" + end))


def digest_of(name):
    with open(path(name), "rb") as file:
        return hashlib.file_digest(file, "sha256").digest()


def fill_choices():
    """A CHOICE with room for one name more, which takes six bytes, and then for none."""
    write_pair("full", "small.json", [check_record(1, 1)])
    fill_choice("full", "small.json", LIMIT - 6)
    last = Run(["thin", "small.json", "full"])
    length = os.path.getsize(path("full"))
    before = digest_of("full"), digest_of("full.1")
    none = Run(["thin", "small.json", "full"])
    is_kept = (digest_of("full"), digest_of("full.1")) == before
    after = Run(["drive", "small.json", "full", "--pair"], CONNECT + "take 1\n")
    is_found = after.status == 0 and '"checked_locations":[1]' in after.told
    print("a CHOICE of %d bytes: thinned: %s, %s; then it has %d bytes: thinned: %s, %s; CHOICE and the journal that counts %s; the room's check %s found: %s" % (
        LIMIT - 6, last, last.told.strip(), length, none, none.line.strip(), "stay" if is_kept else "changed", "is" if is_found else "isn't", after))
    for end in ("", ".0", ".1"):
        os.remove(path("full" + end))


class Killed:
    """A pair room whose checkpoints are killed: what it showed, its last values, and how often it told otherwise."""

    def __init__(self):
        self.shown, self.values = set(), [0, 0, 0]
        self.refused = self.missing = self.wrong = self.switched = self.cut = 0
        write_pair("thin", "killed.json", [])

    def play(self, number):
        """Ten checks and sixty values, all committed: where no check is new, no message would have them be."""
        first = number % 900 * 10 + 1
        lines = CONNECT + "".join(CHECK % n for n in range(first, first + 10))
        for n in range(60):
            self.values[n % 3] = number * 60 + n
            lines += STORE % (n % 3, self.values[n % 3])
        self.refused += Run(["drive", "killed.json", "thin", "--pair"], lines + "commit\ntake 1\n").status != 0
        self.shown |= set(range(first, first + 10))

    def thin(self, most):
        """A checkpoint that is killed within so many seconds, where it hasn't ended."""
        before = content("thin")
        status = killed(["thin", "killed.json", "thin"], os.devnull, os.devnull, most)
        self.refused += status not in (0, -9)
        self.cut += status == -9
        self.switched += content("thin") != before

    def look(self):
        """Whether the room tells all that."""
        run = Run(["drive", "killed.json", "thin", "--pair"], CONNECT + "take 1\n" + GET + "take 1\n")
        self.refused += run.status != 0
        checked = FOUND_FIRST.search(run.told)
        self.missing += len(self.shown - numbers(checked.group(1))) if checked else len(self.shown)
        got = GOT.search(run.told)
        self.wrong += not got or list(map(int, got.groups())) != self.values


def kill_thin():
    room, longest = Killed(), 0.0
    for number in range(KILLS):
        room.play(number)
        # Each hundredth is let be, and tells how long one takes.
        if number % 100 == 0:
            run = Run(["thin", "killed.json", "thin"])
            room.refused += run.status != 0
            longest = run.passed
        else:
            room.thin(1.2 * longest)
        room.look()
    print("%d runs of thin, %d of which were killed before their end, and %d of those that were to be had written CHOICE: %d runs refused, %d checks that were shown are missing, %d times a value was another" % (
        KILLS, room.cut, room.switched, room.refused, room.missing, room.wrong))


random.seed(1)
apart(write_seed, "small.json", 2, 2000)
apart(write_seed, "killed.json", 2, 10000)
apart(write_seed, "large.json", 100, 10000)
if sys.argv[4] != "thin":
    measure_takes()
    measure_recovery()
    measure_full_journal()
    run_two_programs()
    kill_runs()
measure_thin()
fill_choices()
kill_thin()
