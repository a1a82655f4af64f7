"""Runs the commands that the pages show, each page in a folder of its own, compares what they print with the texts that
the pages show, and the tools with what is stored in bench/pages/. It ends with how many differences there were.

usage: pages.py CHECKOUT FOLDER
"""
import os
import re
import subprocess
import sys

TOP, WORK = sys.argv[1:]
# What takes the toolchain, or longer than a look.
LEFT_OUT = re.compile(r"^\s*(rt |RT_JOBS|\(cd crates|bash examples/seed_and_play|bench/)")
differences = 0


def differ(text):
    global differences
    differences += 1
    print("differs: %s" % text)


def read(name):
    with open(os.path.join(TOP, name), encoding="utf-8") as file:
        return file.read()


def folder(name):
    """A folder in which the examples and the program lie as in a checkout."""
    path = os.path.join(WORK, name)
    os.makedirs(path)
    for part in ("examples", "crates", "bench"):
        os.symlink(os.path.join(TOP, part), os.path.join(path, part))
    return path


def run(place, commands):
    """What commands print."""
    done = subprocess.run(["bash", "-euo", "pipefail", "-c", commands], cwd=place, stdin=subprocess.DEVNULL,
                          stdout=subprocess.PIPE, stderr=subprocess.PIPE, text=True)
    if done.returncode != 0:
        differ("%s ends with %d: %s" % (commands, done.returncode, done.stderr))
    return done.stdout


def blocks(page):
    """The fenced blocks of a page, each with its language."""
    return re.findall(r"^```(\w*)\n(.*?)^```", read(page), re.S | re.M)


def shows(page, block, printed):
    """Whether the lines of a block were printed, in order; three points stand for anything."""
    lines = iter(printed.split("\n"))
    for line in block.strip().split("\n"):
        if line == "...":
            continue
        pattern = re.compile(re.escape(line).replace(r"\.\.\.", ".*") + "$")
        if not any(pattern.match(found) for found in lines):
            differ("%s shows a line that isn't printed: %s" % (page, line))
            return


def run_page(page):
    """Runs the commands of a page, one block after the other, and gives what each printed."""
    place = folder(os.path.basename(page))
    told = []
    for language, block in blocks(page):
        if language == "sh":
            commands = "\n".join(line for line in block.split("\n") if not LEFT_OUT.match(line))
            told.append(run(place, commands))
    return told


def texts(page):
    """The blocks of a page that are texts, not commands."""
    return [block for language, block in blocks(page) if language == ""]


def compare(name, printed):
    """What a tool printed, beside what is stored."""
    stored = os.path.join(TOP, "bench/pages", name)
    if not os.path.exists(stored):
        differ("there is no %s" % stored)
    elif printed != read("bench/pages/" + name):
        differ("bench/pages/%s" % name)
        with open(os.path.join(WORK, name), "w", encoding="utf-8") as file:
            file.write(printed)
        subprocess.run("diff %s %s | head -10" % (stored, os.path.join(WORK, name)), shell=True)


def main():
    # The texts that pages show beside their commands.
    place = folder("shown")
    program = "crates/mw_cli/out/mw_cli"
    seed = "%s generate examples/players.json seed.json --seed 7; %s check examples/players.json seed.json; " % (program, program)
    _, live, played = texts("README.md")
    shows("README.md", played, run(place, seed + program + " drive seed.json < examples/first_find.txt"))
    told = {page: run_page(page) for page in ("README.md", "docs/GENERATION.md", "docs/HOSTING.md", "docs/SCRIPTS.md", "docs/WORLD_FILES.md")}
    shows("README.md", live, told["README.md"][0])
    shows("docs/HOSTING.md", live, told["docs/HOSTING.md"][1])
    shows("docs/WORLD_FILES.md", texts("docs/WORLD_FILES.md")[0], told["docs/WORLD_FILES.md"][0])
    # What pages say that commands print, without showing it.
    scripts = told["docs/SCRIPTS.md"]
    for printed, stored in [(scripts[0], "examples/reconnect_output.txt"), (scripts[2], "examples/evening/told.txt")]:
        if printed != read(stored):
            differ("docs/SCRIPTS.md: " + stored)
    for line, printed in zip(re.findall(r"`(all is right: .*?)`", read("docs/HOSTING.md")), told["docs/HOSTING.md"][2:]):
        if not printed.endswith("\n%s\n" % line):
            differ("docs/HOSTING.md shows a line that isn't printed: %s" % line)
    # The scripts of the evening are those that are written for its seed.
    evening = os.path.join(WORK, "SCRIPTS.md/evening/seed.json")
    run(place, "python3 bench/evening.py %s first.txt second.txt; cmp first.txt examples/evening/first.txt; cmp second.txt examples/evening/second.txt" % evening)
    # The seed file that a page shows is accepted.
    with open(os.path.join(place, "shown.json"), "w", encoding="utf-8") as file:
        file.write([block for language, block in blocks("docs/SEED_FILE.md") if language == "json"][0])
    run(place, program + " drive shown.json")
    # The tools.
    tools = "python3 examples/tools/"
    compare("evening.txt", told["README.md"][-1])
    compare("spoiler.txt", run(place, tools + "spoiler.py examples/players.json seed.json"))
    for name in ("chat", "reconnect", "resumed", "tracker"):
        compare("watch_%s.txt" % name, run(place, tools + "watch.py examples/room_a.json < examples/%s_output.txt" % name))
    steps = "Ann check A2 say 'hello Bob' as Bob hint Map check 201 hints as Ann take goal lost as Bob sync"
    compare("play.txt", run(place, tools + "play.py examples/room_a.json --password 'x y' --silent " + steps))
    compare("lint.txt", run(place, tools + "lint.py bench/pages/lint_players.json || true"))
    print("%d pages and 4 tools were run" % len(told))
    return differences


if __name__ == "__main__":
    sys.exit(main())
