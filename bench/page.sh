#!/usr/bin/env bash
# Tries examples/page/index.html in a Chromium without a window (bench/page.py), against `serve` on this machine: a player joins by the page, friends join by examples/live, and the page has to show what the room
# says, play a whole game over a killed server, and draw the spheres of the seed. It ends with a line that says that all is right, or what isn't, within three minutes, and does nothing where Chromium isn't installed.
# usage: bench/page.sh [FOLDER]: pictures of the page go to that folder, which has to be there.
# The program is crates/mw_cli/out/mw_cli, or what the variable MULTIWORLD names. Run after `rt run` in crates/mw_cli, which leaves the program.
set -eu
top=$(dirname "$(dirname "$(realpath "$0")")")
program=$(realpath -m "${MULTIWORLD:-$top/crates/mw_cli/out/mw_cli}")
[ -x "$program" ] || { echo "build it first: (cd crates/mw_cli && rt run)" >&2; exit 1; }
browser=$(command -v chromium || command -v chromium-browser || command -v google-chrome || true)
[ -n "$browser" ] || { echo "no Chromium is installed: nothing is done"; exit 0; }
pictures=${1:+$(realpath "$1")}
work=$(mktemp -d)
trap 'rm -rf "$work"' EXIT
MULTIWORLD=$program PYTHONDONTWRITEBYTECODE=1 timeout -k 5 180 python3 "$top/bench/page.py" "$browser" "$work" $pictures
