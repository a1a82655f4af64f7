#!/usr/bin/env bash
# An evening of three friends, two games and sixty locations, by script: makes the seed of players.json here, checks it, and plays first.txt and then second.txt on one journal, between which the machine goes down.
# It prints what stands in output.txt: the playthrough twice, and then what the players are told.
# usage: bash examples/evening/play.sh FOLDER: the seed file and the journal go to that folder, which has to be there and has no seed.json and room.journal yet.
# The program is crates/mw_cli/out/mw_cli, or what the variable MULTIWORLD names.
set -eu
[ $# = 1 ] && [ -d "$1" ] || { sed -n 's/^# usage/usage/p' "$0" >&2; exit 2; }
folder=$(realpath "$1")
cd "$(dirname "$0")/../.."
program=${MULTIWORLD:-crates/mw_cli/out/mw_cli}

"$program" generate examples/evening/players.json "$folder/seed.json" --seed 1
"$program" check examples/evening/players.json "$folder/seed.json"
"$program" new-room "$folder/seed.json" "$folder/room.journal"
"$program" drive "$folder/seed.json" "$folder/room.journal" < examples/evening/first.txt
"$program" drive "$folder/seed.json" "$folder/room.journal" < examples/evening/second.txt
