#!/usr/bin/env bash
# Runs what the pages show on the built program, in a folder of its own: the scripts of examples/ beside their stored outputs, words, files and addresses that are refused beside the lines and statuses that
# the pages tell, and, where Python is, the commands of each page, the texts that they show, a live room, the tools beside what is stored in bench/pages/, and, where they are installed, stock clients and a browser (bench/clients.sh, bench/page.sh). It prints each difference, and how many there were.
# Run after `rt run` in crates/mw_cli, which leaves the program.
set -u
cd "$(dirname "$0")/.."
top=$PWD
program=$top/crates/mw_cli/out/mw_cli
[ -x "$program" ] || { echo "build it first: (cd crates/mw_cli && rt run)" >&2; exit 1; }
work=$(mktemp -d)
trap 'chmod -R u+w "$work"; rm -rf "$work"' EXIT
ln -s "$top/examples" "$top/crates" "$work"
cd "$work"
differ=0

# Tells whether what was printed is what is stored in a file.
same() {
  if ! cmp -s "$1" "$2"; then
    echo "differs: $3"
    diff "$1" "$2" | head -5
    differ=$((differ + 1))
  fi
}

# Runs words, and tells whether they end with this status and this line.
ends() {
  local status=$1 line=$2
  shift 2
  "$program" "$@" < /dev/null > out.txt 2> err.txt
  local found=$?
  if [ "$found" != "$status" ] || [ "$(cat err.txt)" != "$line" ]; then
    echo "differs: $* ends with $found and '$(cat err.txt)', and not with $status and '$line'"
    differ=$((differ + 1))
  fi
}

# ---- scripts beside their stored outputs

for name in reconnect chat tracker; do
  "$program" drive examples/room_a.json < "examples/$name.txt" > out.txt
  same out.txt "examples/${name}_output.txt" "examples/$name.txt"
done
ends 0 '' new-room examples/room_a.json room.journal
"$program" drive examples/room_a.json room.journal < examples/first_check.txt > out.txt
"$program" drive examples/room_a.json room.journal < examples/resumed.txt > out.txt
same out.txt examples/resumed_output.txt examples/resumed.txt

mkdir evening
MULTIWORLD=$program bash examples/evening/play.sh evening > out.txt
same out.txt examples/evening/output.txt examples/evening/play.sh

# ---- words

for words in "" "--help" "-h" "--version" "help" "generate" "generate P" "generate P O" "generate P O --seed" "generate P O --seed 05" "generate P O --seed +5" "generate P O --seed -1" \
  "generate P O --seed 18446744073709551616" "generate P O --seed 1 --seed 2" "generate P O --seed 1 --tries 0" "generate P O --seed 1 --tries 1001" "generate -- P O --seed 1" \
  "check P" "check P S T" "reach" "reach -p" "new-room A" "drive" "drive A J K" "serve A" "serve A J" "serve A --bind 127.0.0.1:1" "serve A J K --bind 127.0.0.1:1" "serve A J --bind" \
  "serve A J --bind 127.0.0.1:1 --bind 127.0.0.1:2" "serve A J --bind 127.0.0.1:1 --workers 0" "serve A J --bind 127.0.0.1:1 --workers 65" "serve A J --bind 127.0.0.1:1 --workers 08" \
  "serve A J --bind 127.0.0.1:1 --accept 0" "serve A J --bind 127.0.0.1:1 --accept 4294967296" "serve A J --bind 127.0.0.1:1 --accept 1 --accept 1"; do
  # The words are split at blanks.
  ends 2 'bad words' $words
done
ends 0 '' generate --seed=18446744073709551615 examples/players.json seed.json --tries=1000
ends 0 '' generate --seed 0 -- examples/players.json seed.json
ends 0 '' check -- examples/players.json seed.json

# ---- files: a line of the text that is looked for, and one in its place

# Writes the world of the example with one text in the place of another, and a players file for it.
world() {
  sed "s/$1/$2/" examples/lantern_caves.json > world.json
  if cmp -s world.json examples/lantern_caves.json; then
    echo "differs: no '$1' in examples/lantern_caves.json"
    differ=$((differ + 1))
  fi
  printf '{"format":"mw-players-1","players":[{"names":["Ann"],"world":"world.json"%s}]}' "${3:-}" > players.json
}

world '"Rope", "id": 2, "class": "progression"' '"Rope", "id": 2, "class": "useful"'
ends 3 'refused: world.json RuleItemNotProgression /entrances/2/rule/has_all/0' reach players.json
world '{"has": "Lantern"}' '{"hass": "Lantern"}'
ends 3 'refused: world.json WrongKind /entrances/1/rule' reach players.json
world '{"has": "Lantern"}' '{"has": "Lantern", "or": 7}'
ends 0 '' reach players.json
world '"kind": "priority"' '"knid": "priority"'
ends 0 '' reach players.json
world '"id": 101' '"id": 101.0'
ends 3 'refused: world.json NotWhole /locations/0/id' reach players.json
world '"count": 1' '"count": 0'
ends 3 'refused: world.json WrongKind /pool/0/count' reach players.json
world '"goal": {"has": "Dragon Asleep"}' '"goal": {"has": "Lantern", "count": 2}'
ends 3 'not beatable: slot 1' generate players.json seed_2.json --seed 1
world '"item": "Map", "count": 1' '"item": "Map", "count": 5'
ends 3 'too many items: 9 for 6 places' generate players.json seed_2.json --seed 1
world '"Village", "rule": true' '"Village", "rule": false' ',"options":{"start_inventory":{"b":1,"Lantern":1}}'
ends 3 'refused: UnknownName 1 start_inventory 1' reach players.json
world '"Deep"\]' '"Deep", "Attic"]' ',"optoins":{"local_items":["Nothing"]}'
ends 0 '' reach players.json
printf '\357\273\277' | cat - examples/players.json > marked.json
ends 3 'refused: marked.json NoJson /' reach marked.json
printf '{"format":"mw-players-1","players":[{"names":["Ann"],"world":"examples/lantern_caves.json"},{"names":["Bob"],"world":"./examples/lantern_caves.json"}]}' > twice.json
ends 3 'refused: GameTwice 1' reach twice.json
ends 5 'device failed' reach no_such_file.json
ends 5 'device failed' reach examples
if [ -e seed_2.json ]; then
  echo "differs: a refused generate wrote a file"
  differ=$((differ + 1))
fi

# ---- seed files

seed() {
  sed "s/$1/$2/" examples/room_a.json > changed.json
  ends 7 "multidata refused: $3" drive changed.json
}

seed '"teams":1' '"taems":1' 'MissingField /teams'
seed 'mw-multidata-1' 'mw-world-1' 'OtherFormat /format'
seed '"teams":1' '"teams":0' 'WrongKind /teams'
seed '"hint_cost":10' '"hint_cost":1e1' 'NotWhole /server/hint_cost'
seed '\["Ann"\]' '["Annabella Mary Jane"]' 'NameTooLong /slots/0/names/0'
seed '\["Bob"\]' '["Ann"]' 'DuplicateName /slots/1/names/0'
seed '"Coin":8' '"Coin":9' 'DuplicateId /games/G/item_name_to_id/Map'
seed '\[\[5,0\]\]' '[[6,0]]' 'UnknownName /slots/0/start/0/0'
seed '\[1,101,7,2,1\]' '[1,101,7,2,3]' 'WrongKind /locations/0/4'
seed '\[1,101,7,2,1\]' '[1,101,7,3,1]' 'UnknownName /locations/0/3'
seed '\[1,101,7,2,1\]' '[1,201,7,2,1]' 'WrongOrder /locations/1'
seed '"spheres":\[\]' '"spheres":[[[3,0]]]' 'UnknownName /spheres/0/0/0'
seed '"teams":1' '"teams":1,}' 'NoJson /'
printf '%65s' '' | tr ' ' '[' > deep.json
printf '%65s' '' | tr ' ' ']' >> deep.json
ends 7 'multidata refused: TooDeep /' drive deep.json
head -c 67108865 /dev/zero > long.json
ends 7 'multidata refused: TooLong /' drive long.json
rm long.json

# ---- journals

ends 7 'journal refused: NotEmpty' new-room examples/room_a.json room.journal
ends 7 'journal refused: NotJournal' drive examples/room_a.json mistyped.journal
if [ ! -e mistyped.journal ] || [ -s mistyped.journal ]; then
  echo "differs: a mistyped journal leaves no empty file"
  differ=$((differ + 1))
fi
sed 's/"teams":1/"teams": 1/' examples/room_a.json > blank.json
ends 7 'journal refused: OtherSeed' drive blank.json room.journal
ends 7 'multidata refused: NoJson /' drive room.journal examples/room_a.json
mkdir folder
ends 5 'device failed' new-room examples/room_a.json folder
ends 5 'device failed' drive examples/room_a.json folder
ends 5 'device failed' drive examples/room_a.json no_such_folder/room.journal
ends 5 'device failed' drive no_such_file.json room.journal
ends 5 'device failed' generate examples/players.json folder --seed 7
if [ "$(id -u)" != 0 ]; then
  chmod a-w folder room.journal
  ends 5 'device failed' new-room examples/room_a.json folder/room.journal
  ends 5 'device failed' drive examples/room_a.json room.journal
  chmod u+w folder room.journal
fi

# ---- rooms that aren't hosted

"$program" new-room examples/room_a.json hosted.journal > out.txt
ends 7 'journal refused: NotJournal' serve examples/room_a.json mistyped_room.journal --bind 127.0.0.1:1
if [ ! -e mistyped_room.journal ] || [ -s mistyped_room.journal ]; then
  echo "differs: a mistyped journal of a hosted room leaves no empty file"
  differ=$((differ + 1))
fi
ends 7 'journal refused: OtherSeed' serve blank.json hosted.journal --bind 127.0.0.1:1
ends 7 'multidata refused: NoJson /' serve hosted.journal examples/room_a.json --bind 127.0.0.1:1
ends 5 'device failed' serve no_such_file.json hosted.journal --bind 127.0.0.1:1
ends 5 'device failed' serve examples/room_a.json folder --bind 127.0.0.1:1
for address in 127.0.0.1 38281 192.0.2.1:38281 127.0.0.1:65536 nowhere ''; do
  ends 5 'device failed' serve examples/room_a.json hosted.journal --workers=64 --accept=4294967295 --bind "$address"
done
if [ "$(stat -c %s hosted.journal)" != 41 ]; then
  echo "differs: a room that wasn't hosted changed its journal"
  differ=$((differ + 1))
fi

# ---- lines of a script that are refused, and some that aren't

script() {
  printf "$2" | "$program" drive examples/room_a.json > out.txt 2> err.txt
  local found=$?
  if [ "$found $(cat err.txt)" != "$1" ]; then
    echo "differs: the script $2 ends with $found and '$(cat err.txt)'"
    differ=$((differ + 1))
  fi
}

script '0 ' 'open\n# a comment \r\ntext 1 [] \r\ntake 1'
script '0 ' 'open 007\n\ntake 01\nlost 1\ncommit\ncrash\n'
for line in 'open\r' 'take 1 ' '\r' ' open' 'text  1 []' 'take' 'text 1' 'open x' 'Open' 'open 18446744073709551616' '\357\273\277open' '# \377'; do
  script '7 script refused: line 2' "open\n$line\n"
done

# ---- the pages and the tools

if command -v python3 > /dev/null; then
  PYTHONDONTWRITEBYTECODE=1 python3 "$top/bench/pages.py" "$top" "$work/pages"
  differ=$((differ + $?))
  PYTHONDONTWRITEBYTECODE=1 python3 "$top/bench/pages_live.py" "$program" "$work/live"
  differ=$((differ + $?))
else
  echo "no python3: the commands of the pages and the tools are left out"
fi
MULTIWORLD=$program "$top/bench/clients.sh" || differ=$((differ + 1))
MULTIWORLD=$program "$top/bench/page.sh" || differ=$((differ + 1))
echo "$differ differences"
[ "$differ" = 0 ]
