#!/usr/bin/env bash
# Plays a whole game against `serve` on this machine with WebSocket clients that others wrote: python3-websockets (bench/clients_websockets.py) and node-ws (bench/clients_ws.js), as Debian packages them. It chats,
# buys a hint, keeps a value, sends a death link, has each told of the others' checks, kills the server in the middle and starts it again (bench/clients.py). It prints what was done, names the clients that it left out
# because they aren't installed, and ends within three minutes with a line that says that all is right, or what isn't. Where none is installed it does nothing.
# The program is crates/mw_cli/out/mw_cli, or what the variable MULTIWORLD names. Run after `rt run` in crates/mw_cli, which leaves the program.
set -eu
top=$(dirname "$(dirname "$(realpath "$0")")")
program=$(realpath -m "${MULTIWORLD:-$top/crates/mw_cli/out/mw_cli}")
[ -x "$program" ] || { echo "build it first: (cd crates/mw_cli && rt run)" >&2; exit 1; }
export MULTIWORLD=$program PYTHONDONTWRITEBYTECODE=1 NODE_PATH=/usr/share/nodejs
found=()
for python in python3 /usr/bin/python3; do
  if "$python" -c 'import websockets' 2> /dev/null; then
    found+=("$python $top/bench/clients_websockets.py")
    break
  fi
done
[ ${#found[@]} = 1 ] || echo "left out: python3-websockets isn't installed"
if node -e 'require("ws")' 2> /dev/null; then
  found+=("node $top/bench/clients_ws.js")
else
  echo "left out: node-ws isn't installed"
fi
[ ${#found[@]} != 0 ] || { echo "no such client is installed: nothing is done"; exit 0; }
timeout -k 5 180 python3 "$top/bench/clients.py" "${found[@]}"
