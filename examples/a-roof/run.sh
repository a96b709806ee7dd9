#!/usr/bin/env bash
# Keeps an office up beside two devices on this machine, and says where its page is, as
#
#     bash examples/a-roof/run.sh [PATH-OF-OFFICE]
#
# and orders, asks and reports meanwhile. In a terminal it stays up until Enter is pressed, and else for three slots of
# four seconds. Without a path it proves and builds the program first. It works in a new folder of its own, which it
# leaves, and needs curl and the ports 15020, 15021 and 18080. Where it can't go on it says why, and ends with status 1.
set -Eeuo pipefail
. "$(dirname "$0")/shared.sh"
needs curl 'which asks the office over HTTP'
for port in 15020 15021 18080; do needs_port "$port"; done
tell 'keeps an office up beside two devices that it plays, with slots of four seconds.'
find_office "$@"
cd "$(mktemp -d)"
cp "$here"/site.toml "$here"/devices.toml "$here"/points.csv .
store=(--store roof.db --site site.toml)

# Prints a call of curl and what it prints.
ask() {
    echo "\$ curl $*"
    curl --silent --max-time 5 "$@"
    echo
}

"$office" load "${store[@]}" --caller ann --key l1 points.csv
start sim --image devices.toml --port 15020
start sim --image devices.toml --port 15021
start run "${store[@]}" --every 4 --timeout 2 --port 18080 < /dev/null
at=http://127.0.0.1:18080
tell "the office is up. Its page: $at/"
sleep 1
ask -X PUT -d '{"point":"inverter.limit","value":80}' "$at/callers/ann/orders/k1"
sleep 1
ask "$at/callers/ann/orders/k1"
if [[ -t 0 ]]; then
    tell "look at $at/ in a browser; Enter ends the office"
    read -r || true
else
    sleep 10
fi
slot=$(($(date +%s) / 4))
ask "$at/points/inverter.limit/readings/$((slot - 3))/$slot"
ask "$at/points"
ask "$at/metrics" | grep -E '^(\$|kimjolde_(line_up|rounds))'
kill "${players[2]}"
wait "${players[2]}" || echo "ended by a signal, as any stop may end it"
"$office" report "${store[@]}" meter.power $((slot - 3)) $((slot + 3))
tell "its store and files stand in $PWD"
