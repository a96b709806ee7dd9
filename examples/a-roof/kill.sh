#!/usr/bin/env bash
# Kills an office that stays up fifty times, each at another moment of its rounds, as
#
#     bash examples/a-roof/kill.sh [PATH-OF-OFFICE]
#
# and looks each time, when it is up again, whether all is there that it had answered: every order that it accepted,
# done where it was done, and every reading that it told, as it told it. Without a path it proves and builds the program
# first. It takes three minutes, works in a new folder of its own, which it leaves, and needs curl, Python 3 and the
# ports 15020, 15021 and 18080. Where something is missing, or it can't go on, it says so and ends with status 1.
set -Eeuo pipefail
. "$(dirname "$0")/shared.sh"
needs curl 'which asks the office over HTTP'
needs python3 'which plays devices'
for port in 15020 15021 18080; do needs_port "$port"; done
tell 'kills an office fifty times beside two devices that it plays, in slots of two seconds.'
find_office "$@"
cd "$(mktemp -d)"
cp "$here"/site.toml "$here"/points.csv .
store=(--store roof.db --site site.toml)
address=http://127.0.0.1:18080
orders=0
# For each order, by its key: what was told of it last.
told=()
readings=''

# Prints the body of an answer, and fails where there is none.
get() {
    curl --silent --fail --max-time 5 "$address/$1"
}

# All orders that were accepted are there, and none that was done waits again.
look_at_orders() {
    local key now
    for ((key = 1; key <= orders; key++)); do
        now=$(get "callers/ann/orders/k$key") || stop "order k$key, which was accepted, isn't there in round $round"
        [[ $now != *'"waiting"'* || ${told[key]} != *'"done"'* ]] ||
            stop "order k$key was done and waits in round $round"
        told[key]=$now
    done
}

# All readings that were told are there, as they were, and perhaps more behind them.
look_at_readings() {
    local now
    now=$(get "points/meter.power/readings/$first/$(($(date +%s) / 2))") || stop "no readings are told in round $round"
    [[ $now == "${readings%]\}}"* ]] || stop "readings are missing in round $round: $readings became $now"
    readings=$now
}

"$office" load "${store[@]}" --caller ann --key l1 points.csv
mkfifo said
exec 3<> said
: > heard
bash "$here/vex.sh" hall=15020 roof=15021 < said >> heard &
players+=($!)
printf 'open hall\nopen roof\n' >&3
until grep -q 'roof is open' heard; do sleep 0.1; done
first=$(($(date +%s) / 2))
for ((round = 1; round <= 50; round++)); do
    start run "${store[@]}" --every 2 --timeout 1 --port 18080 < /dev/null
    run=${players[-1]}
    [[ -z $readings ]] || look_at_readings
    look_at_orders
    curl --silent --fail --max-time 5 --output accepted -X PUT -d "{\"point\":\"inverter.limit\",\"value\":$round}" \
        "$address/callers/ann/orders/k$round" || stop "an order wasn't accepted in round $round"
    orders=$round told[round]=$(< accepted)
    sleep "1.$((RANDOM % 10))$((RANDOM % 10))"
    look_at_readings
    sleep "0.$((RANDOM % 10))$((RANDOM % 10))"
    kill -KILL "$run"
    wait "$run" 2> /dev/null || true
    unset 'players[-1]'
done
# The last one is asked for without an office that is up.
"$office" report "${store[@]}" meter.power "$first" $(($(date +%s) / 2)) > report.txt
count=$(grep -oE '\[[0-9]+,' <<< "$readings" | wc -l)
finished=$(grep -c '"done"' <<< "$(printf '%s\n' "${told[@]}")" || true)
tell "killed 50 times: $orders orders that were accepted, of which $finished were seen done, and $count readings of a"
tell "point that were told were there each time."
tell "its store and files stand in $PWD"
