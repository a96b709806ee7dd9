#!/usr/bin/env bash
# A first look at the program `office`: it stays up beside a roof with its devices and shows its page (run.sh); then the
# devices are polled slot by slot, ordered, reported and served, as
#
#     bash examples/a-roof/try.sh --quick [PATH-OF-PLAYER]
#     bash examples/a-roof/try.sh [PATH-OF-OFFICE]
#
# With --quick the player of the pages, which it compiles without a proof where no path says where one is, plays
# roof.md in one process, over no socket, and what was played is printed. Without --quick and without a path it proves
# and builds the program first, and goes on from what an earlier try left. It works in a new folder of its own, which it
# leaves, and needs curl and the ports 15020 to 15022 and 18080. Standard output has what the office says, standard error the
# rest. Where it can't go on it says why, and ends with status 1.
set -Eeuo pipefail
. "$(dirname "$0")/shared.sh"

# Compiles the player of the pages, and plays a page with it.
play_unproved() {
    local file files=()
    cd "$repository/crates/cases_office" || return
    for file in data/examples/a-roof/*; do files+=(--data "${file#data/}=$file"); done
    rt try --seconds 300 "${files[@]}" -- "$1"
}

# Plays a page with a player that is built.
play_built() {
    cp -r "$repository/crates/cases_office/data/examples" "$room" && cd "$room" && "$2" "$1"
}

# Plays the page of the roof, and prints the commands on it and what they print.
quick() {
    local page=examples/a-roof/roof.md told=$room/told player
    if [[ $# -gt 0 ]]; then
        [[ -f $1 && -x $1 ]] || stop "$1 is no program"
        player=$(realpath "$1")
        (play_built "$page" "$player") > "$told" ||
            { cat "$told" >&2; stop "the office doesn't say what $page has: see above"; }
    else
        needs rt 'which is of a Rattle kit, and compiles the player'
        tell 'compiles the player of the pages, without a proof, which took three and a half minutes on a quiet machine'
        (play_unproved "$page") > "$told" ||
            { cat "$told" >&2; stop "the player wasn't compiled, or the office doesn't say what $page has: see above"; }
    fi
    grep -q "^$page [1-9][0-9]*$" "$told" || stop "the player told of no case on $page"
    sed -n '/^```console/,/^```$/p' "$repository/crates/cases_office/data/$page" | grep -v '^```'
    tell "all of that was played, and came out as the page has it, after $SECONDS seconds"
}

if [[ ${1:-} == --quick ]]; then
    quick "${@:2}"
    exit
fi
needs curl 'which asks the office over HTTP'
for port in 15020 15021 15022 18080; do needs_port "$port"; done
find_office "$@"
bash "$here/run.sh" "$office"
tell 'polls the devices slot by slot now, orders, reports and serves.'
cd "$(mktemp -d)"
cp "$here"/*.toml "$here"/*.csv .
store=(--store roof.db --site site.toml)

# Prints a command, with its words as a shell would take them.
show() {
    printf '$'
    for word; do
        [[ $word =~ ^[[:alnum:]_./:-]+$ ]] || word="'$word'"
        printf ' %s' "$word"
    done
    echo
}

# Prints a command of the office and what it prints.
run() {
    show office "$@"
    "$office" "$@" 2>&1 || echo "status $?"
}

# Polls a line for a slot, while the devices of an image answer on a port.
poll() {
    start sim --image "$1" --port "$2"
    run poll "${store[@]}" --slot "$3" --timeout 1 "$4"
    wait "${players[-1]}"
}

# Polls both lines for a slot, in which the registers of the meter and of the inverter begin with these.
poll_both() {
    sed "s/65000, 1200, 9029, 1/$2/; s/420, 315/$3/" devices.toml > devices-now.toml
    poll devices-now.toml 15020 "$1" hall
    poll devices-now.toml 15021 "$1" roof
}

# Prints a call of curl and what it prints.
ask() {
    show curl "$@"
    curl -s -S "$@"
    echo
}

run plan --site site.toml points.csv
run load "${store[@]}" --caller ann --key l1 points.csv
# The same request again counts once.
run load "${store[@]}" --caller ann --key l1 points.csv

# From slot 2 to slot 3 the counter goes through 65535 and on from 0. The meter's power 65186 is -350 as
# an int16, and the inverter's 65535 means that it has none. The water is misread in slot 2.
poll_both 1 '65000, 1200, 9029, 1' '420, 315'
poll_both 2 '65400, 65186, 1000, 0' '510, 402'
poll_both 3 '120, 0, 9064, 1' '65535, 388'

# In slot 4 the inverter's reply is lost. Polled again, it is asked again.
(echo 'script = ["drop"]'; cat devices.toml) > losing.toml
poll losing.toml 15021 4 roof
poll devices.toml 15021 4 roof

run order "${store[@]}" --caller ann --key k1 inverter.limit 80
run order "${store[@]}" --caller ann --key k1 inverter.limit 80
run order "${store[@]}" --caller ann --key k1 inverter.limit 81
run order "${store[@]}" --caller ann --key k2 meter.power -- -5
# The order goes out first, so slot 5 has the new limit.
poll devices.toml 15021 5 roof

for point in meter.energy meter.power inverter.power inverter.heat inverter.limit; do
    run report "${store[@]}" "$point" 1 5
done

# The misread slot counts as if the counter had gone round, until it is voided.
run report "${store[@]}" meter.water 1 5
run void "${store[@]}" --caller ann --key v1 meter.water 2
run report "${store[@]}" meter.water 1 5

start serve "${store[@]}" --port 0 --count 7
at=http://$(sed -n 's/.*listening on //p' listening)
ask "$at/points/meter.energy/total"
ask "$at/points/inverter.power/readings/1/5"
ask "$at/points/inverter.limit/readings/1/5"
ask "$at/callers/ann/orders/k1"
ask "$at/callers/ann/orders/k2"
ask -i -X PUT -d '{"point":"inverter.limit","value":90}' "$at/callers/ann/orders/k3"
ask -X PUT -d '{"point":"inverter.limit","value":90}' "$at/callers/ann/orders/k3"
wait "${players[-1]}"

# A SunSpec device says itself which models it has and where; the last line that is printed is its member in
# the site file, and its list names points by model.
start sim --image sunspec.toml --port 15022
run discover --site sunspec-site.toml --timeout 1 string > discovered
wait "${players[-1]}"
cat discovered
tail -n 1 discovered >> sunspec-site.toml

store=(--store sunspec.db --site sunspec-site.toml)
run plan --site sunspec-site.toml sunspec-points.csv
run load "${store[@]}" --caller ann --key l1 sunspec-points.csv
poll sunspec.toml 15022 1 yard
# An hour later it has made 4,300 Wh more.
sed 's/1, 34464, 0/1, 38764, 0/' sunspec.toml > sunspec-now.toml
poll sunspec-now.toml 15022 2 yard
for point in string.power string.energy string.state string.serial string.east string.west; do
    run report "${store[@]}" "$point" 1 2
done

tell "that was the roof. The program stands at $office; its store and files at $PWD. Next:"
tell "$office --help; docs/RUNNING.md says how an office stays up."
