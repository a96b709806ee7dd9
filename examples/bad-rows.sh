#!/usr/bin/env bash
# Shows that a row that no office writes is refused by whoever comes upon it, and that the store stays as it is, as
#
#     bash examples/bad-rows.sh PATH-OF-OFFICE
#
# An office polls a month of hours into a new store. Then `sqlite3`, SQLite's own program, makes one row of a copy of it
# wrong, and commands come upon it: each says `office: store other` and ends with status 1, or tells its caller of the
# store; the file has the checksum of before, and its tables hold what they held. Where one doesn't, that is told, and
# the status is 1 at the end. It takes a minute or two, works in a new folder of its own, which it leaves, and needs
# sqlite3, curl and port 15020.
set -Eeuo pipefail
office=$(realpath "${1:?usage: bad-rows.sh PATH-OF-OFFICE}")
for command in sqlite3 curl sha256sum; do
    [[ -n $(type -P $command) ]] || { echo "bad-rows.sh: there is no command $command" >&2; exit 1; }
done
cd "$(mktemp -d)"
cat > site.toml << 'TOML'
line = [{ name = "hall", address = "127.0.0.1:15020" }]
device = [{ name = "m1", line = "hall", unit = 17 }]
TOML
cat > points.csv << 'CSV'
name,device,table,address,type,length,scale,role,roll
energy,m1,holding,107,uint16,,,counter,
water,m1,holding,108,acc32,,,counter,
power,m1,holding,110,int16,,-1,gauge,
name,m1,holding,111,string,2,,gauge,
limit,m1,holding,113,uint16,,,setting,
CSV
player=
trap '[[ -z $player ]] || kill "$player" 2> /dev/null || true' EXIT

# Starts a command of the office behind the script, and waits until it listens.
start() {
    : > listening
    "$office" "$@" 2> listening &
    player=$!
    until grep -q 'listening on' listening; do
        kill -0 "$player" 2> /dev/null || { cat listening >&2; exit 1; }
        sleep 0.01
    done
}

# Waits until that command ends.
finish() {
    wait "$player" || true
    player=
}

# Plays the meter for one connection, as it is in a slot: both counters go up by 37, and the first one goes round.
play() {
    printf '[[unit]]\nid = 17\nholding_start = 107\nholding = [%d, 0, %d, 1200, 16706, 17220, 50]\n' \
        $(((60000 + 37 * $1) % 65536)) $((1 + 37 * $1)) > devices.toml
    start sim --image devices.toml --port 15020
}

# Polls a store for a slot. What that says comes after the player has ended.
poll() {
    local status=0
    play "$2"
    "$office" poll --store "$1" --site site.toml --slot "$2" --timeout 1 hall > polled 2>&1 || status=$?
    finish
    cat polled
    return $status
}

"$office" load --store month.db --site site.toml --caller ann --key l1 points.csv
for slot in $(seq 720); do
    poll month.db "$slot" > answered || true
    grep -q '^asked 1 recorded 5 ' answered || { cat answered >&2; exit 1; }
done
"$office" report --store month.db --site site.toml energy 719 720
echo "integrity_check: $(sqlite3 month.db 'PRAGMA integrity_check')"
sqlite3 month.db "SELECT 'counters: ' || count(*) || ', with a total: ' || count(value)
    FROM point LEFT JOIN total ON point = number WHERE role = 2"
failed=0

# What the tables hold, their log taken in, but for the last connection's number, which a poll takes before it asks.
dump() {
    rm -rf copy && mkdir copy && cp bad.db* copy
    sqlite3 copy/bad.db .dump | grep -v "'connections'"
}

# Makes the row wrong in a new copy.
make_bad() {
    rm -f bad.db*
    cp month.db bad.db
    sqlite3 bad.db "PRAGMA foreign_keys = OFF; $statement"
    sum=$(sha256sum < bad.db)
    dump > dumped
}

# Says what came where it isn't what was wanted, or that the store isn't what it was.
check() {
    if [[ $2 != "$3" ]]; then
        failed=1
        echo "NOT REFUSED by $1: $2"
    elif [[ $(sha256sum < bad.db) != "$sum" ]] || ! dump | cmp -s - dumped; then
        failed=1
        echo "CHANGED by $1"
    fi
}

# Expects that a command refuses the store.
refuses() {
    local status=0
    make_bad
    "$@" > said 2>&1 || status=$?
    check "${*/#"$office"/office}" "$(head -n 1 said), status $status" 'office: store other, status 1'
}

# Expects that a caller over HTTP who asks for this is told of the store.
tells() {
    make_bad
    start serve "${bad[@]}" --port 0 --count 1
    curl --silent --max-time 5 "http://$(sed -n 's/.*listening on //p' listening)/points/$1" > said || true
    finish
    check "serve, asked for $1" "$(cat said)" '{"error":"store"}'
}

bad=(--store bad.db --site site.toml)
# Each line says who comes upon the row: each command, a round and a void, whoever asks for the total, or whoever reads
# this point; then what the row is, and what makes it so.
while IFS='|' read -r who what statement; do
    case $who in
        each)
            refuses "$office" report "${bad[@]}" water 719 720
            refuses "$office" poll "${bad[@]}" --slot 721 --timeout 1 hall
            refuses timeout 10 "$office" serve "${bad[@]}" --port 0 --count 1 ;;
        round)
            refuses "$office" report "${bad[@]}" energy 719 720
            refuses poll bad.db 721
            refuses "$office" void "${bad[@]}" --caller ann --key v1 energy 720
            tells energy/readings/719/720 ;;
        total)
            refuses "$office" report "${bad[@]}" energy 719 720
            refuses poll bad.db 721
            tells energy/total ;;
        *)
            refuses "$office" report "${bad[@]}" "$who" 719 720
            tells "$who/readings/719/720" ;;
    esac
    echo "$who: $what"
done << 'END'
each|a roll past the type's bits|UPDATE point SET roll = x'00000000FFFFFFFF' WHERE name = 'energy'
each|a counter without a roll|UPDATE point SET roll = x'0000000000000000' WHERE name = 'energy'
each|a gauge with one|UPDATE point SET roll = x'0000000000000001' WHERE name = 'power'
each|a string as a counter|UPDATE point SET role = 2, roll = x'0000000000000001' WHERE name = 'name'
each|a string as a setting|UPDATE point SET role = 3 WHERE name = 'name'
each|a setting among the inputs|UPDATE point SET tab = 4 WHERE name = 'limit'
each|a bit among registers|UPDATE point SET kind = 17 WHERE name = 'power'
each|a register among bits|UPDATE point SET tab = 1 WHERE name = 'energy'
each|a string with a scale|UPDATE point SET scale = 1 WHERE name = 'name'
each|a scale above 10|UPDATE point SET scale = 11 WHERE name = 'power'
each|a scale below -10|UPDATE point SET scale = -11 WHERE name = 'power'
each|a string of no registers|UPDATE point SET len = 0 WHERE name = 'name'
each|a string of 126 registers|UPDATE point SET len = 126 WHERE name = 'name'
each|an address past 65535|UPDATE point SET addr = 65535 WHERE name = 'name'
each|a name with a space|UPDATE point SET name = 'a point' WHERE name = 'power'
each|a swapped string|INSERT INTO swapped SELECT number FROM point WHERE name = 'name'
round|a counted reading without a number|UPDATE reading SET words = x'FFFF' WHERE point = 1 AND slot = 720
round|a reading of two registers, not one|UPDATE reading SET words = x'00070000' WHERE point = 1 AND slot = 720
total|a total of 2^127|UPDATE total SET value = x'80000000000000000000000000000000' WHERE point = 1
energy|a reading that counts, marked 0|UPDATE reading SET counted = 0 WHERE point = 1 AND slot = 720
energy|a voided reading, marked 1|INSERT INTO void(point, slot) VALUES (1, 720)
power|a reading of a gauge, marked 1|UPDATE reading SET counted = 1 WHERE point = 3 AND slot = 720
name|a string without its second register|UPDATE reading SET words = x'4142' WHERE point = 4 AND slot = 720
END
[[ $failed == 0 ]] && echo "each was refused, and no store changed: $PWD"
exit $failed
