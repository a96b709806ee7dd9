#!/usr/bin/env bash
# Vexes an office that stays up, over sockets of this machine, and looks how it bears that, as
#
#     bash examples/a-roof/endure.sh [PATH-OF-OFFICE]
#
# A device behind a gateway is dead, one is late, a line answers nothing, one resets its connection in the midst of
# frames, one floods, one is away while orders for it come, callers take their time, a disk is full, and a clock is set.
# Each line of standard output says what was wanted and what came; where these aren't the same somewhere, the status is
# 1 at the end. Without a path it proves and builds the program first. It takes a minute and a half, works in a new
# folder of its own, which it leaves, and needs curl, Python 3, and the ports 15030 to 15038 and 18090 to 18092. For the
# disk it needs to be root, and for the clock Debian's package faketime: where it can't have these it says so, and tries
# the rest.
set -Eeuo pipefail
. "$(dirname "$0")/shared.sh"
needs curl 'which asks the office over HTTP'
needs python3 'which plays the devices'
for port in {15030..15038} {18090..18092}; do needs_port "$port"; done
find_office "$@"
program=$office
tell 'vexes the office for a minute and a half.'
work=$(mktemp -d)
cd "$work"
mkdir all clock disk disk/room
held=0
failed=0

# What it started ends with it, and so does what it took of the system.
leave() {
    local player
    clear_up
    wait 2> /dev/null || true
    ! mountpoint -q "$work/disk/room" || umount "$work/disk/room" || true
    # A program that a signal ends under faketime leaves these.
    for player in "${players[@]}"; do rm -f /dev/shm/{faketime_shm,sem.faketime_sem}_"$player"; done
}
trap leave EXIT

# Says what was wanted and what came, and whether that holds.
check() {
    local verdict=holds most=${2#at most }
    if [[ $3 == "$2" ]] || { [[ $most != "$2" && $3 =~ ^[0-9]+$ ]] && (($3 <= most)); }; then
        held=$((held + 1))
    else
        verdict=FAILS
        failed=$((failed + 1))
    fi
    echo "$verdict: $1: wanted $2, came $3"
}

# Waits until so many seconds have passed since the beginning.
at() {
    local left=$((began + $1 * 1000 - ${EPOCHREALTIME/[.,]/} / 1000))
    ((left <= 0)) || sleep "$((left / 1000)).$(printf %03d $((left % 1000)))"
}

# The slot of so many seconds after the beginning.
slot_at() {
    echo $(((began / 1000 + $1) / 2))
}

# Waits until a file has a text, for so many seconds at most.
await() {
    local end=$((SECONDS + $1))
    until grep -qF -- "$3" "$2" || ((SECONDS > end)); do sleep 0.1; done
}

# How often a file has a text.
count() {
    grep -cF -- "$2" "$1" || true
}

# Puts lines into one, with this between them.
join() {
    paste -sd "$1" | sed 's/^$/none/'
}

# What the office of a folder told behind these words.
told() {
    sed -n "s/^.* office: $2//p" "$1/listening" | sed 's/: no slot .*//' | join , | sed 's/,/, /g'
}

# Asks the office at a port.
ask() {
    curl --silent --max-time 5 "${@:3}" "http://127.0.0.1:$1$2" || true
}

# Orders under a key that a point be set to a value; prints the answer's status.
order() {
    ask "$1" "/callers/ann/orders/$2" -X PUT -d "{\"point\":\"$3\",\"value\":$4}" -o answer -w '%{http_code}\n'
}

# How an order stands.
state() {
    ask "$1" "/callers/ann/orders/$2" | sed -n 's/.*"state":"\([a-z]*\)".*/\1\n/p'
}

# The readings of a point in these slots, each as its slot, a comma and its text.
readings() {
    ask "$1" "/points/$2/readings/$3/$4" | { grep -oE '[0-9]+,("[^"]*"|null)' || true; } | tr -d '"'
}

# Looks whether each of these slots has a reading of each of these points that was made in it: its text is the number of
# the slot in which the device answered.
check_slots() {
    local what=$1 port=$2 from=$3 to=$4 point
    for point in "${@:5}"; do
        check "$what: slots from $from to $to that lack their reading of $point" none "$(
            readings "$port" "$point" "$from" "$to" | awk -F, -v from="$from" -v to="$to" '{ has[$1] = $2 }
                END { for (slot = from; slot <= to; slot++) if (has[slot] != slot % 60000) print slot }' | join ' '
        )"
    done
}

# The milliseconds of processor time that a process had.
used() {
    local numbers
    read -ra numbers < "/proc/$1/stat"
    echo $(((numbers[13] + numbers[14]) * 1000 / $(getconf CLK_TCK)))
}

# How many milliseconds an answer took, of which the status and the seconds are told.
waited() {
    awk '{ print $1 == "200" ? int($2 * 1000) : "status " $1 }' <<< "$1"
}

# A list with a gauge of each of these devices, and the points that standard input has.
list() {
    echo name,device,table,address,type,length,scale,role,roll
    for device; do echo "$device.slot,$device,holding,10,uint16,,,gauge,"; done
    cat
}

# A site with one line and one device of the same name.
site() {
    echo "line = [{ name = \"$1\", address = \"127.0.0.1:$2\" }]"
    echo "device = [{ name = \"$1\", line = \"$1\", unit = 1 }]"
}

# Keeps an office up over the site of a folder and a store, at a port.
keep_up() {
    cd "$work/$1"
    start run --store "$2" --site site.toml --every 2 --timeout 1 --port "$3"
    cd "$work"
}

# The program, by a clock that is off by what the file `offset` says.
run_off() {
    LD_PRELOAD=$faketime FAKETIME_TIMESTAMP_FILE=$work/offset FAKETIME_NO_CACHE=1 FAKETIME_DONT_FAKE_MONOTONIC=1 \
        NO_FAKE_STAT=1 exec "$program" "$@"
}

# Sets that clock off by so many seconds, at once.
set_clock() {
    echo "$1" > offset.new
    mv offset.new offset
}

cat > all/site.toml << 'TOML'
line = [
    { name = "good", address = "127.0.0.1:15030" },
    { name = "gateway", address = "127.0.0.1:15031" },
    { name = "flood", address = "127.0.0.1:15032" },
    { name = "late", address = "127.0.0.1:15033" },
    { name = "away", address = "127.0.0.1:15034" },
    { name = "mute", address = "127.0.0.1:15037" },
    { name = "torn", address = "127.0.0.1:15038" },
]
device = [
    { name = "good", line = "good", unit = 1 },
    { name = "near", line = "gateway", unit = 1 },
    { name = "far", line = "gateway", unit = 2 },
    { name = "flood", line = "flood", unit = 1 },
    { name = "late", line = "late", unit = 1 },
    { name = "away", line = "away", unit = 1 },
    { name = "mute", line = "mute", unit = 1 },
    { name = "torn", line = "torn", unit = 1 },
]
TOML
# Each second address, so that each point is a read of its own.
for address in {100..138..2}; do echo "near.$address,near,holding,$address,uint16,,,gauge,"; done |
    list good near far flood late away mute torn > all/points.csv
for device in good away; do echo "$device.limit,$device,holding,40,uint16,,,setting,"; done >> all/points.csv
site clock 15035 > clock/site.toml
list clock > clock/points.csv << 'CSV'
clock.limit,clock,holding,40,uint16,,,setting,
clock.count,clock,holding,107,uint16,,,counter,59999
CSV
site disk 15036 > disk/site.toml
list disk > disk/points.csv <<< disk.limit,disk,holding,40,uint16,,,setting,

faketime=$(compgen -G '/usr/lib/*/faketime/libfaketime.so.1' | head -n 1 || true)
has_clock=false
if [[ -z $faketime ]]; then
    tell 'sets no clock, since there is no libfaketime, which is in the package faketime'
elif ! ldd "$program" > /dev/null 2>&1; then
    tell 'sets no clock, since nothing can be loaded before a program that is linked statically'
else
    has_clock=true
fi
has_disk=false
if mount -t tmpfs -o size=2m tmpfs disk/room 2> refused; then
    has_disk=true
else
    tell "fills no disk, since none can be mounted: $(head -n 1 refused)"
fi
for store in all/roof.db clock/roof.db disk/room/roof.db; do
    "$program" load --store "$store" --site "${store%%/*}/site.toml" --caller ann --key l1 "${store%%/*}/points.csv"
done > loaded

mkfifo said
exec 3<> said
bash "$here/vex.sh" good=15030 gateway=15031 flood=15032 late=15033 away=15034 clock=15035 disk=15036 mute=15037 \
    torn=15038 < said > heard &
players+=($!)
for line in good gateway flood late clock mute torn disk; do echo "open $line" >&3; done
echo 'silent gateway 1' >&3
echo 'silent mute 1' >&3
echo 'reset torn' >&3
echo 'late late 1.5' >&3
await 5 heard 'disk is open'

# All is timed by seconds after this, which is in milliseconds, and the beginning of a slot. Odd ones are in the middle
# of a slot, when lines rest.
began=$(((${EPOCHREALTIME/[.,]/} / 2000000 + 1) * 2000))
at 0
keep_up all roof.db 18090
all=${players[-1]}
set_clock +0
! $has_clock || office=run_off keep_up clock roof.db 18091
! $has_disk || keep_up disk room/roof.db 18092

at 1
accepted=$(for key in 1 2 3 4; do order 18090 k$key away.limit ${key}0; done | join ' ')
at 5
echo 'open away' >&3

at 7
set_clock -3600
! $has_disk || head -c 4M /dev/zero 2> refused > disk/room/filling || true
at 9
behind=$(! $has_clock || order 18091 k1 clock.limit 80)
full=$(! $has_disk || order 18092 k1 disk.limit 80)
at 10
behind="$behind $(! $has_clock || state 18091 k1)"
at 11
set_clock +0
echo 'speak gateway 1' >&3
echo 'calm torn' >&3
rm -f disk/room/filling
at 12
soon=$(order 18090 k5 good.limit 50)
at 13
soon="$soon $(state 18090 k5)"
full="$full $(! $has_disk || order 18092 k1 disk.limit 80)"
at 15
set_clock +3600

at 17
echo 'flood flood' >&3
await 5 all/listening 'line flood is down'
at 19
set_clock +0
used=$(used "$all")
at 29
used=$(($(used "$all") - used))
echo 'calm flood' >&3

at 31
echo 'call 18090 64' >&3
await 5 heard '64 callers are there'
took=$(ask 18090 /points/good.slot/readings/1/1 --max-time 16 -o answer -w '%{http_code} %{time_total}')
at 47
echo 'leave' >&3
at 48
echo 'begin 18090 20' >&3
await 5 heard '20 callers are there'
beside=$(ask 18090 /points/good.slot/readings/1/1 -o answer -w '%{http_code} %{time_total}')
echo 'leave' >&3
at 50

check_slots 'a dead device' 18090 "$(slot_at 2)" "$(slot_at 8)" far.slot
check 'a dead device: times that it was told' 1 "$(count all/listening 'device near of line gateway is silent')"
check 'a dead device: times that it was told to answer again' 1 \
    "$(count all/listening 'device near of line gateway answers again')"
check_slots 'a dead device that is alive again' 18090 "$(slot_at 14)" "$(slot_at 26)" near.slot near.138 far.slot

check_slots 'a late device' 18090 "$(slot_at 2)" "$(slot_at 26)" late.slot
check 'a late device: times that its line was told to be down' 0 "$(count all/listening 'line late is down')"

check 'a line that answers nothing: why it was told to be down' 'nothing was answered in time' \
    "$(told all 'line mute is down: ')"
check 'a line that resets in the midst of frames: why it was told to be down' 'the connection ended' \
    "$(told all 'line torn is down: ' | sed 's/, /\n/g' | sort -u | join ,)"
check_slots 'a line that resets no more' 18090 "$(slot_at 20)" "$(slot_at 26)" torn.slot

check 'an order: its status, and how it stands a second later' '201 done' "$soon"
check 'orders for a line that is away: statuses' '201 201 201 201' "$accepted"
check 'orders for a line that is away: sent once it is there' '10 20 30 40 in 1 slots' "$(
    awk '/^away was set/ { values = values $5 " "; slots[$8] } END { print values "in " length(slots) " slots" }' heard
)"
check 'orders for a line that is away: states' 'done done done done' \
    "$(for key in 1 2 3 4; do state 18090 k$key; done | join ' ')"

check 'a flood: why its line was told to be down' 'it sends what nobody asked for' \
    "$(told all 'line flood is down: ' | sed 's/, .*//')"
check 'a flood: milliseconds of processor time in the next ten seconds' 'at most 1000' "$used"
check_slots 'a flood' 18090 "$(slot_at 18)" "$(slot_at 26)" good.slot far.slot late.slot

check '64 callers whose body takes its time: milliseconds until another one is answered' 'at most 12000' \
    "$(waited "$took")"
check 'beside 20 callers whose head never ends: milliseconds until another one is answered' 'at most 500' "$(waited "$beside")"
check_slots '64 callers whose body takes its time' 18090 "$(slot_at 34)" "$(slot_at 44)" good.slot far.slot late.slot

if $has_disk; then
    check 'a full disk: statuses of an order and of the same one later' '503 201' "$full"
    check 'a full disk: told of the store' 'refuses: full, takes what comes again' "$(told disk 'the store ')"
    check 'a full disk: times that the line was told to be down' 0 "$(count disk/listening 'line disk is down')"
    check_slots 'a full disk' 18092 "$(slot_at 2)" "$(slot_at 4)" disk.slot
    check_slots 'a disk that has room again' 18092 "$(slot_at 14)" "$(slot_at 28)" disk.slot
fi

if $has_clock; then
    tell 'waits until the clock is followed again, a minute after it jumped'
    at 83
    check 'a clock that is set back, right, ahead and right: told' \
        "stands behind slot $(slot_at 6), jumped ahead, jumped ahead, is followed again, has caught up" \
        "$(told clock 'the clock ')"
    check 'a clock that is set back: an order is' '201 done' "$behind"
    check_slots 'before a clock is set' 18091 "$(slot_at 0)" "$(slot_at 6)" clock.slot
    check_slots 'once a clock is followed again' 18091 "$(slot_at 78)" "$(slot_at 80)" clock.slot
    check 'a clock that is set: slots with a reading that was made in another one' none "$(
        readings 18091 clock.slot "$(slot_at -4000)" "$(slot_at 4000)" | awk -F, '$1 % 60000 != $2 { print $1 }' |
            join ' '
    )"
    check 'a clock that is set: the total of what counts' \
        "$(readings 18091 clock.count "$(slot_at 0)" "$(slot_at 4000)" |
            awk -F, 'NR == 1 { first = $2 } { last = $2 } END { print (last - first + 60000) % 60000 }')" \
        "$(ask 18091 /points/clock.count/total | sed -n 's/.*"total":"\([0-9]*\)".*/\1/p')"
fi

tell "what the offices told, and their stores and files, stand in $work"
tell "$held checks hold, and $failed fail, after $SECONDS seconds"
[[ $failed == 0 ]] || exit 1
