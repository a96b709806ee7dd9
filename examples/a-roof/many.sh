#!/usr/bin/env bash
# Keeps an office up beside 64 lines of 150 points, in slots of two seconds, and asks it 200 times a second, as
#
#     bash examples/a-roof/many.sh [PATH-OF-OFFICE [SECONDS]]
#
# for a minute, or for so many seconds. Then it asks for each of its pages, and tells how many readings came in each
# whole slot, what the office told on standard error, how long callers and pages took, what memory and processor time
# the office took, and what the machine did meanwhile. Without a path it proves and builds the program first. It works
# in a new folder of its own, which it leaves, and needs curl, Python 3 and the ports 15100 to 15163 and 18080. Where it
# can't go on it says why, and ends with status 1.
set -Eeuo pipefail
. "$(dirname "$0")/shared.sh"
needs python3 'which plays devices and callers'
needs curl 'which asks for pages'
for port in {15100..15163} 18080; do needs_port "$port"; done
find_office "$@"
seconds=${2:-60}
tell "keeps an office up beside 64 lines of 150 points, in slots of two seconds, for $seconds seconds."
cd "$(mktemp -d)"
python3 - << 'PYTHON'
lines, points = 64, 150
with open("site.toml", "w") as site:
    for line in range(lines):
        site.write(f'[[line]]\nname = "l{line}"\naddress = "127.0.0.1:{15100 + line}"\n\n')
        site.write(f'[[device]]\nname = "d{line}"\nline = "l{line}"\nunit = 1\n\n')
for part in range(4):
    with open(f"points{part}.csv", "w") as rows:
        rows.write("name,device,table,address,type,length,scale,role,roll\n")
        for line in range(part * 16, part * 16 + 16):
            for at in range(points):
                rows.write(f"d{line}.p{at},d{line},holding,{at},uint16,,,{'counter' if at % 2 else 'gauge'},\n")
PYTHON
store=(--store many.db --site site.toml)
for part in 0 1 2 3; do "$office" load "${store[@]}" --caller ann --key "l$part" "points$part.csv"; done

# The devices of all lines.
python3 - << 'PYTHON' &
import asyncio
import struct
import time


async def serve(reader, writer):
    try:
        while True:
            query = struct.unpack(">HHHBBHH", await reader.readexactly(12))
            transaction, _, _, unit, function, _, count = query
            now = int(time.time() * 10) % 60000
            writer.write(struct.pack(">HHHBBB", transaction, 0, 3 + 2 * count, unit, function, 2 * count))
            writer.write(struct.pack(">H", now) * count)
    except (asyncio.IncompleteReadError, OSError):
        writer.close()


async def main():
    for line in range(64):
        await asyncio.start_server(serve, "127.0.0.1", 15100 + line)
    await asyncio.Event().wait()

asyncio.run(main())
PYTHON
players+=($!)
sleep 1
: > listening
"$office" run "${store[@]}" --every 2 --timeout 1 --port 18080 < /dev/null 2> listening &
players+=($!)
run=$!
until grep -q 'listening on' listening; do
    kill -0 "$run" 2> /dev/null || { cat listening >&2; stop "office run didn't come to listen: see above"; }
    sleep 0.1
done

# What the office has in memory and took of a processor.
usage() {
    awk '/^VmRSS/ { print $2 " kB" }' "/proc/$run/status"
    awk -v tick="$(getconf CLK_TCK)" '{ sub(/.*\) /, ""); print ($12 + $13) / tick " s of a processor" }' \
        "/proc/$run/stat"
}

tell "it listens: $(usage | paste -sd ' ')"

# What the machine itself did meanwhile, since what is late may be so for that.
python3 - "$seconds" << 'PYTHON' > machine &
import os
import sys
import time


def stolen():
    with open("/proc/stat") as stat:
        return int(stat.readline().split()[8]) / os.sysconf("SC_CLK_TCK")


before, end = stolen(), time.monotonic() + int(sys.argv[1])
woken, synced = [], []
probe = os.open("probe", os.O_CREAT | os.O_WRONLY)
while time.monotonic() < end:
    begin = time.monotonic()
    time.sleep(0.1)
    slept = time.monotonic()
    os.pwrite(probe, b"a page", 0)
    os.fsync(probe)
    woken.append(slept - begin - 0.1)
    synced.append(time.monotonic() - slept)
woken.sort()
synced.sort()
last = len(woken) * 99 // 100
print(f"the machine: {stolen() - before:.1f} s of its processors went to others; of {len(woken)} sleeps 99 of 100",
      f"ended within {woken[last] * 1000:.1f} ms of their end, all within {woken[-1] * 1000:.1f}, and of as many syncs",
      f"of another file 99 of 100 took {synced[last] * 1000:.1f} ms at most, and all {synced[-1] * 1000:.1f}")
PYTHON
machine=$!
players+=("$machine")
python3 - "$seconds" << 'PYTHON'
import asyncio
import sys
import time

RATE = 200
taken, failed = [], 0


async def ask(number):
    global failed
    line, at, slot = number % 64, number * 7 % 150, int(time.time()) // 2
    target = f"/points/d{line}.p{at}/readings/{slot - 2}/{slot}" if number % 2 else f"/points/d{line}.p{at | 1}/total"
    begin = time.monotonic()
    try:
        reader, writer = await asyncio.open_connection("127.0.0.1", 18080)
        writer.write(f"GET {target} HTTP/1.1\r\n\r\n".encode())
        answer = await reader.read()
        writer.close()
        if not answer.startswith(b"HTTP/1.1 200"):
            failed += 1
    except OSError:
        failed += 1
    taken.append(time.monotonic() - begin)


async def main():
    begin, asked = time.monotonic(), []
    for number in range(RATE * int(sys.argv[1])):
        await asyncio.sleep(max(0, begin + number / RATE - time.monotonic()))
        asked.append(asyncio.create_task(ask(number)))
    await asyncio.gather(*asked)

asyncio.run(main())
taken.sort()
print(f"{len(taken)} requests, {failed} not answered by 200: half within {taken[len(taken) // 2] * 1000:.1f} ms,",
      f"99 of 100 within {taken[len(taken) * 99 // 100] * 1000:.1f}, all within {taken[-1] * 1000:.1f}")
PYTHON
wait "$machine"
cat machine
for page in / /points /metrics /devices/0; do
    curl --silent --output page --write-out "$page: %{size_download} bytes within %{time_total} s\n" \
        "http://127.0.0.1:18080$page"
done
# The last slot of which pages were asked has ended then.
sleep 4
tell "behind them: $(usage | paste -sd ' ')"
kill "$run"
wait "$run" 2> /dev/null || true
python3 - << 'PYTHON'
import sqlite3

query = "select slot, count(*) from reading group by slot order by slot"
counts = [count for _, count in sqlite3.connect("many.db").execute(query).fetchall()[1:-1]]
print(f"{len(counts)} slots behind the first and before the last; readings in each: {sorted(set(counts))}")
PYTHON
told() {
    grep -cE "$1" listening || true
}
echo "told: $(told ' is up$') lines up, $(told ' is down') down, $(told ' was cut$') rounds cut"
tell "its store and files stand in $PWD"
