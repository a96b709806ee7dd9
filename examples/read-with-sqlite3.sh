#!/bin/sh
# Shows what sqlite3, SQLite's own program, reads of a database that an office wrote, as
#
#     sh examples/read-with-sqlite3.sh FOLDER/roof.db
#
# of the store in the folder that examples/a-roof/try.sh leaves. The tables as `.schema` prints them are those of
# docs/DATABASE.md; the file is sound if the check prints ok.
set -eu
file=${1:?usage: read-with-sqlite3.sh FILE}
sqlite3 "$file" \
    '.schema' \
    'PRAGMA integrity_check' \
    'PRAGMA foreign_key_check' \
    '.headers on' \
    'SELECT name, value FROM meta' \
    'SELECT number, name, device, tab, addr, kind, len, scale, role, hex(roll) AS roll FROM point LIMIT 5' \
    'SELECT point, count(*) AS readings, min(slot) AS first, max(slot) AS last FROM reading GROUP BY point LIMIT 5' \
    'SELECT point, slot, hex(words) AS words, counted FROM reading LIMIT 5' \
    'SELECT point, hex(value) AS value FROM total LIMIT 5' \
    'SELECT point, slot FROM void LIMIT 5' \
    'SELECT point FROM swapped LIMIT 5' \
    'SELECT number, point, hex(words) AS words, state, code FROM setting LIMIT 5' \
    'SELECT caller, rkey, kind, length(body) AS bytes, answer, a, b, c FROM request LIMIT 5'
