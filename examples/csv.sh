#!/bin/sh
# Rows that sqlite3 writes as CSV go through `crackd csv` and back into sqlite3: csv.sh CRACKD
made='create table made (key, payload); insert into made values (30, 3), (10, 1), (20, 2)'
sqlite3 -csv -header :memory: "$made; select key, payload from made" |
    "$1" csv |
    sqlite3 :memory: '.mode csv' '.import /dev/stdin loaded' '.mode list' \
        'select count(*), sum(payload), max(key) from loaded'
