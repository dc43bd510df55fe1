#!/bin/sh
# A session with `crackd serve` by nc: session.sh PORT
printf '%s\n' 'insert 30 3' 'insert 10 1' 'insert 20 2' 'count 0 25' 'select 10 31' 'quit' | nc 127.0.0.1 "$1"
