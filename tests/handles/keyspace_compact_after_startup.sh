#!/usr/bin/env bash
# Where tables wait at level 0 as a database opens, a worker merges them.
. ./functions.bash
flush=$'insert 1 61 61\nrotate_and_wait 1'
run "keyspace default l0 3"$'\n'"$flush"$'\n'"$flush"$'\n'"$flush"$'\ncount level0 1' $'keyspace 1\nok\nok\nok\nok\nok\nok\ncount 3' plain 0
run $'keyspace default\ncount level0 1\ncount merged' $'keyspace 1\ncount 3\ncount 0' plain 0
start "$folder" plain 1
for ((look = 0; look < 1000; look++)); do
    echo "count merged" >&"$input"
    read -r -t 100 told <&"$output"
    [ "$told" != "count 1" ] || break
    sleep 0.01
done
due "count merged" "$told" "count 1"
say "keyspace default" "keyspace 1"
say "count level0 1" "count 0"
say "count tables 1" "count 1"
say "get 1 61" "value 61"
finish
