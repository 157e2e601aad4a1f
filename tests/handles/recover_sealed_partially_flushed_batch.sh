#!/usr/bin/env bash
# Of a batch over two keyspaces one half is flushed, and its journal sealed: what isn't flushed counts as many bytes once reopened.
. ./functions.bash
batch="batch"
for ((number = 0; number < 100; number++)); do
    batch+=$(printf ' 1 %016x 61 2 %016x 62' "$number" "$number")
done
more="batch"
for ((number = 100; number < 200; number++)); do
    more+=$(printf ' 1 %016x 61' "$number")
done
run $'keyspace a\nkeyspace b\n'"$batch"$'\nrotate_and_wait 1\n'"$more"$'\ncount write_buffer' \
    $'keyspace 1\nkeyspace 2\nok\nok\nok\ncount 5000'
seal 0
run $'count write_buffer\nkeyspace a\nkeyspace b\nlen 1\nlen 2\ncount journals' \
    $'count 5000\nkeyspace 1\nkeyspace 2\ncount 200\ncount 100\ncount 2' plain 0
