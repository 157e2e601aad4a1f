#!/usr/bin/env bash
# Nor has one whose worker was refused a merge, since a block of a table is damaged: the other keyspace is served as before.
. ./functions.bash
run $'keyspace items l0 2\nkeyspace other\ninsert 1 61 62\nrotate_and_wait 1\ninsert 1 61 63\nrotate_and_wait 1' \
    $'keyspace 1\nkeyspace 2\nok\nok\nok\nok' plain 0
printf '\xff' | dd of="$folder/keyspaces/1/1.table" bs=1 seek=20 conv=notrunc status=none
start "$folder" plain 3
say "keyspace items" "keyspace 1"
say "keyspace other" "keyspace 2"
say "compact 1" "error 2 Storage(TableDamaged)"
say "insert 2 61 62" ok
say "rotate_and_wait 2" ok
say "count merged" "count 0"
say "close" ok
due "threads" "$(threads)" 1
finish
