#!/usr/bin/env bash
# Where the active journal is gone the one before it is active again.
. ./functions.bash
run $'keyspace default\nbatch 1 61 61 1 62 62' $'keyspace 1\nok'
journal=$(hex 0.jnl)
seal 0
run "count journals" "count 2" plain 0
rm "$folder/1.jnl"
run $'count journals\nkeyspace default\nscan 1\ninsert 1 63 63' $'count 1\nkeyspace 1\npairs 61=61 62=62\nok' plain 0
[[ $(hex 0.jnl) == "$journal"0101* ]] || due "the journal" "$(hex 0.jnl)" "$journal"
[ ! -e "$folder/1.jnl" ]
