#!/usr/bin/env bash
# A Start without its fields behind a batch is cut off.
. ./functions.bash
run $'keyspace items\ninsert 1 61 62' $'keyspace 1\nok'
journal=$(hex 0.jnl)
put 01 0.jnl
run $'keyspace items\nscan 1' $'keyspace 1\npairs 61=62'
due "the journal" "$(hex 0.jnl)" "$journal"
