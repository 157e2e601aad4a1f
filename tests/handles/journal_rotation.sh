#!/usr/bin/env bash
# A journal that is followed by another one takes no batch more; both are there, and read.
. ./functions.bash
run $'keyspace default\nbatch 1 61 61 1 62 62' $'keyspace 1\nok'
seal 0
sealed=$(hex 0.jnl)
run $'keyspace default\ncount journals\ninsert 1 63 63' $'keyspace 1\ncount 2\nok' plain 0
due "the sealed journal" "$(hex 0.jnl)" "$sealed"
[ -s "$folder/1.jnl" ]
run $'keyspace default\nscan 1\ncount journals' $'keyspace 1\npairs 61=61 62=62 63=63\ncount 2' plain 0
