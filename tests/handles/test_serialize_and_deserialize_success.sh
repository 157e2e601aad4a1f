#!/usr/bin/env bash
# An insert stands in the journal as one batch, whose check is the beginning of SHA-256 of what stands before its end, and is read back.
. ./functions.bash
run $'keyspace items\ninsert 1 010203 -' $'keyspace 1\nok'
put "0101000000010000000000000002000001000000000000000300000000000000000001"0203 batch
check=$(sha256sum < "$folder/batch" | head -c 16)
due "the journal" "$(hex 0.jnl)" "$(hex batch)03${check}464a4c03"
run $'keyspace items\nscan 1' $'keyspace 1\npairs 010203=-'
