#!/usr/bin/env bash
# 2,000 pairs of transactions, of which the second conflicts each time, leave no snapshot open.
. ./functions.bash
key=68656c6c6f
lines="tx_insert %d 1 $key 776f726c64\ncommit %d\ncontains 1 $key\ntx_get %d 1 $key\ntx_insert %d 1 $key 776f726c6432\ncommit %d\n"
{
    echo "keyspace foo"
    for ((number = 1; number < 4000; number += 2)); do
        printf "begin\nbegin\n$lines" "$number" "$number" "$((number + 1))" "$((number + 1))" "$((number + 1))"
    done
    echo "count snapshots"
} > "$folder.lines"
{
    echo "keyspace 1"
    seen=none
    for ((number = 1; number < 4000; number += 2)); do
        printf "tx %d\ntx %d\nok\nok\ntrue\n$seen\nok\nconflict\n" "$number" "$((number + 1))"
        seen="value 776f726c64"
    done
    echo "count 0"
} > "$folder.wanted"
"$program" memory optimistic < "$folder.lines" > "$folder.told"
cmp "$folder.told" "$folder.wanted"
