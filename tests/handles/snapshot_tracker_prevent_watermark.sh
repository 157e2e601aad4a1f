#!/usr/bin/env bash
# An open snapshot keeps a flush and a merge from leaving out any of 1,000 versions that came later, also behind 10,000 others; once it is
# closed they go.
. ./functions.bash
{
    printf 'keyspace items\nsnapshot\n'
    for ((number = 1; number <= 1000; number++)); do
        printf 'insert 1 61 %08x\n' "$number"
    done
    for ((number = 2; number <= 10001; number++)); do
        printf 'snapshot\nclose_snapshot %d\n' "$number"
    done
    printf 'rotate_and_wait 1\ncompact 1\ncount versions 1\nget_at 1 1 61\nclose_snapshot 1\n'
    printf 'insert 1 61 ff\nrotate_and_wait 1\ncompact 1\ncount versions 1\nget 1 61\n'
} > "$folder.lines"
due "the end" "$("$program" memory < "$folder.lines" | tail -n 8)" $'count 1000\nnone\nok\nok\nok\nok\ncount 1\nvalue ff'
