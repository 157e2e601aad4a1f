#!/usr/bin/env bash
# Behind 1,000 snapshots that were opened and closed, each behind an insert, a flush leaves one version.
. ./functions.bash
{
    echo "keyspace items"
    for ((number = 1; number <= 1000; number++)); do
        printf 'insert 1 61 %08x\nsnapshot\nclose_snapshot %d\n' "$number" "$number"
    done
    printf 'count versions 1\nrotate_and_wait 1\ncount versions 1\nget 1 61\n'
} > "$folder.lines"
due "the end" "$("$program" memory < "$folder.lines" | tail -n 4)" $'count 1000\nok\ncount 1\nvalue 000003e8'
