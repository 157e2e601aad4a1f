#!/usr/bin/env bash
# What was cleared and flushed stays away, and what the next journal has is there.
. ./functions.bash
run $'keyspace default\nis_empty 1\ninsert 1 61 61\ncontains 1 61\nclear 1\nis_empty 1\nrotate_and_wait 1\nis_empty 1' \
    $'keyspace 1\ntrue\nok\ntrue\nok\ntrue\nok\ntrue'
seal 0
run $'keyspace default\ninsert 1 62 61\ncontains 1 62' $'keyspace 1\nok\ntrue'
run $'keyspace default\ncontains 1 61\ncontains 1 62' $'keyspace 1\nfalse\ntrue'
