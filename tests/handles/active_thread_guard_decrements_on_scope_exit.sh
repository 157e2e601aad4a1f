#!/usr/bin/env bash
# A closed database has no worker left.
. ./functions.bash
start memory plain 3
say "keyspace items" "keyspace 1"
say "insert 1 61 62" ok
say "rotate_and_wait 1" ok
say "close" ok
due "threads" "$(threads)" 1
finish
