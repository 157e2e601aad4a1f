#!/usr/bin/env bash
# What one run writes as a marker another one reads, and leaves as it is.
. ./functions.bash
run "keyspace items" "keyspace 1"
run $'keyspace items\nlen 1' $'keyspace 1\ncount 0'
due "the marker" "$(hex version)" 464a4c03
