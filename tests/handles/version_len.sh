#!/usr/bin/env bash
# A marker has four bytes.
. ./functions.bash
run "count keyspaces" "count 0"
due "the marker's length" "$(wc -c < "$folder/version")" 4
