#!/usr/bin/env bash
# A new folder's marker has the bytes FJL and the number of its format.
. ./functions.bash
run "count keyspaces" "count 0"
due "the marker" "$(hex version)" 464a4c03
