#!/usr/bin/env bash
# A database runs as many workers as it is asked for, beside the thread that answers.
. ./functions.bash
for workers in 0 1 3; do
    start memory plain "$workers"
    say "count keyspaces" "count 0"
    due "threads" "$(threads)" "$((workers + 1))"
    finish
done
