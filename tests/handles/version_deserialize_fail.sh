#!/usr/bin/env bash
# What is no marker is told, and left as it is.
. ./functions.bash
mkdir "$folder"
put 464a5801 version
refused $'error 4 InvalidVersion(None)\nstatus 1'
due "the marker" "$(hex version)" 464a5801
