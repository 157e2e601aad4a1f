#!/usr/bin/env bash
# A marker of an older version is told, and left as it is.
. ./functions.bash
mkdir "$folder"
put 464a4c01 version
refused $'error 4 InvalidVersion(Some(V1))\nstatus 1'
due "the marker" "$(hex version)" 464a4c01
