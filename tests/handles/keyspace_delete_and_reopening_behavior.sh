#!/usr/bin/env bash
# A keyspace made anew has the next id and a folder of its own; that of the deleted one is gone with its handle.
. ./functions.bash
start "$folder"
[ ! -e "$folder/keyspaces/1" ]
say "keyspace default" "keyspace 1"
[ -d "$folder/keyspaces/1" ]
say "delete 1" ok
say "drop 1" ok
say "keyspace default" "keyspace 2"
[ ! -e "$folder/keyspaces/1" ]
[ -d "$folder/keyspaces/2" ]
finish
