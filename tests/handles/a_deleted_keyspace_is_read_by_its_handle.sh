#!/usr/bin/env bash
# A deleted keyspace refuses writes, and is read until its last handle is gone; its folder goes with that once another handle is made.
. ./functions.bash
start "$folder"
say "keyspace items" "keyspace 1"
say "insert 1 61 62" ok
say "delete 1" ok
say "insert 1 63 64" "error 9 KeyspaceDeleted"
say "get 1 61" "value 62"
say "scan 1" "pairs 61=62"
say "keyspace other" "keyspace 2"
[ -d "$folder/keyspaces/1" ]
say "get 1 61" "value 62"
say "drop 1" ok
say "get 1 61" "error 19 UnknownKeyspace"
say "keyspace items" "keyspace 3"
[ ! -e "$folder/keyspaces/1" ]
say "get 3 61" none
finish
