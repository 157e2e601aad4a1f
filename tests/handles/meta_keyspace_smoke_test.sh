#!/usr/bin/env bash
# The name and the options of a keyspace stand in the catalog's table, under its id, also where it isn't asked for once reopened.
. ./functions.bash
# has KEY VALUE: whether the table has this pair, under the number 0 of the keyspace's creation.
has() {
    local entry
    entry=$(printf '%02x00000000000000000000%02x000000' "$((${#1} / 2))" "$((${#2} / 2))")$1$2
    [[ $(hex "keyspaces/0/1.table") == *"$entry"* ]] || due "the pair $1" none "$2"
}
start "$folder"
say "exists 6974656d73" false
[ ! -e "$folder/keyspaces/0/1.table" ]
say "keyspace items" "keyspace 1"
say "exists 6974656d73" true
has 6e0000000000000001 6974656d73
has 63000000000000000176657273696f6e 03
finish
start "$folder"
say "names" "names 6974656d73"
has 6e0000000000000001 6974656d73
has 63000000000000000176657273696f6e 03
finish
