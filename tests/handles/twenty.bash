# twenty KIND: what keyspace_delete tries, in databases of this kind.
twenty() {
    local number key pairs="" back="" life
    start "$folder" "$1"
    say "count keyspaces" "count 0"
    say "keyspace default" "keyspace 1"
    say "path 1" "path keyspaces/1"
    [ -d "$folder/keyspaces/1" ]
    say "count keyspaces" "count 1"
    for ((number = 0; number < 20; number++)); do
        key=$(printf %016x "$number")
        say "insert 1 $key 76$key" ok
        pairs="$pairs $key=76$key"
        back=" $key=76$key$back"
    done
    has_twenty
    finish
    for life in 1 2 3; do
        start "$folder" "$1"
        say "keyspace default" "keyspace 1"
        [ -d "$folder/keyspaces/1" ]
        say "count keyspaces" "count 1"
        has_twenty
        finish
    done
    start "$folder" "$1"
    say "keyspace default" "keyspace 1"
    say "delete 1" ok
    say "count keyspaces" "count 0"
    say "drop 1" ok
    say "close" ok
    [ ! -e "$folder/keyspaces/1" ]
    finish
    start "$folder"
    [ ! -e "$folder/keyspaces/1" ]
    say "count keyspaces" "count 0"
    finish
}

# has_twenty: the keyspace has the pairs, from both ends.
has_twenty() {
    say "len 1" "count 20"
    say "scan 1" "pairs$pairs"
    say "ends 1 bbbbbbbbbbbbbbbbbbbbb" "pairs$back none"
}
