# mangled HEX: a journal with these bytes behind its batch, once and then five times, is read as before at ten openings each, which
# cut them off.
mangled() {
    local journal count opening
    run $'keyspace default\nbatch 1 616263 646566 1 797863 67686a' $'keyspace 1\nok'
    journal=$(hex 0.jnl)
    for count in 1 5; do
        for ((; count > 0; count--)); do
            put "$1" 0.jnl
        done
        for opening in {1..10}; do
            run $'keyspace default\nscan 1' $'keyspace 1\npairs 616263=646566 797863=67686a'
            due "the journal at opening $opening" "$(hex 0.jnl)" "$journal"
        done
    done
}
