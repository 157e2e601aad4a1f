# What the scripts of this folder share. Each is given the program and the name of a folder that isn't there before.
set -euo pipefail
program=$1
folder=$2

# due WHAT SEEN WANTED: ends the script where something isn't as it must be.
due() {
    [ "$2" = "$3" ] || { printf '%s: %s, not %s\n' "$1" "${2:0:300}" "${3:0:300}"; exit 1; }
}

# start ARGUMENT..: runs the program, whose lines come from `say`.
start() {
    coproc shell { exec timeout 120 "$program" "$@"; }
    exec {input}>&"${shell[1]}" {output}<&"${shell[0]}"
    exec {shell[1]}>&- {shell[0]}<&-
    process=$shell_PID
}

# say LINE ANSWER: gives the program a line, which it must answer so.
say() {
    local told
    echo "$1" >&"$input"
    IFS= read -r -t 100 told <&"$output" || told=nothing
    due "$1" "$told" "$2"
}

# finish: ends the program, which must tell nothing more.
finish() {
    local status=0
    exec {input}>&-
    due "the end" "$(cat <&"$output")" ""
    exec {output}<&-
    wait "$process" || status=$?
    due "the status" "$status" 0
}

# run LINES ANSWERS [ARGUMENT..]: runs the program over the folder on lines, which it must answer so.
run() {
    local told
    told=$(timeout 120 "$program" "$folder" "${@:3}" <<< "$1") || told+=" status $?"
    due "$1" "$told" "$2"
}

# hex FILE: the bytes of a file of the folder.
hex() {
    od -An -v -tx1 "$folder/$1" | tr -d ' \n'
}

# put HEX FILE: adds bytes to the end of a file of the folder.
put() {
    printf "$(sed 's/../\\x&/g' <<< "$1")" >> "$folder/$2"
}

# threads: how many threads the program has that was started.
threads() {
    local child
    child=$(pgrep -P "$process" || echo "$process")
    ls "/proc/$child/task" | wc -l
}

# refused TOLD: the program refuses to open the folder, and tells so, behind a warning.
refused() {
    due "the opening" "$({ "$program" "$folder" < /dev/null || echo "status $?"; } 2>&1 | grep -v '^\[WARN ')" "$1"
}

# seal N: seals journal N, as the next one is there.
seal() {
    : > "$folder/$(($1 + 1)).jnl"
}
