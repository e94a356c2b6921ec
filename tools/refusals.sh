#!/bin/sh
# Gives the player that `make play` built what it plays nothing of and what it just plays, and compares the exit status
# and what is written. With each status but 0 one line is told on standard error.
set -eu
player=crates/fission_play/out/fission_play
told=$(mktemp)
trap 'rm -f "$told"' EXIT

# same CAME WANTED
same() {
    if [ "$1" != "$2" ]; then
        echo "$1 came, where $2 should"
        exit 1
    fi
}

# ends STATUS LINES WRITTEN WORD
ends() {
    status=0
    written=$("$player" "$4" 2> "$told") || status=$?
    same "$status/$(wc -l < "$told")/$written" "$1/$2/$3"
}

# padded LENGTH: a scenario without steps, and spaces
padded() {
    printf '%-*s' "$1" '{"version":1,"processes":["web"],"steps":[]}'
}

ends 2 1 '' plai < /dev/null
ends 2 1 '' "$(printf '\377')" < /dev/null
echo 'no JSON' | ends 3 1 '' play
printf '{"version":1,"processes":["w\377"],"steps":[]}' | ends 3 1 '' play
echo '{}' | ends 4 1 'shape 0' play
padded 4194304 | ends 0 0 'fission processes 1 tabs 0 actors 0
end 0' play
padded 4194305 | ends 5 1 '' play
ends 6 1 '' play < .

status=0
"$player" play < examples/muted.json > /dev/full 2> "$told" || status=$?
same "$status/$(wc -l < "$told")" 7/1
