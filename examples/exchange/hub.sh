#!/bin/sh
# hub.sh: an example of a day at a hub of three sites, which give each other what they lack by files. Deltas are lost on their way, come
# twice, late and damaged, and a site crashes in the middle of an append. At the end all sites write the same bytes.
#
# Usage: hub.sh [FOLDER]
#
# Each site has a folder, as if it were a machine of its own:
#   siteN/journal   the lines that the site received itself, in their order; lines are only appended
#   siteN/in/       the deltas that it was sent
# They are made in a temporary folder, or in the new FOLDER, which stays. The lines come from the folders beside this script.
# The exit status is 0 if all sites agree. It is 2 if the program fails, and standard error says why. The variable SCT_SITES may name the
# program.
set -u
LC_ALL=C
export LC_ALL
program=${SCT_SITES:-sct_sites}
here=$(dirname -- "$0")
sites=3

stop() {
    echo "hub.sh: $1" >&2
    exit 2
}

# A command at a site, on its journal and on all that it was sent. Status 1 means that a line or a file was refused, and there is an answer.
# A pattern that matches no file stays as it is, so it is left out.
at_site() {
    site=$1 command=$2
    shift 2
    set -- "$command" "$site" "$sites" "$@" "$hub/site$site/journal"
    for file in "$hub/site$site/in"/*; do
        [ -f "$file" ] && set -- "$@" "$file"
    done
    "$program" "$@" > "$hub/text" 2> "$hub/refused"
    ended=$?
    [ "$ended" -le 1 ] || stop "$command at site $site ended with $ended: $(sed -n '$p' "$hub/refused")"
}

# A site receives lines. After a line that is unfinished a line feed comes first.
append() {
    [ -z "$(tail -c 1 "$hub/site$1/journal")" ] || echo >> "$hub/site$1/journal" || exit 2
    cat "$here/site$1/$2.jsonl" >> "$hub/site$1/journal" || exit 2
    echo "site $1 receives the lines of the $2"
}

# A site crashes while it appends: one line is whole, and of the next there are 100 bytes.
append_half() {
    sed -e 1q "$here/site$1/$2.jsonl" >> "$hub/site$1/journal" || exit 2
    printf '%.100s' "$(sed -n 2p "$here/site$1/$2.jsonl")" >> "$hub/site$1/journal" || exit 2
    at_site "$1" vector
    echo "site $1 crashes while it appends the lines of the $2, and has $(cat "$hub/text")"
    cat "$hub/refused"
}

# A site sends another one what that one lacks: by the vector that the other one asks with, or by one that is given.
send() {
    at_site "$2" vector
    have=${3:-$(cat "$hub/text")}
    at_site "$1" cut "$have"
    sent=$((sent + 1))
    mv "$hub/text" "$hub/way/$sent" || exit 2
    echo "delta $sent, from site $1 for site $2, which has $have: entries $(sed -n '$s/end //p' "$hub/way/$sent")"
}

# A delta reaches a site. It gets its name in the folder when it is whole. The site then says what it refuses.
reach() {
    cp "$hub/way/$1" "$hub/new" && mv "$hub/new" "$hub/site$2/in/${3:-$1}" || exit 2
    at_site "$2" vector
    echo "delta $1 reaches site $2, which then has $(cat "$hub/text")"
    cat "$hub/refused"
}

# A delta loses its last line on its way.
damage() {
    sed '$d' "$hub/way/$1" > "$hub/new" && mv "$hub/new" "$hub/way/$1" || exit 2
    echo "delta $1 is damaged"
}

# All sites must write the same archive text, and the same status text.
compare() {
    for site in 1 2 3; do
        at_site "$site" site
        mv "$hub/text" "$hub/site$site/archive" || exit 2
        "$program" status < "$hub/site$site/archive" > "$hub/site$site/status" || stop "status at site $site ended with $?"
        cmp "$hub/site1/archive" "$hub/site$site/archive" && cmp "$hub/site1/status" "$hub/site$site/status" || exit 1
    done
    echo "all sites agree on $(grep -c . "$hub/site1/archive") messages:"
    cat "$hub/site1/status"
}

if [ $# -gt 0 ]; then
    hub=$1
    mkdir -- "$hub" || stop "there is a $hub already, or it cannot be made"
    hub=$(cd -- "$hub" && pwd) || exit 2
else
    hub=$(mktemp -d) || exit 2
    trap 'rm -rf "$hub"' EXIT
    trap 'exit 2' HUP INT TERM
fi
command -v "$program" > "$hub/text" || stop "there is no program $program; SCT_SITES may name it"
mkdir "$hub/way" || exit 2
for site in 1 2 3; do
    mkdir "$hub/site$site" "$hub/site$site/in" && : > "$hub/site$site/journal" || exit 2
done
sent=0

append 1 morning
append 2 morning
append 3 morning
send 1 2
reach 1 2
send 2 3
echo "delta 2 is lost"
send 1 3
reach 3 3
reach 3 3 3-again

append_half 1 evening
append 1 evening
send 1 2
append 2 evening
send 2 1
damage 5
reach 5 1
rm "$hub/site1/in/5"
send 2 1
reach 6 1
send 2 3 1:2,2:2,3:2
reach 7 3
send 2 3
reach 8 3
append 3 evening
reach 4 2

for to in 1 2 3; do
    for from in 1 2 3; do
        [ "$from" = "$to" ] || { send "$from" "$to" && reach "$sent" "$to"; }
    done
done
compare
