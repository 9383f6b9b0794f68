#!/bin/sh
# desk.sh: an example of a desk's day. It writes what `sct_sites` answers on some files of messages into a new folder.
#
# Usage: desk.sh FOLDER FILE..
#        desk.sh --report BANK DAY LIST FOLDER
#        desk.sh --keep DAY FOLDER
#
# The files are read one after the other, as one input: first the archive of yesterday, then the messages of today. The folder
# gets
#   day.status, day.archive, day.totals   what the three commands write
#   day.refused                           the refused lines, by the line of all files together
#   day.explained                         each refused line with its file, its line there and its text: FILE:LINE: FAULT: TEXT;
#                                         and below it the name of the fault and what to do about it (explain.py)
#   day.counts                            how many T, F and R lines have which status or finding
#
# With --report it prints the report on the list of a bank, by the archive of a folder that it made. If the program does not take the list,
# it is read as a spreadsheet saves it, or standard error says what is wrong with each row (list_from_csv.py). Before the report the list is
# checked (check_list.py). If a row is a transfer of other banks, there is no report, and the exit status is 2.
#
# With --keep it splits the archive of a folder that it made, by `keep` and `closed` of the program. The folder gets kept.archive, with
# which the next day begins, and closed.archive, with what is done before DAY. After another exit status than 0 it gets neither.
#
# The exit status is that of `sct_sites`. The folder is made if it is 0 or 1. After any other status there is no folder, and
# standard error says why. A folder that exists is not touched: the exit status is then 2. The variable SCT_SITES may name the
# program.
#
# Lines with WARNING on standard error do not change the exit status. They say that a file has no message, that the day is empty,
# or that the archive of yesterday lost messages.
set -u
umask 077  # what it writes are payments of customers: nobody else of this machine reads them
LC_ALL=C
export LC_ALL
program=${SCT_SITES:-sct_sites}
here=$(dirname -- "$0")

stop() {
    echo "desk.sh: $1" >&2
    exit 2
}

warn() {
    echo "desk.sh: WARNING: $1" >&2
}

# One command on all files. Status 1 means that lines were refused, and its answer is kept.
answered() {
    "$program" "$1" < "$work/input" > "$work/new/day.$1" 2> "$work/new/day.refused"
    ended=$?
    [ "$ended" -le 1 ] && return
    cat "$work/new/day.refused" >&2
    exit "$ended"
}

# The report on a list, if nothing speaks against it.
report() {
    [ -r "$4/day.archive" ] || stop "$4 is not a folder of desk.sh"
    [ -r "$3" ] || stop "there is no file $3 that can be read"
    work=$(mktemp -d) || exit 2
    trap 'rm -rf "$work"' EXIT
    trap 'exit 2' HUP INT TERM
    cat "$3" > "$work/list" || exit 2
    "$program" report -- "$1" "$2" "$work/list" < /dev/null > "$work/none" 2> "$work/fault"
    case "$(cat "$work/fault")" in
        "fault 48 "*)
            python3 "$here/list_from_csv.py" < "$work/list" > "$work/read" || stop "there is no report on $3"
            mv "$work/read" "$work/list" || exit 2
            warn "$3 was read as a spreadsheet saves a list";;
    esac
    python3 "$here/check_list.py" "$1" "$2" "$work/list" "$4/day.archive" || stop "there is no report on $3"
    "$program" report -- "$1" "$2" "$work/list" < "$4/day.archive"
    exit $?
}

# The archive of a folder in two parts. What is kept comes last: if it is there, so is what is closed.
split() {
    [ -r "$2/day.archive" ] || stop "$2 is not a folder of desk.sh"
    work=$(mktemp -d "$2/split.XXXXXX") || exit 2
    trap 'rm -rf "$work"' EXIT
    trap 'exit 2' HUP INT TERM
    "$program" closed -- "$1" < "$2/day.archive" > "$work/closed.archive" || exit
    "$program" keep -- "$1" < "$2/day.archive" > "$work/kept.archive" || exit
    rm -f "$2/kept.archive"
    mv "$work/closed.archive" "$2" && mv "$work/kept.archive" "$2" || exit 2
    exit
}

if [ "${1-}" = --keep ]; then
    [ $# -eq 3 ] || stop "usage: desk.sh --keep DAY FOLDER"
    split "$2" "$3"
fi
if [ "${1-}" = --report ]; then
    [ $# -eq 5 ] || stop "usage: desk.sh --report BANK DAY LIST FOLDER"
    report "$2" "$3" "$4" "$5"
fi
[ $# -ge 2 ] || stop "usage: desk.sh FOLDER FILE.., desk.sh --report BANK DAY LIST FOLDER, or desk.sh --keep DAY FOLDER"
folder=$1
shift
[ ! -e "$folder" ] || stop "$folder is there already"
case "$folder $*" in *=*) stop "awk takes no path with = in it: $folder $*" ;; esac
for file in "$@"; do
    { [ -f "$file" ] && [ -r "$file" ]; } || stop "there is no file $file that can be read"
    grep -q '[^[:space:]]' < "$file" || warn "$file has no message"
done
work=$(mktemp -d "$folder.XXXXXX") || exit 2
trap 'rm -rf "$work"' EXIT
trap 'exit 2' HUP INT TERM
mkdir "$work/new" || exit 2

# A file without a line feed at its end gets one here, so that its last line and the first of the next file stay apart.
awk 1 "$@" > "$work/input" || exit 2
answered archive
answered totals
answered status

# The first file is the archive of yesterday, if there are others or its name says so. No line of an archive is refused.
[ -s "$work/new/day.archive" ] || warn "the day is empty: no line is a message"
if [ $# -gt 1 ] || [ "$1" != "${1%.archive}" ]; then
    lost=$(awk 'FNR == NR { lines = NR; next } $2 + 0 <= lines { lost++ } END { print lost + 0 }' "$1" "$work/new/day.refused")
    [ "$lost" -eq 0 ] || warn "the archive shrank: $lost lines of $1 are refused"
fi

# The first file that awk reads has the refused lines: `line N: FAULT`. After it, NR less their number is the line of all files
# together.
awk '
    FNR == NR && FILENAME == refused { number = $2 + 0; fault[number] = substr($0, index($0, ": ") + 2); many = NR; next }
    NR - many in fault { print FILENAME ":" FNR ": " fault[NR - many] ": " $0 }
' refused="$work/new/day.refused" "$work/new/day.refused" "$@" > "$work/lines" || exit 2
python3 "$here/explain.py" "$work/lines" > "$work/new/day.explained" || {
    warn "day.explained does not say what to do"
    cp "$work/lines" "$work/new/day.explained" || exit 2
}

awk -F'|' '
    { word = $1 "|" ($1 == "R" ? $5 : $4); count[word]++ }
    END { for (word in count) print word "|" count[word] }
' "$work/new/day.status" | sort > "$work/new/day.counts" || exit 2

mv "$work/new" "$folder" || exit 2
exit "$ended"
