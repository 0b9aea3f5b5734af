#!/bin/bash
# digits.sh LIBRARY [FORMER]: what writing minutes costs, in instructions counted by callgrind: a listing of 256 cells
# with the same minute in each, without reading its sheet; with a second library, the same of it and the ratio of both.
#
# LIBRARY and FORMER are paths of the library for C, crates/opening_c/out/libopening_c.a (rt lib in crates/opening_c). A
# call's cost is the difference between a run with some calls and a run with one. With a minute of five digits the
# listing is the longest that there is. No minute takes more turns than 58888, by threes and then by ones.
# Exit status: 0 if no listing costs more than twice that of FORMER, 1 if one does, 2 if something could not be run.
set -uo pipefail
here=$(cd "$(dirname "$0")" && pwd)
die() { echo "digits.sh: $*" >&2; exit 2; }
[ $# -eq 1 ] || [ $# -eq 2 ] || die "usage: digits.sh LIBRARY [FORMER]"
out=$(mktemp -d) || exit 2
trap 'rm -rf "$out"' EXIT
made=0
for library in "$@"; do
    gcc -std=c11 -O2 -Wall -Wextra -I"$here/../include" -o "$out/$((++made))" "$here/digits.c" "$library" ||
        die "no program"
done
calls=101
instructions() { # PROGRAM WORDS..
    valgrind --tool=callgrind --callgrind-out-file="$out/file" "$out/$1" "${@:2}" >"$out/said" 2>"$out/err" ||
        die "$(tail -1 "$out/err")"
    sed -n 's/^totals: //p' "$out/file" | grep . || die "no count"
}
call() { # PROGRAM MINUTE [read]
    local one many
    one=$(instructions "$1" "$2" 1 ${3+"$3"}) && many=$(instructions "$1" "$2" "$calls" ${3+"$3"}) || exit 2
    echo $(((many - one) / (calls - 1)))
}
cost() { # PROGRAM MINUTE: without reading
    local reading whole
    reading=$(call "$1" "$2" read) && whole=$(call "$1" "$2") || exit 2
    echo $((whole - reading))
}
status=0
printf '%8s %14s %14s %14s %7s\n' minute 'listing bytes' instructions former ratio
for minute in 0 7 42 365 8888 9999 10000 10080 58888 65534; do
    now=$(cost 1 "$minute") || exit 2
    bytes=$(cat "$out/said") former=
    if [ $# -eq 2 ]; then
        former=$(cost 2 "$minute") || exit 2
        [ "$(cat "$out/said")" = "$bytes" ] || die "listings of other lengths"
    fi
    awk -v m="$minute" -v b="$bytes" -v n="$now" -v f="$former" 'BEGIN {
        if (f == "") { printf "%8d %14d %14d\n", m, b, n; exit 0 }
        printf "%8d %14d %14d %14d %7.2f\n", m, b, n, f, n / f
        exit n > 2 * f }' || status=1
done
exit $status
