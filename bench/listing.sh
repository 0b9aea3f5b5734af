#!/bin/bash
# listing.sh LIBRARY: what reading a listing back costs, in instructions counted by callgrind, as a ratio to what reading a
# sheet of the same length does.
#
# LIBRARY is the path of the library for C, crates/opening_c/out/libopening_c.a (rt lib in crates/opening_c). A call's
# cost is the difference between a run with some calls and a run with one. The cost of a listing is that of
# opening_read_listing without that of reading its sheet.
# Exit status: 0 if a byte of a listing costs at most as much as a byte of its sheet, 1 if not, 2 if something could not be run.
set -uo pipefail
here=$(cd "$(dirname "$0")" && pwd)
die() { echo "listing.sh: $*" >&2; exit 2; }
[ $# -eq 1 ] || die "usage: listing.sh LIBRARY"
out=$(mktemp -d) || exit 2
trap 'rm -rf "$out"' EXIT
gcc -std=c11 -O2 -I"$here/../include" -o "$out/listing" "$here/listing.c" "$1" || die "no program"
calls=101
instructions() { # SHEET MODE CALLS
    valgrind --tool=callgrind --callgrind-out-file="$out/file" "$out/listing" "$1" "$2" "$3" >"$out/said" 2>"$out/err" ||
        die "$(tail -1 "$out/err")"
    sed -n 's/^totals: //p' "$out/file"
}
call() { # SHEET MODE
    local one many
    one=$(instructions "$1" "$2" 1) && many=$(instructions "$1" "$2" "$calls") || exit 2
    echo $(((many - one) / (calls - 1)))
}
status=0
printf '%-12s %12s %12s %8s %14s %14s %7s\n' sheet 'sheet bytes' instructions a\ byte 'listing bytes' instructions ratio
for name in ordinary2 ordinary3 ordinary4 slow4 full; do
    sheet=$here/sheets/$name.csv
    reading=$(call "$sheet" read) && whole=$(call "$sheet" listing) || exit 2
    read -r bytes listed <"$out/said"
    awk -v n="$name" -v b="$bytes" -v r="$reading" -v l="$listed" -v w="$whole" 'BEGIN {
        ratio = ((w - r) / l) / (r / b)
        printf "%-12s %12d %12d %8.1f %14d %14d %7.2f\n", n, b, r, r / b, l, w - r, ratio
        exit ratio > 1 }' || status=1
done
exit $status
