#!/bin/bash
# against.sh FORMER NEW [OUT]: what a library costs against a former one on sheets without labels of events, as ratios
# of instructions, counted by callgrind in one run.
#
# FORMER and NEW are paths of libopening_c.a (rt lib in crates/opening_c, in a worktree of each commit).
# OUT takes the programs and callgrind's files; a temporary folder, removed at the end, if it is not given.
# Exit status: 0 if no sheet costs more than 1.05 times what it did, 1 if one does or an answer differs, 2 if something
# could not be built or run.
#
# Each library is called by the program of ratios.sh, built in the same way. A call's cost, reading included, is the
# difference between a run with some calls and a run with one. Everything is counted twice: with libc's memset as it is,
# of which callgrind counts each byte from 2,048 bytes on, and with memset as its vector loop (see the head of
# ratios.sh). What a library clears at each call weighs more in the first.
set -uo pipefail

here=$(cd "$(dirname "$0")" && pwd)
die() { echo "against.sh: $*" >&2; exit 2; }
[ $# -eq 2 ] || [ $# -eq 3 ] || die "usage: against.sh FORMER NEW [OUT]"
if [ $# -eq 3 ]; then out=$3; mkdir -p "$out" || exit 2; else out=$(mktemp -d) || exit 2; trap 'rm -rf "$out"' EXIT; fi

build() { # NAME LIBRARY
    mkdir -p "$out/$1" && cp "$2" "$out/$1/libopening.a" || die "no library at $2"
    rustc --edition 2021 -C opt-level=3 -C codegen-units=1 -o "$out/$1/speed" "$here/main.rs" -L "native=$out/$1" ||
        die "no program"
}
build former "$1"
build new "$2"

limit=1.05
calls=11
instructions() { # NAME SHEET CALLS
    local file=$out/$1/callgrind
    valgrind --tool=callgrind --callgrind-out-file="$file" "$out/$1/speed" "$2" library "$3" \
        >"$file.said" 2>"$file.err" ||
        die "callgrind failed on $2 by $1: $(tail -1 "$file.err")"
    sed -n 's/^totals: //p' "$file" | grep . || die "no count on $2 by $1"
}
call_cost() { # NAME SHEET
    local one many
    one=$(instructions "$1" "$2" 1) && many=$(instructions "$1" "$2" "$calls") || exit 2
    echo $(((many - one) / (calls - 1)))
}
# What the last run of a library said, without the count of rounds, which a later library may tell.
said() { sed 's/ rounds .*//' "$out/$1/callgrind.said"; } # NAME

status=0
table() { # the costs on each sheet, under the setting of memset that the environment has
    local name sheet former new verdict
    printf '%-10s %12s %12s %11s\n' sheet former new new/former
    for name in ring16 full ordinary2 ordinary3 ordinary4 slow4; do
        sheet=$here/sheets/$name.csv
        former=$(call_cost former "$sheet") && new=$(call_cost new "$sheet") || exit 2
        verdict=met
        awk -v f="$former" -v n="$new" -v l="$limit" 'BEGIN { exit n > l * f }' || verdict=MISSED status=1
        [ "$(said former)" = "$(said new)" ] || verdict='MISSED  another answer' status=1
        awk -v s="$name" -v f="$former" -v n="$new" -v v="$verdict" \
            'BEGIN { printf "%-10s %12d %12d %11.4f  %s\n", s, f, n, n / f, v }'
    done
}

echo "Instructions of a call on sheets without labels of events; new/former is to be at most $limit"
echo
echo "memset as it is"
unset GLIBC_TUNABLES
table
echo
echo "memset as its vector loop"
export GLIBC_TUNABLES=glibc.cpu.x86_rep_stosb_threshold=1000000
table
exit $status
