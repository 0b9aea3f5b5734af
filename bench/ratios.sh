#!/bin/bash
# ratios.sh LIBRARY [OUT]: the library's speed as ratios of instructions, counted by callgrind.
#
# LIBRARY is the path of the library for C, crates/opening_c/out/libopening_c.a (rt lib in crates/opening_c), or the word
# `standin`, for equal.rs under the library's names.
# OUT takes the programs and callgrind's files; a temporary folder, removed at the end, if it is not given.
# WITHOUT, in the environment, names ordinary sheets to leave out: WITHOUT=cases4 for a library from before request 6,
# which does not read labels of events.
# Exit status: 0 if every target is met, 1 if one is not or an answer differs, 2 if something could not be built or run.
#
# Both sides are built for release (opt-level 3 and one module on each side; no flags for this machine's processor) and called in
# the same way, by one program that lends 512 bytes for the table. A call's cost is the difference between a run with some calls
# and a run with one, so the program's start, the reading of the file and the first use of libc's functions are no part of it.
#
# One-off work, reading and compiling, is found from outside, in the same way on both sides, since the library's
# functions may be inlined. An ordinary sheet (slow4 is one with reactions, cases4 one with labels of events too) is
# solved with its own horizon (R rounds) and with `horizon,10`, which its first round passes: the lines differ in two
# digits, so the difference is R - 1 rounds (and the writing of the table, under 1 % of it). One round less than the
# second cost is the one-off work. Of it, reading is what a call costs that lends no table: such a call ends with
# refusal 12 once the sheet is read. What callgrind says of the functions that are still there is printed as a check.
#
# callgrind counts each byte that a `rep stosb` of libc's memset writes as an instruction, from 2,048 bytes on. With
# GLIBC_TUNABLES=glibc.cpu.x86_rep_stosb_threshold=1000000 in the environment, memset runs and counts as its vector loop.
set -uo pipefail

here=$(cd "$(dirname "$0")" && pwd)
die() { echo "ratios.sh: $*" >&2; exit 2; }
[ $# -ge 1 ] || die "usage: ratios.sh LIBRARY [OUT]   (LIBRARY: libopening_c.a, or the word standin)"
if [ $# -ge 2 ]; then out=$2; mkdir -p "$out" || exit 2; else out=$(mktemp -d) || exit 2; trap 'rm -rf "$out"' EXIT; fi

# ---- build
release=(rustc --edition 2021 -C opt-level=3 -C codegen-units=1)
mkdir -p "$out/link"
if [ "$1" = standin ]; then
    "${release[@]}" -C panic=abort --crate-type staticlib -o "$out/link/libopening.a" "$here/standin.rs" || die "no stand-in"
else
    cp "$1" "$out/link/libopening.a" || die "no library at $1"
fi
"${release[@]}" -o "$out/speed" "$here/main.rs" -L "native=$out/link" || die "no program"

# ---- measure
ordinary='ordinary2 ordinary3 ordinary4 slow4 cases4'
for name in ${WITHOUT:-}; do
    case " $ordinary " in *" $name "*) ordinary=${ordinary/$name/} ;; *) die "no ordinary sheet $name" ;; esac
done
declare -A cost
for name in $ordinary; do sed '1s/.*/horizon,10/' "$here/sheets/$name.csv" >"$out/$name-short.csv"; done
sheet_of() { if [ -f "$here/sheets/$1.csv" ]; then echo "$here/sheets/$1.csv"; else echo "$out/$1.csv"; fi; }

# The instructions of a run of so many calls, and those of one call; `read` where no table is lent.
run_cost() { # SHEET IMPLEMENTATION CALLS [read]
    local file=$out/callgrind.$1.$2.$3${4:+.$4}
    valgrind --tool=callgrind --callgrind-out-file="$file" "$out/speed" "$(sheet_of "$1")" "$2" "$3" ${4:-} >"$file.said" 2>"$file.err" ||
        die "callgrind failed on $1 by $2: $(tail -1 "$file.err")"
    sed -n 's/^totals: //p' "$file"
}
call_cost() { # SHEET IMPLEMENTATION CALLS [read]
    local one many
    one=$(run_cost "$1" "$2" 1 ${4:-}) && many=$(run_cost "$1" "$2" "$3" ${4:-}) || exit 2
    echo $(((many - one) / ($3 - 1)))
}
# What callgrind says that one call spends in the functions whose name ends so, and in what they call; nothing if none is left.
spent_in() { # SHEET IMPLEMENTATION CALLS FUNCTION
    callgrind_annotate --inclusive=yes --threshold=100 "$out/callgrind.$1.$2.$3" 2>/dev/null |
        awk -v f="$4" -v n="$3" '{ g = $0; sub(/ \[.*/, "", g) } g ~ "[ :]" f "$" && !c { c = $1; gsub(/,/, "", c); printf "%d", c / n }'
}
answer() { "$out/speed" "$(sheet_of "$1")" "$2" 1 ${3:-} || die "no answer on $1 by $2"; }
# The answers agree; the count of rounds too, where the library tells it.
compare() { # SHEET [read]
    local equal library plain
    equal=$(answer "$1" equal ${2:-}) && library=$(answer "$1" library ${2:-}) && plain=$(answer "$1" plain ${2:-}) || exit 2
    if [ "$equal" != "$plain" ] || { [ "$library" != "$equal" ] && [ "$library" != "${equal% rounds *} rounds 0" ]; }; then
        printf 'answers differ on %s %s\n  library  %s\n  equal    %s\n  plain    %s\n' "$1" "${2:-}" "$library" "$equal" "$plain"
        differ=1
    fi
}
rounds_of() { local said; said=$(answer "$1" equal) || exit 2; echo "${said##* }"; }
ratio() { awk -v a="$1" -v b="$2" 'BEGIN { printf "%.2f", a / b }'; }

missed=0 differ=0
targets=''
target() { # WHAT VALUE RELATION LIMIT, the value as A/B
    if awk -v a="${2%/*}" -v b="${2#*/}" -v r="$3" -v l="$4" \
        'BEGIN { v = a / b; exit !(r == "at most" ? v <= l : r == "at least" ? v >= l : v < l) }'; then
        verdict=met
    else
        verdict=MISSED missed=1
    fi
    targets+=$(printf '%-7s %-62s %6s  (%s %s)' "$verdict" "$1" "$(ratio "${2%/*}" "${2#*/}")" "$3" "$4")$'\n'
}

echo "Instructions of a call"
printf '%-10s %7s %12s %12s %12s %14s %14s\n' sheet rounds library equal plain library/equal plain/library
for name in ring16 full $ordinary; do
    compare "$name"
    rounds=$(rounds_of "$name") && l=$(call_cost "$name" library 11) && e=$(call_cost "$name" equal 11) && p=$(call_cost "$name" plain 2) || exit 2
    printf '%-10s %7d %12d %12d %12d %14s %14s\n' "$name" "$rounds" "$l" "$e" "$p" "$(ratio "$l" "$e")" "$(ratio "$p" "$l")"
    case $name in
    ring16) target "(a) the ring of sixteen events: library / equal" "$l/$e" "at most" 1.3 ;;
    full)
        target "(b) sixteen events, four signals, 64 rules: library / equal" "$l/$e" "at most" 1.3
        target "(b) plain loops / library" "$p/$l" "at least" 10
        ;;
    *) cost[$name]="$rounds $l $e" ;;
    esac
done

echo
echo "One-off work and rounds"
printf '%-10s %-8s %9s %9s %9s %9s %14s   %s\n' sheet by reading compiling one-off 'a round' one-off/round 'by function'
for name in $ordinary; do
    compare "$name-short"
    compare "$name" read
    [ "$(rounds_of "$name-short")" = 1 ] || die "$name: the first round does not pass horizon 10"
    read -r rounds own_library own_equal <<<"${cost[$name]}"
    for by in library equal; do
        if [ $by = library ]; then own=$own_library reader=sheet::read lister=list_constraints; else own=$own_equal reader=equal::read lister=equal::compile; fi
        short=$(call_cost "$name-short" $by 11) && reading=$(call_cost "$name" $by 11 read) || exit 2
        round=$(((own - short) / (rounds - 1)))
        once=$((short - round))
        eval "once_$by=\$once round_$by=\$round"
        seen=''
        for function in $reader $lister; do spent=$(spent_in "$name" $by 11 $function) && [ -n "$spent" ] && seen+="$function $spent  "; done
        printf '%-10s %-8s %9d %9d %9d %9d %14s   %s\n' "$name" $by "$reading" $((once - reading)) "$once" "$round" "$(ratio "$once" "$round")" "$seen"
    done
    target "one-off work of $name: library / equal" "$once_library/$once_equal" "at most" 1.5
    [ "$name" != ordinary4 ] || target "one-off work at four signals: library, in its own rounds" "$once_library/$round_library" "less than" 10
done

echo
echo "Targets"
printf '%s' "$targets"
if [ $differ = 0 ]; then echo "met     the three agree on every answer"; else echo "MISSED  the three agree on every answer"; missed=1; fi
exit $missed
