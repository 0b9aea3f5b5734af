#!/bin/bash
# leap.sh LIBOPENING LIBTALLY [OUT]: what passing over rounds gains and costs, as ratios of instructions, counted by callgrind.
#
# LIBOPENING and LIBTALLY are the paths of the libraries for C, crates/opening_c/out/libopening_c.a and
# crates/tally/out/libtally.a (rt lib in crates/opening_c and in crates/tally).
# OUT takes the program, the sheets and callgrind's last file; a temporary folder, removed at the end, if it is not given.
# Exit status: 0 if every target is met, 1 if one is not or an answer differs, 2 if something could not be built or run.
#
# `plain` and `leaping` are tally_plain and tally_leaping: both read the sheet, compile it and sum up the table, and differ only in the
# rounds between. All sides are called in the same way by one program, built for release as in ratios.sh. A call's cost is a run with
# one call on each sheet less a run with none, which reads the same files; the same binary makes both.
#
# A plain round is told from reading and compiling by solving the same sheet with two horizons: heavy sheets with 10,080 and 60,
# ordinary ones with their own and with 10, which their first round passes. The two sheets differ in the digits of one line (or two,
# where a limit follows the horizon), so the difference of their costs is so many rounds, and the summing up of the table where only
# one has it (under 2 % of the difference on the ordinary sheets). The anchor's rounds are told in the same way.
#
# The anchor's solver is given sheets that are read already: its cost has no reading in it, the library's has.
#
# callgrind counts each byte that a `rep stosb` of libc's memset writes as an instruction, from 2,048 bytes on. The setting below has
# memset run and count as its vector loop; set GLIBC_TUNABLES, if only to nothing, to have it otherwise.
set -uo pipefail

here=$(cd "$(dirname "$0")" && pwd)
die() { echo "leap.sh: $*" >&2; exit 2; }
[ $# -ge 2 ] || die "usage: leap.sh LIBOPENING LIBTALLY [OUT]"
if [ $# -ge 3 ]; then out=$3; mkdir -p "$out" || exit 2; else out=$(mktemp -d) || exit 2; trap 'rm -rf "$out"' EXIT; fi
export GLIBC_TUNABLES=${GLIBC_TUNABLES-glibc.cpu.x86_rep_stosb_threshold=1000000}

# ---- build, and make the sheets
mkdir -p "$out/link" "$out/made" "$out/short" || exit 2
cp "$1" "$out/link/libopening.a" || die "no library at $1"
cp "$2" "$out/link/libtally.a" || die "no library at $2"
rustc --edition 2021 -C opt-level=3 -C codegen-units=1 -o "$out/leap" "$here/leap.rs" -L "native=$out/link" || die "no program"
"$out/leap" make "$out/made" || die "no sheets"

given=$here/sheets/heavy
made=$out/made
heavy=("$given"/{02-good-n16-k1,06-n16-k3-22rules,10-n8-k4,11-n16-k3,12-n14-k4}.csv "$made"/{ring-16,ring-12,ring-7,alternating-10}.csv)
coprime=("$given"/{adv-3-13-12-11,adv-4-12-11-10-9}.csv "$made"/coprime-{13-12,13-12-11,14-13-11,12-11-7-5}.csv)
generated=("$made"/ordinary/*.csv)
ordinary=("$here"/sheets/{full,ring16,ordinary2,ordinary3,ordinary4}.csv "${generated[@]}")
[ ${#generated[@]} = 210 ] || die "${#generated[@]} ordinary sheets, not 210"

# The same sheet with another horizon. A limit of 10,078, two less than the horizon, follows it.
shorten() { # SHEET HORIZON
    local short=$out/short/$(basename "$1")
    sed -e "1s/.*/horizon,$2/" -e "s/,10078,/,$(($2 - 2)),/" "$1" >"$short" || exit 2
    echo "$short"
}

# ---- measure
run_total() { # IMPLEMENTATION SHEET..: the instructions of a run
    local file=$out/callgrind.out total
    valgrind --tool=callgrind --callgrind-out-file="$file" "$out/leap" run "$@" >"$file.said" 2>"$file.err" ||
        die "callgrind failed on $(basename "$2") by $1: $(tail -1 "$file.err")"
    total=$(sed -n 's/^totals: //p' "$file")
    [ -n "$total" ] || die "no count on $(basename "$2") by $1"
    echo "$total"
}
# The cost of a call on a sheet, into plain and leaping; what `plain` costs is kept for the rounds.
declare -A plain_of
measure() { # SHEET
    local none
    none=$(run_total none "$1") && plain=$(run_total plain "$1") && leaping=$(run_total leaping "$1") || exit 2
    plain=$((plain - none)) leaping=$((leaping - none))
    [ $plain -gt 0 ] || die "plain costs nothing on $(basename "$1")"
    plain_of[$1]=$plain
}
# All answers agree; the rounds, the turns and the end of each sheet.
declare -A rounds_of turns_of end_of
differ=0
compare() { # SHEET..
    local said rounds turns end sheet
    said=$("$out/leap" compare "$@")
    case $? in 0) ;; 1) differ=1 ;; *) die "no comparison" ;; esac
    while read -r rounds turns end sheet; do
        rounds_of[$sheet]=$rounds turns_of[$sheet]=$turns end_of[$sheet]=$end
    done <<<"$said"
}
ratio() { awk -v a="$1" -v b="$2" 'BEGIN { printf "%.4f", a / b }'; }
over() { awk -v a="$1" -v b="$2" -v c="$3" -v d="$4" 'BEGIN { exit !(a / b > c / d) }'; } # A B C D: a / b is over c / d
name_of() { basename "$1" .csv; }
# The worst ratio so far: its parts and its sheet.
worst_anew() { worst_a=0 worst_b=1 worst_name=none; }
worst_of() { if over "$1" "$2" "$worst_a" "$worst_b"; then worst_a=$1 worst_b=$2 worst_name=$3; fi; } # A B NAME

missed=0
targets=''
target() { # WHAT A B LIMIT
    local verdict
    if awk -v a="$2" -v b="$3" -v l="$4" 'BEGIN { exit !(a / b <= l) }'; then verdict=met; else verdict=MISSED missed=1; fi
    targets+=$(printf '%-7s %-88s %7s  (at most %s)' "$verdict" "$1" "$(ratio "$2" "$3")" "$4")$'\n'
}

# A table with a line for each sheet. Leaves the worst of them.
group() { # TITLE SHEET..
    local sheet
    echo "$1"
    shift
    compare "$@"
    worst_anew
    printf '%-20s %9s %9s %7s %13s %13s %14s\n' sheet rounds turns end plain leaping leaping/plain
    for sheet in "$@"; do
        measure "$sheet"
        worst_of "$leaping" "$plain" "$(name_of "$sheet")"
        printf '%-20s %9d %9d %7s %13d %13d %14s\n' "$(name_of "$sheet")" "${rounds_of[$sheet]}" "${turns_of[$sheet]}" \
            "${end_of[$sheet]}" "$plain" "$leaping" "$(ratio "$leaping" "$plain")"
    done
    echo
}

group "Heavy sheets at horizon 10,080" "${heavy[@]}"
target "heavy sheets at horizon 10,080: leaping / plain, the worst ($worst_name)" "$worst_a" "$worst_b" 0.005

shortened=()
for sheet in "${heavy[@]}"; do
    short=$(shorten "$sheet" 60) || exit 2
    shortened+=("$short")
done
group "The same sheets at horizon 60" "${shortened[@]}"
target "the same sheets at horizon 60: leaping / plain, the worst ($worst_name)" "$worst_a" "$worst_b" 0.40

group "Cycles of coprime lengths that end by passing a limit, horizon 10,080" "${coprime[@]}"
target "cycles of coprime lengths: leaping / plain, the worst ($worst_name)" "$worst_a" "$worst_b" 0.10

short=$(shorten "$given/13-n16-k4.csv" 60) || exit 2
group "Where passing over rounds does not help (no target): cycles of coprime lengths and a table; few rounds of a long period" \
    "$made/coprime-table.csv" "$short"

# ---- ordinary sheets
compare "${ordinary[@]}"
worst_anew
all_rounds=0 all_turns=0 all_plain=0 all_leaping=0 seen=0
for sheet in "${ordinary[@]}"; do
    measure "$sheet"
    worst_of "$leaping" "$plain" "$(name_of "$sheet")"
    all_rounds=$((all_rounds + ${rounds_of[$sheet]})) all_turns=$((all_turns + ${turns_of[$sheet]}))
    all_plain=$((all_plain + plain)) all_leaping=$((all_leaping + leaping))
    seen=$((seen + 1))
    [ $((seen % 50)) != 0 ] || echo "leap.sh: $seen of ${#ordinary[@]} ordinary sheets" >&2
done
echo "Ordinary sheets: five of bench/sheets and 210 generated"
printf '%-20s %9s %9s %7s %13s %13s %14s\n' '' rounds turns '' plain leaping leaping/plain
printf '%-20s %9d %9d %7s %13d %13d %14s\n' "all ${#ordinary[@]}" $all_rounds $all_turns '' $all_plain $all_leaping \
    "$(ratio $all_leaping $all_plain)"
printf '%-20s %9s %9s %7s %13d %13d %14s\n' "worst: $worst_name" '' '' '' "$worst_b" "$worst_a" "$(ratio "$worst_a" "$worst_b")"
echo
target "ordinary sheets: leaping / plain, in all" $all_leaping $all_plain 1.00
target "ordinary sheets: leaping / plain, the worst ($worst_name)" "$worst_a" "$worst_b" 1.20

# ---- a plain round
anchor_cost() { # SHEET
    local none anchor
    none=$(run_total none "$1") && anchor=$(run_total anchor "$1") || exit 2
    echo $((anchor - none))
}
# How many rounds the sheet takes more than the short one, into count, and what they cost, into plain and anchor.
rounds_between() { # SHEET SHORT
    local sheet long_cost short_cost
    for sheet in "$@"; do [ -n "${plain_of[$sheet]-}" ] || measure "$sheet"; done
    long_cost=$(anchor_cost "$1") && short_cost=$(anchor_cost "$2") || exit 2
    count=$((${rounds_of[$1]} - ${rounds_of[$2]}))
    plain=$((${plain_of[$1]} - ${plain_of[$2]}))
    anchor=$((long_cost - short_cost))
}
echo "A plain round, without reading and compiling"
printf '%-20s %9s %9s %21s %13s %14s\n' sheet signals rounds plain anchor plain/anchor
for signals in 3 4; do
    worst_anew
    if [ $signals = 3 ]; then
        sheets=("$given"/{06-n16-k3-22rules,11-n16-k3}.csv "$here/sheets/ordinary3.csv")
    else
        sheets=("$given"/{10-n8-k4,12-n14-k4}.csv "$here"/sheets/{ordinary4,full}.csv)
    fi
    for sheet in "${sheets[@]}"; do
        case $sheet in
        "$given"/*) short=$out/short/$(basename "$sheet") ;;
        *)
            short=$(shorten "$sheet" 10) || exit 2
            compare "$short"
            [ "${rounds_of[$short]}" = 1 ] || die "$sheet: the first round does not pass horizon 10"
            ;;
        esac
        rounds_between "$sheet" "$short"
        worst_of $plain $anchor "$(name_of "$sheet")"
        printf '%-20s %9d %9d %21d %13d %14s\n' "$(name_of "$sheet")" $signals $count $((plain / count)) $((anchor / count)) \
            "$(ratio $plain $anchor)"
    done
    target "a plain round at $signals signals: plain / anchor, the worst ($worst_name)" "$worst_a" "$worst_b" 1.1
done
echo

# ---- the library
echo "Ordinary generated sheets: the library, reading included, and the anchor, without reading"
printf '%-20s %9s %9s %21s %13s %14s\n' '' sheets reading library anchor library/anchor
all_reading=0 all_library=0 all_anchor=0
for signals in 0 1 2 3 4; do
    sheets=("$made"/ordinary/*-k$signals-*.csv)
    none=$(run_total none "${sheets[@]}") && reading=$(run_total read "${sheets[@]}") || exit 2
    library=$(run_total library "${sheets[@]}") && anchor=$(run_total anchor "${sheets[@]}") || exit 2
    reading=$((reading - none)) library=$((library - none)) anchor=$((anchor - none))
    all_reading=$((all_reading + reading)) all_library=$((all_library + library)) all_anchor=$((all_anchor + anchor))
    printf '%-20s %9d %9d %21d %13d %14s\n' "$signals signals" ${#sheets[@]} $reading $library $anchor "$(ratio $library $anchor)"
done
printf '%-20s %9d %9d %21d %13d %14s\n' all ${#generated[@]} $all_reading $all_library $all_anchor "$(ratio $all_library $all_anchor)"
target "ordinary generated sheets: library with reading / anchor without, in all" $all_library $all_anchor 1.1

echo
echo "Targets"
printf '%s' "$targets"
agree='plain, leaping, library and anchor agree on every answer'
if [ $differ = 0 ]; then echo "met     $agree"; else echo "MISSED  $agree"; missed=1; fi
exit $missed
