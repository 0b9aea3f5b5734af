#!/usr/bin/env bash
# The functions of include/opening.h against crates/calls/specs/Header.antt, which says by hand what each shifts out of
# an answer: the same names, each with the same shifts and widths, put together in the same way. Prints one line and
# exits with 0, or says what differs and exits with 1. Other files may be named in the places of the two.
set -u
cd "$(dirname "$0")/../.." || exit 2
header=${1:-include/opening.h}
specification=${2:-crates/calls/specs/Header.antt}

fail() {
  echo "header: $1"
  exit 1
}

# Each `static inline TYPE NAME(uint64_t answer) { return BODY; }`, on one line or on four, as the specification would
# have it, `NAME a = ..`. TYPE is unsigned or uint32_t, and the cast in the body is to the same. Some bits of the answer
# are `answer >> SHIFT & 0xff` (no shift is one by 0, each f is four bits, and a 7 before them three), or the highest
# alone `answer >> 63`; that a number is not 0 is `min 1` of it.
in_header() {
  local head='^static inline (unsigned|uint32_t) (opening_[a-z_]+)\(uint64_t answer\) '
  awk '/^static inline /{ whole = "" } { sub(/^ +/, ""); whole = whole (whole == "" ? "" : " ") $0 }
       /\}$/{ print whole; whole = "" }' "$header" |
    sed -nE -e "s/$head\{ return \(\1\)\((.*)\); \}$/\2 a = \3/p" \
      -e "s/$head\{ return (.*) != 0; \}$/\2 a = min 1 (\3)/p" |
    awk '{
      while (match($0, /answer( >> [0-9]+)? & 0x7?f+/)) {
        front = substr($0, 1, RSTART - 1); back = substr($0, RSTART + RLENGTH)
        split(substr($0, RSTART, RLENGTH), part, / & 0x/); shift_by = part[1]; sub(/^answer( >> )?/, "", shift_by)
        $0 = front "bits a " (shift_by + 0) " " 4 * gsub(/f/, "", part[2]) + 3 * gsub(/7/, "", part[2]) back
      }
      gsub(/answer >> 63/, "bits a 63 1"); gsub(/\(answer\)/, " a")
      while (match($0, /\(bits a [0-9]+ [0-9]+\)/))
        $0 = substr($0, 1, RSTART - 1) substr($0, RSTART + 1, RLENGTH - 2) substr($0, RSTART + RLENGTH)
      print
    }' | sort
}

# the definitions of the specification
in_specification() {
  grep -E '^opening_[a-z_]+ a = ' "$specification" | sort
}

# A function that the patterns do not read must not be passed over.
all_read() { # FILE WORDS LIST: the list has as many lines as the words stand in the file
  [ "$(grep -o "$2" "$1" | wc -l)" -eq "$(echo "$3" | wc -l)" ] ||
    fail "not every '$2' of $1 was understood, but these were
$3"
}

defined=$(in_header)
specified=$(in_specification)
all_read "$header" 'static inline' "$defined"
all_read "$header" 'uint64_t answer' "$defined"
all_read "$specification" 'pub opening' "$specified"
count=$(echo "$defined" | wc -l)
[ "$count" -ge 12 ] || fail "only $count functions in $header"
[ "$defined" = "$specified" ] || fail "in $header (<) and in $specification (>)
$(diff <(echo "$defined") <(echo "$specified"))"
echo "header: $count functions of opening.h shift as their specification does"
