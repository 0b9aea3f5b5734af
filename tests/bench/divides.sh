#!/usr/bin/env bash
# divides.sh LIBRARY: numbers are written without division (02, point 5), in what the compiler makes of it too. It may
# turn a loop that counts off back into a division, and it divides by a constant by multiplying with another.
#
# Looked at are opening_listing, opening_house, opening_convert, opening_ring and all that they call. There no
# instruction divides; none multiplies but a register by a register or by what is in memory, and then the function puts
# no large constant into a register, other than a mask of whole bytes, by which nothing is divided; in the crates that
# write numbers, `text` and `page`, and in `counted`, whose lists they write on, none multiplies at all. Nothing is
# called that is not in the library, but memcpy and its like. And the source of these three crates has no / and no %
# outside contracts.
# That each of these is noticed is tried on small functions first.
# Prints one line and exits with 0, or says what was found and exits with 1.
set -u
cd "$(dirname "$0")/../.." || exit 2
room=$(mktemp -d) || exit 2
trap 'rm -rf "$room"' EXIT

fail() {
  echo "divides: $1"
  exit 1
}

# `seen NAME` for each function that is looked at, and each instruction at fault behind its function
found() { # FILE
  objdump -dr --no-show-raw-insn "$1" | awk '
    function fault(text) { faults[f] = faults[f] "in " f ": " text "\n" }
    /^[0-9a-f]+ <.*>:$/ { f = $0; sub(/^[0-9a-f]+ </, "", f); sub(/>:$/, "", f); known[f] = 1; next }
    / R_X86_64_(PLT|PC|GOTPCRELX?|REX_GOTPCRELX?)(32)?\t/ {
      name = $0; sub(/.*\t/, "", name); sub(/[-+]0x[0-9a-f]+$/, "", name); sub(/^\.text\./, "", name)
      if (name !~ /^\./) calls[f] = calls[f] "\n" name
      next
    }
    /\t[a-z]*div[a-z0-9]* / { fault($0); next }
    /\t[a-z]*mul[a-z0-9]* / {
      if (f ~ /^(text|page|counted)::/ || $0 !~ /\timul[wlq]? +[^$,]*(\([^)]*\))?,%[a-z0-9]+$/) fault($0)
      else product[f] = product[f] "in " f ": " $0 "\n"
      next
    }
    /\tmov(abs)?[lq]? +\$0x(00|ff)+,%/ { next }
    /\tmov(abs)?[lq]? +\$0x[0-9a-f][0-9a-f][0-9a-f][0-9a-f][0-9a-f][0-9a-f][0-9a-f]+,%/ {
      large[f] = large[f] "in " f ": " $0 "\n"
    }
    /\tcall[q]? +\*/ { fault($0) }
    END {
      last = split("opening_listing opening_house opening_convert opening_ring", due, " ")
      for (i = 1; i <= last; i++) if (!(due[i] in seen)) {
        name = due[i]; seen[name] = 1
        if (!(name in known)) {
          if (name !~ /^mem(cpy|move|set|cmp)$/) print "not in the library: " name
          continue
        }
        print "seen " name
        printf "%s", faults[name]
        if (product[name] != "" && large[name] != "") printf "%s%s", large[name], product[name]
        n = split(calls[name], behind, "\n")
        for (j = 2; j <= n; j++) due[++last] = behind[j]
      }
    }'
}

at_fault() { found "$1" | grep -v '^seen '; }

divisions() { grep -nvE '^ *(//|ghost |requires |ensures )' "$1" | grep '[/%]'; } # FILE: in its code

# the four of a library in which the first does this to v, by a function `of`
small() { # NAME TYPE BODY [NAME OF THE FUNCTION]
  {
    printf '#include <stdint.h>\ntypedef %s number;\nextern number other(number);\n' "$2"
    printf '__attribute__((noinline)) number of(number v, number w) { (void)w; %s }\n' "$3"
    printf 'number opening_listing(number v, number w) { return of(v, w) + 1; }\n'
    printf 'void opening_house(void) {}\nvoid opening_convert(void) {}\nvoid opening_ring(void) {}\n'
  } >"$room/$1.c"
  gcc -std=c11 -O2 -ffunction-sections -c -o "$room/$1.o" "$room/$1.c" &&
    objcopy --redefine-sym of="${4-of}" "$room/$1.o" || fail "$1 is not compiled"
  found "$room/$1.o" | grep -q "^seen ${4-of}$" || fail "$1: its function is not looked at"
}
noticed() { small "$@"; at_fault "$room/$1.o" >"$room/at_fault" || fail "not noticed: $1"; }
passed() { small "$@"; ! at_fault "$room/$1.o" || fail "taken for a division: $1"; }

passed difference uint16_t 'return v - w;'
passed difference_in_text uint16_t 'return v - w;' text::of
passed product uint32_t 'return v * w;'
passed product_and_mask uint32_t 'return (v & 0xffff00ff) * w;'
noticed product_in_text uint32_t 'return v * w;' text::of
noticed product_on_page uint32_t 'return v * w;' 'page::Page::of::<#00c5eed1ab5e10f5>'
noticed product_in_list uint32_t 'return v * w;' 'counted::Counted::of::<#00c5eed1ab5e10f5>'
noticed quotient uint16_t 'return v / w;'
noticed tenth_16 uint16_t 'return v / 10;'
noticed tenth_32 uint32_t 'return v / 10;'
noticed tenth_64 uint64_t 'return v / 10;'
noticed tenth_signed int64_t 'return v / 10;'
noticed remainder uint16_t 'return v % 1000;'
noticed called_apart uint16_t 'return other(v) - w;'
printf '#![no_std]\n#[panic_handler]\nfn end(_: &core::panic::PanicInfo) -> ! { loop {} }\n' >"$room/of.rs"
printf '#[no_mangle]\npub extern "C" fn opening_listing(v: u16) -> u16 { v / 10 }\n' >>"$room/of.rs"
rustc --edition 2021 -O --crate-type lib --emit obj -o "$room/of.o" "$room/of.rs" || fail 'not compiled by rustc'
at_fault "$room/of.o" | grep -q mul || fail 'not noticed: a tenth as rustc has it'
{
  printf 'unsigned opening_ring(unsigned v) { return v / 10; }\n'
  printf 'void opening_listing(void) {}\nvoid opening_house(void) {}\nvoid opening_convert(void) {}\n'
} >"$room/ring.c"
gcc -std=c11 -O2 -ffunction-sections -c -o "$room/ring.o" "$room/ring.c" || fail 'the last of the four is not compiled'
at_fault "$room/ring.o" | grep -q '^in opening_ring' || fail 'not noticed: a tenth in the last of the four'
printf '    // v / 10\n    ensures { v / 10 }\n    v / 10\n' >"$room/of.rt"
[ "$(divisions "$room/of.rt")" = '3:    v / 10' ] || fail 'a division in the source is not noticed'

for source in crates/{text,page,counted}/src/*.rt; do
  [ -s "$source" ] || fail "no $source"
  ! divisions "$source" || fail "a division in $source"
done
found "$1" >"$room/found"
for name in opening_listing opening_house opening_convert opening_ring; do
  grep -q "^seen $name$" "$room/found" || fail "$name is not in the library"
done
# by the method of a page, by `spell`, or by what these two are made of where the compiler keeps that apart
grep -qE '^seen (page::Page::push_number|text::digits::(spell|place|count_off))(::<.*>)?$' "$room/found" ||
  fail 'it is not seen where numbers are written'
! at_fault "$1" || fail 'the library divides'
called=$(($(grep -c '^seen ' "$room/found") - 4))
four="opening_listing, opening_house, opening_convert, opening_ring"
echo "divides: nothing divides in $four and the $called functions that they call"
