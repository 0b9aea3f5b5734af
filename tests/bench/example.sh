#!/usr/bin/env bash
# example.sh LIBRARY [OTHER..]: the example in the comment of include/opening.h, taken as it stands into a program: it
# compiles without a warning and prints what its comments say, whichever way the caller answers. And the library has no
# memory of its own, as the header says: no symbol of its data; and of names from outside it and the others need memcpy
# and memset alone. Prints one line and exits with 0, or says what differs and exits with 1.
set -u
cd "$(dirname "$0")/../.." || exit 2
room=$(mktemp -d) || exit 2
trap 'rm -rf "$room"' EXIT

fail() {
  echo "example: $1"
  exit 1
}

# what stands behind the words `Example, ..:` of the comment, without its margin
body() { awk '/^ \* Example, /{ p = 1; next } /^ \*\/$/{ exit } p { sub(/^ \*/, ""); print }' include/opening.h; }

{
  printf '#include "opening.h"\n#include <stdio.h>\n#include <string.h>\n'
  printf 'static int says;\nstatic int caller_says_p(void) { return says; }\n'
  printf 'int main(int argc, char **argv)\n{\n    (void)argv;\n    says = argc > 1;\n'
  body
  printf '    return 0;\n}\n'
} >"$room/example.c"
[ "$(body | grep -c opening_)" -ge 14 ] || fail 'the comment has no example'
gcc -std=c99 -O2 -Wall -Wextra -Wpedantic -Werror -Iinclude -o "$room/example" "$room/example.c" "$1" || fail 'not compiled'
[ "$("$room/example" | tr '\n' ' ')" = '215 left 0 5 6 0 5 20 3 rounds good door at 6 ' ] || fail 'where p is false'
[ "$("$room/example" p | tr '\n' ' ')" = '215 left 0 5 6 0 5 20 3 rounds good door at 20 ' ] || fail 'where p is true'
nm "$1" >"$room/symbols" || fail 'no symbols'
grep -q ' T opening_solve$' "$room/symbols" || fail 'the symbols are not those of the library'
! grep -E '^[0-9a-f]* [BbCDdGgSs] ' "$room/symbols" || fail 'the library has memory of its own'
for library in "$@"; do
  needed=$(nm "$library" | sed -nE 's/^ +U //p' | sort -u | tr '\n' ' ')
  [ "$needed" = 'memcpy memset ' ] || fail "$library needs $needed"
done
echo 'example: that of opening.h compiles and prints what it says'
