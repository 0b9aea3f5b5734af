#!/usr/bin/env bash
# library.sh CRATE TO: builds a static library of crates.txt as the file TO (a path from the repository's top, or a whole
# one), over the libraries below it that `rt ci` has just built in this checkout: run it right behind `rt ci`, with no
# edit between. `rt lib` would prove each of them once more, since it does not take what `rt ci` made; so the toolchain's
# compiler is called as `rt` calls it, which proves the crate itself and takes those below as they are.
# Where a check of one's own left its libraries in the checkout, they stand in the place of those of `rt ci`, and
# `rt lib` goes on from them.
set -u
crate=${1:?which crate?} to=${2:?which file?}
cd "$(dirname "$0")/../.." || exit 2
guide=$(rt doc) || exit 2
kit=$(dirname "$guide")

# the crates below a crate by crates.txt, each once, lowest first
below() {
  awk -v crate="$1" '
    function visit(name,    i, n, deps) {
      if (name in seen) return
      seen[name] = 1
      n = split(line[name], deps, " ")
      for (i = 1; i <= n; i++) visit(deps[i])
      if (name != crate) print name
    }
    /^[a-z]/ { split($0, sides, ":"); name = sides[1]; sub(/ .*/, "", name); line[name] = sides[2] }
    END { visit(crate) }' crates.txt
}

fail() { echo "library.sh: $1" >&2 && exit 1; }

direct=$(sed -nE "s/^$crate( [^:]*)?: *//p" crates.txt)
[ -n "$direct" ] || fail "crates.txt has no line of $crate with crates below it"
words=(--extern "std=$kit/rlibs/std.rlib" -L "dependency=$kit/rlibs")
for name in $direct; do
  words+=(--extern "$name=../$name/out/rlib/$name.rlib")
done
for name in $(below "$crate"); do
  rlib=crates/$name/out/rlib
  if [ -e "$rlib/stamp" ]; then
    (cd "crates/$crate" && rt lib) && cp "crates/$crate/out/lib$crate.a" "$to"
    exit
  fi
  [ -d "$rlib/$name.rlib" ] || fail "no library of $name is built here: run rt ci first"
  [ -z "$(find "crates/$name"/{src,specs,proofs} -newer "$rlib/$name.rlib" 2>/dev/null)" ] ||
    fail "$name was edited since its library was built: run rt ci again"
  words+=(-L "dependency=../$name/out/rlib")
done
words+=(--antt-project "$kit/rattle/logic/antt-project.json" --logic-built "$kit/logic_built" --links "$crate=")
words+=(--crate-type staticlib --toolchain "$kit/toolchain" --backend llvm --jobs 2)
room=$(mktemp -d) || exit 2
trap 'rm -rf "$room"' EXIT
(cd "crates/$crate" && "$kit/bin/rattle" build --crate-name "$crate" src/lib.rt "${words[@]}" -o "$room/lib.a") &&
  cp "$room/lib.a" "$to"
