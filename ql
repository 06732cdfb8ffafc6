#!/bin/sh
# Runs the command ql, and builds it first where that is needed: only a proved program is built, so the first time takes minutes.
# The exit status is the command's (docs/API.md), and 2 where it cannot be built.
set -u

fail() {
    printf 'ql: %s\n' "$1" >&2
    exit 2
}

# The folder of this file, also where it is called through a link.
file=$0
while [ -L "$file" ]; do
    link=$(readlink -- "$file")
    case $link in
    /*) file=$link ;;
    *) file=$(dirname -- "$file")/$link ;;
    esac
done
here=$(CDPATH='' cd -- "$(dirname -- "$file")" && pwd -P) || fail "its folder cannot be entered"
program=$here/target/bin/ql

# Whether the program is there, and no file that it is made from has changed since. What rt keeps of its work in crates/*/out is none of them.
is_built() {
    [ -x "$program" ] && [ -z "$(find "$here/crates" "$here/crates.txt" -name out -prune -o -type f -newer "$program" -print | head -n 1)" ]
}

# Proves the program and all below it, builds it, and takes it to where it is run.
build() {
    command -v rt >/dev/null || fail "'rt' of the Rattle kit is not on the PATH, and only it can build ql"
    mkdir -p "$here/target/bin" 2>/dev/null && [ -w "$here/target/bin" ] || fail "it is not built, and $here/target cannot be written"
    echo 'ql: proving and building the command; from nothing this takes minutes, and a line is printed as each part is checked' >&2
    log=$here/target/ql.log
    { (cd "$here/crates/ql" && rt run -- --version </dev/null) 2>&1 || echo 'rt: failed'; } | tee "$log" | sed -un 's/^crate \([a-z0-9_]*\): .*/ql: \1 is checked/p' >&2
    ! grep -q '^rt: failed$' "$log" && [ -x "$here/crates/ql/out/ql" ] || fail "it was not built: $log says why"
    cp "$here/crates/ql/out/ql" "$program.new" && mv "$program.new" "$program" || fail "$program could not be written"
}

is_built || build
exec "$program" "$@"
