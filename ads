#!/bin/sh
# ./ads PROGRAM [FILE]: runs a program on a file, or on standard input. What is not built yet is proved and built first: some minutes, once.
here=$(cd "$(dirname "$0")" && pwd) || exit 1
program=${1-}
if [ -z "$program" ] || [ ! -f "$here/crates/$program/src/main.rt" ]; then
    echo "usage: ./ads PROGRAM [FILE]" >&2
    for main in "$here"/crates/*/src/main.rt; do
        name=$(basename "$(dirname "$(dirname "$main")")")
        echo "    $name: $(sed -n '1s,^// ,,p' "$main")" >&2
    done
    exit 2
fi
[ -n "${2-}" ] && { exec <"$2" || exit 1; }
if [ ! -x "$here/crates/$program/out/$program" ]; then
    echo "ads: proving and building $program, a line for each crate that is not yet proved" >&2
    log=$(mktemp) || exit 1
    # rt runs it too, on nothing
    (cd "$here/crates/$program" && rt run </dev/null 2>&1 >/dev/null) | tee "$log" | sed -n 's/^rt: chose --jobs [0-9]* for /ads: /p' >&2
    [ -x "$here/crates/$program/out/$program" ] || { cat "$log" >&2; rm -f "$log"; exit 1; }
    rm -f "$log"
fi
exec "$here/tests/program" "$program"
