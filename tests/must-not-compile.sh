#!/bin/sh
# Shows that the compiler refuses each text of tests/must-not-compile, with the error that is meant, and accepts its harmless twin.
# Such code does not reach the prover, so no must-fail edit can hold it.
# Each folder has: deps (the crates that it uses), error (a part of the message), refused.rt.txt, accepted.rt.txt.
# The texts are checked in a copy of the repository, over the crates that were proved before (`rt check` or `rt ci`).
set -u
cd "$(dirname "$0")/.." || exit 2
root=$(pwd)
copy=$(mktemp -d) || exit 2
trap 'rm -rf "$copy"' EXIT
cp -R crates crates.txt "$copy/"

bad=0
count=0
# tries TEXT as a crate of its own, and writes what the check says
attempt() { # TEXT DEPS OUT
    rm -rf "$copy/crates/text"
    mkdir -p "$copy/crates/text/src"
    cp "$1" "$copy/crates/text/src/lib.rt"
    cp "$root/crates.txt" "$copy/crates.txt"
    echo "text: $2" >>"$copy/crates.txt"
    (cd "$copy/crates/text" && rt check) >"$3" 2>&1
}

for folder in tests/must-not-compile/*/; do
    name=$(basename "$folder")
    deps=$(cat "$folder/deps")
    want=$(cat "$folder/error")
    count=$((count + 1))
    if attempt "$folder/refused.rt.txt" "$deps" "$copy/out"; then
        echo "must-not-compile: $name: it was accepted"
        bad=$((bad + 1))
    elif ! grep -qF "$want" "$copy/out"; then
        echo "must-not-compile: $name: refused, but not by: $want"
        tail -n 20 "$copy/out"
        bad=$((bad + 1))
    fi
    if ! attempt "$folder/accepted.rt.txt" "$deps" "$copy/out"; then
        echo "must-not-compile: $name: its twin was refused"
        tail -n 20 "$copy/out"
        bad=$((bad + 1))
    fi
done
echo "must-not-compile: $count texts, $bad wrong"
[ "$bad" -eq 0 ] && [ "$count" -gt 0 ]
