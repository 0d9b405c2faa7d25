#!/usr/bin/env bash
# Draws the documents' pictures. docs/crates.svg: what each crate of crates.txt is built on. docs/plan.svg: the plan of
# tests/command/recorder.txt, as `cartsundial plan --svg` draws it. That plan, the stored docs/example/plan.txt, and
# what the proved program prints for docs/example/board must be one, and board.txt must spell the board's bytes. docs/page.png, a
# picture of a page, is made by a test of rust/command, and has to be there. With --check nothing is written, and a picture that is
# not up to date gives exit status 1.
set -euo pipefail
cd "$(dirname "$0")/.."

fail() {
    echo "docs/picture.sh: $1" >&2
    exit 1
}

check=no
case "$*" in
'') ;;
--check) check=yes ;;
*) fail 'usage: docs/picture.sh [--check]' ;;
esac

plan=$(mktemp)
picture=$(mktemp)
trap 'rm -f "$plan" "$picture"' EXIT

# draw NAME: the picture on standard input as docs/NAME.svg.
draw() {
    cat >"$picture"
    if [ $check = yes ]; then
        cmp -s "$picture" "docs/$1.svg" || fail "docs/$1.svg is not up to date: run docs/picture.sh"
    else
        cat "$picture" >"docs/$1.svg"
    fi
}

# run PACKAGE PROGRAM ..: a program of the Rust side, with these arguments.
run() {
    cargo run -q --release --offline --manifest-path rust/Cargo.toml --package "$1" --bin "$2" -- "${@:3}"
}

run picture picture crates <crates.txt | draw crates

bytes=$(od -An -v -tx1 docs/example/board | tr -d ' \n')
text=$(sed 's/#.*//' docs/example/board.txt | tr -d ' \n' | tr 'A-F' 'a-f')
[ "$bytes" = "$text" ] || fail 'docs/example/board.txt spells other bytes than docs/example/board has'

[ -x target/bin/plan ] || fail 'target/bin/plan is not there: .ci/build plan writes it'
target/bin/plan <docs/example/board >"$plan"
diff -u docs/example/plan.txt "$plan" >&2 || fail 'docs/example/plan.txt is not the plan of docs/example/board'
run command cartsundial plan tests/command/recorder.txt --lines | diff -u docs/example/plan.txt - >&2 ||
    fail 'docs/example/plan.txt is not the plan of tests/command/recorder.txt'
run command cartsundial plan tests/command/recorder.txt --svg - | draw plan
[ -s docs/page.png ] || fail 'docs/page.png is not there: CARTSUNDIAL_STORE=1 cargo test --test browser, in rust/command, makes it'
