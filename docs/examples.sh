#!/usr/bin/env bash
# Runs every example of the documents, by the mark of the block that it stands in:
#
#   plan, script, headers, routes, trace, audit, label   goes to that program, from # on without its comments; the next block must come out
#   none, and the first line starts with $                commands, and what each prints; 0 and 1 are ways to end well
#   rust, c                                               takes the mark's place in docs/example/frame.rs or frame.c, is compiled and has to
#                                                         end well; what it prints, if anything, is the next block; Rust's
#                                                         standard input is docs/example/trace
#
# All other blocks are shown only. `cartsundial` is the one that rust/run builds. Where something else comes out, the exit status is 1.
set -euo pipefail
shopt -s nullglob
cd "$(dirname "$0")/.."
PATH=$PWD/rust/target/release:$PATH

parts=$(mktemp -d)
trap 'rm -rf "$parts"' EXIT

# split DOCUMENT FOLDER: two files for each example, named by the line where it starts: NNNN.plan, .script, .., .command, and NNNN.out.
split() {
    awk -v parts="$2" '
        function start(mark) {
            name = sprintf("%s/%04d", parts, NR)
            file = name "." mark
            printf "" > file
            printf "" > (name ".out")
        }
        /^```/ {
            inside = !inside
            mark = substr($0, 4)
            first = inside && mark == ""
            command = 0
            file = ""
            if (inside && mark != "") pending = ""
            if (inside && mark ~ /^(plan|script|headers|routes|trace|audit|label|rust|c)$/) {
                start(mark)
                pending = name
            }
            next
        }
        first {
            first = 0
            command = /^\$ /
            if (!command && pending != "") file = pending ".out"
            pending = ""
        }
        command && /^\$ / {
            start("command")
            print substr($0, 3) > file
            file = name ".out"
            next
        }
        file != "" { print > file }
    ' "$1"
}

# The answer to the example on standard input. In a script, a line that starts with spaces goes on with the one before.
answer() {
    case $1 in
    plan) bytes | target/bin/plan ;;
    script) bytes | target/bin/script | xxd -p -u -c 18 ;;
    headers) plainly | target/bin/test_headers ;;
    routes) plainly | sed -e ':all' -e 'N; $!b all' -e 's/\n  */ /g' | target/bin/test_routes ;;
    trace) bytes | target/bin/annotate ;;
    audit) bytes | target/bin/audit ;;
    label) bytes | target/bin/label ;;
    command) bash 2>&1 || [ $? -eq 1 ] ;;
    rust)
        framed frame.rs
        rustc --edition 2021 --extern cartsundial=rust/target/release/libcartsundial.rlib -o "$parts/run" "$parts/frame.rs" &&
            "$parts/run" <docs/example/trace
        ;;
    c)
        framed frame.c
        gcc -std=c99 -Wall -Wextra -Werror -Iinclude "$parts/frame.c" target/staticlib/libcapi.a -o "$parts/run" && "$parts/run"
        ;;
    esac
}

# Lines without their comments.
plainly() {
    sed 's/ *#.*//'
}

# The bytes that hexadecimal digits spell.
bytes() {
    printf "$(plainly | tr -d ' \n' | sed 's/../\\x&/g')"
}

# A frame of docs/example with the example in the place of its mark.
framed() {
    sed -e '/EXAMPLE/{r /dev/stdin' -e 'd}' "docs/example/$1" >"$parts/$1"
}

cargo build --release --offline --locked --quiet --manifest-path rust/Cargo.toml -p cartsundial --features std

count=0
documents=(README.md CONTRIBUTING.md docs/*.md {examples,tests}/*/README.md rust/README.md)
for document in "${documents[@]}"; do
    folder=$parts/${document//\//-}
    mkdir "$folder"
    split "$document" "$folder"
    for example in "$folder"/*.{plan,script,headers,routes,trace,audit,label,command,rust,c}; do
        expected=${example%.*}.out
        mark=${example##*.}
        line=$(basename "$expected" .out)
        if ! answer "$mark" <"$example" >"$parts/answered"; then
            cat "$parts/answered" >&2
            echo "docs/examples.sh: $document, line $line: it fails" >&2
            exit 1
        fi
        case $mark in rust | c) [ -s "$parts/answered" ] || cp "$expected" "$parts/answered" ;; esac
        if ! diff -u "$expected" "$parts/answered" >&2; then
            echo "docs/examples.sh: $document, line $line: something else comes out" >&2
            exit 1
        fi
        count=$((count + 1))
    done
done
echo "${#documents[@]} documents: $count examples"
