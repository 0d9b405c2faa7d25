# What the firmware printed, held against the programs, and QEMU's own map of every stop: sourced by run.

lines() { sed -n "s/^$1: //p" "$2"; }

# The script as the lines that the firmware prints for its writes, and whether what it reads back is what was written.
written() {
    awk '{
        data = substr($0, 35, 2) substr($0, 33, 2) substr($0, 31, 2) substr($0, 29, 2)
        print "write " NR ": " substr($0, 21, 4) " register " substr($0, 27, 2) " enables " substr($0, 20, 1) " data " data
    }'
}
not_read_back() {
    awk '/^write / {
        enables = index("0123456789ABCDEF", $6) - 1
        for (byte = 3; byte >= 0; byte--)
            if (int(enables / 2 ^ byte) % 2 && substr($8, 7 - 2 * byte, 2) != substr($10, 7 - 2 * byte, 2)) { print; next }
    }' "$1"
}

# The registers as `plan` prints a sheet.
as_plan() {
    awk 'function at(r, n,   i, s) { s = ""; for (i = n - 1; i >= 0; i--) s = s substr($0, 9 + 2 * (r + i), 2); return s }
    function line(   i, s) {
        s = substr($0, 5, 4) (at(14, 1) ~ /[08]1/ ? " bridge" : " end")
        for (i = 16; i < (s ~ /bridge/ ? 24 : 40); i += 4) s = s " " at(i, 4)
        if (s ~ /bridge/) s = s " " at(24, 1) " " at(25, 1) " " at(26, 1) " " at(28, 1) " " at(29, 1) " " at(32, 2) " " at(34, 2) \
            " " at(36, 2) " " at(38, 2) " " at(40, 4) " " at(44, 4)
        return s
    }
    NR > 1 { out = out line() "\n" }
    END { printf "plan %d\n%s", NR - 1, out }'
}

# judge NAME PART: one board of a log against the programs, which are built from the same proofs and know nothing of this machine.
judge() {
    local name=$1 part=$2
    lines board "$part" | xxd -r -p >"$part.board"
    diff <(lines plan "$part") <(target/bin/plan <"$part.board") >&2 || problem "$name: another plan"
    { printf '\0\0\0'; cat "$part.board"; } | target/bin/script | xxd -p -u -c 18 >"$part.script"
    diff <(lines script "$part") "$part.script" >&2 || problem "$name: another script"
    diff <(grep '^write ' "$part" | sed 's/ reads .*//') <(written <"$part.script") >&2 || problem "$name: other writes"
    [ -z "$(not_read_back "$part")" ] || problem "$name: a write is not read back"
    diff <(lines registers "$part" | as_plan) <(lines plan "$part") >&2 || problem "$name: registers other than planned"
    [ "$( (tail -c +4 "$part.board" | head -c 30; lines registers "$part" | xxd -r -p) | target/bin/audit)" = accepted ] ||
        problem "$name: the audit does not accept the registers"
    [ "$(lines audit "$part")" = 0 ] || problem "$name: no audit from the firmware"
    echo "examples/boot: $name: $(lines plan "$part" | sed -n 's/^plan //p') functions, $(wc -l <"$part.script") writes," \
        "after each $(lines probes "$part") asked; $(grep -c ' own mark$' "$part") have marks of their own"
}

# judge_all NAME LOG: each board of a log; a card that was plugged in is a board of its own.
judge_all() {
    rm -f "$2".part*
    awk -v to="$2.part" '/^-- / { n++ } { print > (to n) }' "$2"
    for part in "$2".part?; do
        judge "$1$(sed -n '1s/^--//p' "$part")" "$part"
    done
}

# judge_maps NAME LOG: whatever QEMU has at an address at any stop, it has there at the last one.
judge_maps() {
    awk -v name="$1" '
        /^stop / { stop = $2 }
        /^FlatView/ { view = "" }
        /^ AS "I\/O"/ { view = "I/O" }
        /^ AS "memory"/ { view = "memory" }
        view != "" && /owner:\{/ { region = $0; sub(/.*\): /, "", region); at[stop, view " " $1 " " region] }
        END {
            for (pair in at) {
                split(pair, part, SUBSEP)
                if ((stop, part[2]) in at) { last += part[1] == stop; continue }
                print "examples/boot: " name ": at stop " part[1] " QEMU has " part[2] ", and not at the end"
                wrong = 1
            }
            if (wrong || !stop || !last) exit 1
            print "examples/boot: " name ": QEMU has " last " ranges at the end, and at none of " stop " stops any other"
        }' "$2.maps" || problem "$1: QEMU's own map"
}
