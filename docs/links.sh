#!/usr/bin/env bash
# Looks for dead links in the documents: a link to a file needs the file, one to a heading the heading. Then for names: `crate::name` needs
# its definition in that crate, of crates/ or of rust/. Then holds docs/NUMBERS.md against the names of C and of Rust. Where something is
# amiss, the exit status is 1.
set -euo pipefail
cd "$(dirname "$0")/.."

mapfile -t documents < <(find . -name '*.md' -not -path '*/target/*' -not -path './.git/*' -printf '%P\n' | sort)

# FILE#ANCHOR for each heading, as a page of a repository has it: lower case, no punctuation, hyphens for spaces, -1 for a second one.
headings() {
    awk '
        FNR == 1 { inside = 0; delete seen }
        /^```/ { inside = !inside }
        !inside && /^#+ / {
            slug = tolower($0)
            sub(/^#+ +/, "", slug)
            gsub(/[^a-z0-9 _-]/, "", slug)
            gsub(/ /, "-", slug)
            print FILENAME "#" slug (slug in seen ? "-" seen[slug] : "")
            seen[slug]++
        }
    ' "$@"
}

# FILE, LINE and TARGET of each link that does not leave the repository.
links() {
    awk '
        FNR == 1 { inside = 0 }
        /^```/ { inside = !inside }
        !inside {
            text = $0
            gsub(/`[^`]*`/, "", text)
            while (match(text, /\]\([^)]+\)/)) {
                target = substr(text, RSTART + 2, RLENGTH - 3)
                text = substr(text, RSTART + RLENGTH)
                if (target !~ /^[a-z]+:/) print FILENAME "\t" FNR "\t" target
            }
        }
    ' "$@"
}

declare -A known
while read -r heading; do known[$heading]=yes; done < <(headings "${documents[@]}")

dead=0 count=0
while IFS=$'\t' read -r file line target; do
    count=$((count + 1))
    path=$file
    case $target in
    '#'*) ;;
    *) path=$(realpath -m --relative-to=. "$(dirname "$file")/${target%%#*}") ;;
    esac
    if [ ! -e "$path" ]; then
        echo "docs/links.sh: $file, line $line: no $path" >&2
        dead=$((dead + 1))
    elif [[ $target == *#* && -z ${known[$path#${target#*#}]-} ]]; then
        echo "docs/links.sh: $file, line $line: no heading $path#${target#*#}" >&2
        dead=$((dead + 1))
    fi
done < <(links "${documents[@]}")
[ $dead -eq 0 ] || exit 1
echo "${#documents[@]} documents: $count links"

# FILE, LINE and NAME of each `crate::name`, without its arguments. CHANGELOG.md and the landings tell of the past; std is not ours.
names() {
    find "$@" -not -name CHANGELOG.md -not -path 'docs/landings/*' -print0 |
        xargs -0 grep -noE '`[a-z][a-z0-9_]*(::[A-Za-z0-9_*]+)+' |
        sed -E 's/^([^:]*):([0-9]*):`(.*)/\1\t\2\t\3/' | grep -vE $'\t(std|core|alloc)::[^\t]*$'
}

# Whether a crate of this folder defines the name, in code or in a file of definitions or laws; a name with * means that there are names like
# it.
defines() {
    local name=${2//\*/[A-Za-z0-9_]*} code='fn|struct|enum|const|mod|type|trait|static'
    [ -e "$1/src/$name.rt" ] || [ -e "$1/src/$name.rs" ] ||
        grep -rqE --include='*.rt' --include='*.rs' "(^|[ (])($code) $name([^A-Za-z0-9_]|$)" "$1/src" ||
        grep -rqE --include='*.antt' --exclude-dir=out "^ *(pub )?((abbrev|record|data|unfoldable) )*(pub )?$name( |$)" "$1"
}

missing=0 count=0
set -f
while IFS=$'\t' read -r file line name; do
    count=$((count + 1))
    crate=crates/${name%%::*}
    [ -d "$crate" ] || crate=rust/${name%%::*}
    rest=${name#*::}
    for part in ${rest//::/ }; do
        [ -d "$crate/src" ] && defines "$crate" "$part" && continue
        echo "docs/links.sh: $file, line $line: no $name in the code" >&2
        missing=$((missing + 1))
        break
    done
done < <(names "${documents[@]}")
set +f
[ $missing -eq 0 ] || exit 1
echo "names in the documents: $count as crate::name, all in the code"

diff <(sed -n 's/^| \([0-9]*\) | `\([A-Z_]*\)` | `\([A-Za-z]*\)` |.*/\1 \2 \3/p' docs/NUMBERS.md) \
    <(join -j 1 <(sed -n 's/^ *CARTSUNDIAL_E_\([A-Z_]*\) = \([0-9]*\).*/\2 \1/p' include/cartsundial.h | sort) \
        <(sed -n 's/^ *\([A-Za-z]*\) = \([0-9]*\), ".*/\2 \1/p' rust/cartsundial/src/refusal.rs | sort) | sort -n) >&2 || {
    echo 'docs/links.sh: docs/NUMBERS.md has other numbers or names than cartsundial.h and refusal.rs' >&2
    exit 1
}
echo 'docs/NUMBERS.md: as in cartsundial.h and refusal.rs'
