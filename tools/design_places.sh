#!/usr/bin/env bash
# The places that docs/DESIGN-PASS.md counts, in the src/ of the checkout that this lies in (or of the folder given): a number for each
# command. With --list the places themselves.
set -euo pipefail
list=
if [ "${1:-}" = --list ]; then
    list=1
    shift
fi
cd "${1:-$(dirname "$0")/..}"

# places NAME PATTERN: the lines of src/ that have the pattern.
places() {
    if [ -n "$list" ]; then
        echo "# $1"
        grep -rnE "$2" crates/*/src --include=*.rt || true
    else
        printf '%-4s %4d\n' "$1" "$(grep -rhE "$2" crates/*/src --include=*.rt | wc -l)"
    fi
}

# 1: an enum's case for a refusal by number; own enums like Option or Result; a number or flag beside a value; a refusal's number returned
places 1a '^\s*(Refused|Stops|Halts)\(u8\),'
places 1b 'enum (Looked|Found|Class|Request|Digit|Opening|Spot|Piece|Filling|SheetRead|Next) \{'
places 1c 'struct (Fed|Finished|Taken|Labelled|Finding|PlanFinding|Asked) \{'
places 1d '^\s*return ([1-9]|1[01]|2[0-9]|3[0-3]|4[0-5]|5[0-2]|6[0-5]);'
# 2: the functions of twins that are named alike in two crates or by a width
places 2a 'fn (read|write)_(be|le)(16|32|64)\('
places 2b 'fn (find_pair|find_key|climb|descend|way_up|through|measure|put_line|give_broadcast|type_wrong|buses_wrong|is_value|is_bar_value)\('
places 2c 'fn (leads_to|first_failing|first_of|answer_lines|print_refused|put_four|put_be_pair|put_le_pair|host_left|front_left|rest)\('
# 3: loops that are no for
places 3 "^\s*('[a-z]+: )?(while|loop)\b"
# 4: functions that convert, compare or choose as the library does; tests of a comparison turned round
places 4a 'fn (wide|wide16|wide32|bit|larger|least|most|above|before|after|one_less|run_size|cap|weight|used_by|differ|same_pool|place)\('
places 4b 'fn (is_bad|is_io_pool|takes_next|is_several|is_write|has_no_length|is_without_data|is_by_address|has_data|in_locked_form|is_broadcast)\('
places 4c 'fn (kind_number|routing_number|name_number|kind_at|routing_at|stage_at|stage_number|number_of|message_code)\('
places 4d '!\([a-z_.0-9]+ == |\.len\(\) == 0|\.len\(\) < 1\b'
# 5: requires that name a checked sheet, a framed one, an index of n functions, a header of 12 bytes; many parameters that go together
places 5a 'requires .*Checked sheet'
places 5b 'requires .*(index_size n|12 ≤ length)'
places 5c 'counts: &(mut )?\[u8\],$'
# 6: a length beside a buffer, numbers of one thing side by side in a slice
places 6a 'own: &(mut )?\[u64\], n: usize|room: &(mut )?\[u64\], n: usize|spans: &(mut )?\[u64\], n: usize'
places 6b 'let at = [367] \* '
places 6c 'keys: &(mut )?\[u64\]'
# 7: an enum that only tells which step to run
places 7 'enum (Rule|Check|Relation|Own|Nesting|Pass|Engine|Finder) \{'
