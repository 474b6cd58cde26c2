#!/bin/bash
# Counts, in the crates below the folder given (here by default), the places that
# docs/DESIGN-PASS.md tells of: `bash tools/places.sh [FOLDER [-v]]`. With -v each place is shown.
cd "${1:-.}" || exit 1
show=${2:-}
src() { find crates -path '*/src/*' -name '*.rt' ! -path '*/out/*' ! -path '*/target/*' "$@" | sort; }
code() { src ! -name tests.rt; }
count() {
    local what=$1; shift
    local lines; lines=$("$@" | sort -u)
    printf '%4d  %s\n' "$(printf '%s' "$lines" | grep -c .)" "$what"
    [ "$show" = -v ] && printf '%s\n' "$lines" | sed 's/^/        /'
    return 0
}
g() { code | xargs grep -nE "$1"; }
after() { code | xargs grep -n -A1 -E "$1" | grep -E "$2"; }
proofs() { find crates -path '*/proofs/*' -name "$1" ! -path '*/out/*' ! -path '*/target/*'; }
count '1a an error passed on by hand' g 'Err\((\w+)\) => (return )?Err\(\1\)|return Err\((error|refusal)\)'
count '1b an Option passed on by hand' after 'else \{$' 'return None;'
count '1c None answered for None' g '^\s*None => None,?$'
count '1d an own enum like Option or Result' g 'enum (Opened|Answer)\b'
count '1e a branch that cannot be reached' g 'return unreachable\(\)'
count '1f a refusal or a junction as a number in a test' bash -c "find crates -name tests.rt -path '*/src/*' ! -path '*/out/*' | xargs grep -nE 'fn (code|after|heard)\('"
count '2a a test for 1 to n spelled out' g '\.0 < 1 \|\||1 <= \w+\.0 && \w+\.0 <='
count '2b ends compared by number' g 'if v\.0 == w\.0'
count '3a a while loop' g "^\s*('\w+: )?while "
count '3b a for over a range' g "^\s*('\w+: )?for \w+ in .*\.\."
count '4a a number taken out to be shown' g 'let \w+ = \w+(\.\w+)*\.(0|code\(\));'
count '4b an Ordering built by hand' g 'Ordering::(Less|Greater)$|Ordering::(Less|Greater);|Ordering::(Less|Greater) => (true|false)'
count '4c two bytes put together or taken apart' g '256 \* high as|[%/] 256\)'
count '4d a cast that loses nothing' g ' as (usize|u32|u64)\b'
count '5a a clause of a layout of bytes' g 'requires( laid)? \{ Laid '
count '5b a clause of a queue' g 'requires( queue)? \{ Queue '
count '8a answer files' proofs Answers.antt
count '8b answers' bash -c "find crates -path '*/proofs/*' -name Answers.antt ! -path '*/out/*' ! -path '*/target/*' | xargs grep -nE '^pub .* : goal'"
count '8c lines of proofs' bash -c "find crates -path '*/proofs/*' -name '*.antt' ! -path '*/out/*' ! -path '*/target/*' | xargs cat -n /dev/null | cut -f1"
