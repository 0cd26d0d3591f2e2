#!/bin/sh
# Counts, for docs/DESIGN-PASS.md, the lines of the code that show where an older form may stand: tools/places.sh [-l] [COMMIT].
# With -l it lists them. Run it at the top of the repository.
list=
[ "$1" = -l ] && { list=1; shift; }
at=${1:-HEAD}

# The lines of src/ that match a pattern, and how many they are.
lines() {
    found=$(git grep -nE "$2" "$at" -- 'crates/*/src/*.rt' | sed "s|^$at:||")
    printf '%-44s %s\n' "$1" "$(printf '%s' "$found" | grep -c .)"
    [ -n "$list" ] && [ -n "$found" ] && printf '%s\n' "$found" | sed 's/^/    /'
}

lines '1 enums' '^(pub )?enum '
lines '1 flags kept in a value' '^ *(pub(\(crate\))? )?[a-z]+: bool,'
lines '1 numbers for kinds' 'as u8 [!=]=|(or|,) 0 where|^const [A-Z]+: u8'
lines '1 refusals with their numbers' '^ *[A-Z][A-Za-z]+ = [0-9]+,'
lines '1 done or not told by a bool' 'fn (push|tell|take)[a-z_]*\(.*-> bool'
lines '1 options and results taken apart by hand' 'Err\((e|_|refusal)\) =>|if let Err|None => None|Some\([a-z]+\) => (Ok|Some)\(|None => Err|Result<Result'
lines '2 functions of one name or shape' 'fn (set_of_first|mentions|mentions_switch|field_before[a-z_]*|is_false|with|without|check_free|of_number|choose|back|back_from_clash|close)\b|fn new\(n:'
lines '2 the same limit or range written again' '^(pub )?const MOST|< 1 \|\| [a-z]+ > |rule (==|!=) 1'
lines '3 loops' 'while |for .* in |loop \{'
lines '3 of these, with an index' 'while [a-z]+ [<>=!]|for i in|for \(i, '
lines '4 equality and copying by hand' 'fn (is_same|is|differs|same_bytes|ahead)\b|\.(is_same|is|differs)\('
lines '4 conversions and printing by hand' 'fn new\(n:|fn (of_number|number|named|of_letter|lettered)\b|let number = '
lines '4 derives' '#\[derive'
lines '5 facts asked of the caller' '^ *requires'
lines '5 of these or kept, of soundness' '(requires|ensures) (first|second|sound|live) '
lines '5 five fields side by side' '(first|second|third|fourth|fifth)(: (Field|Column),|,$|\.differs| = (ahead|Column))'
lines '6 arrays with a length beside' '^ *[a-z]+: \[[A-Za-z0-9]+; [A-Z0-9a-z]+\],'
lines '7 a match on which step to run' 'match (request|column|call|\(self\.state, call\)|self\.(kind|state))'
lines '7 closures and bounds by Fn' '\(\|[a-z_&, ()]*\| |: Fn(Once|Mut)?\('
printf '%-44s %s\n' '8 files of answers' "$(git ls-tree -r --name-only "$at" crates | grep -c 'Answers.antt$')"
printf '%-44s %s\n' '8 lines of answers and lemmas' "$(git ls-tree -r --name-only "$at" crates | grep '/proofs/.*antt$' | while read -r f; do git show "$at:$f"; done | wc -l)"
