#!/bin/bash
# Counts, in crates/*/src below the folder given (this repository, if none is), the places that a reader of today's Rattle would ask about: one line a point and a pattern. With -l it lists them.
# A hit is a place to look at, not a fault: DESIGN-PASS.md, beside this script, says of each what became of it.
show=-c
[ "$1" = -l ] && { show=-l; shift; }
cd "${1:-$(dirname "$0")/../..}" || exit 1
count() {
    hits=$(grep -rnE "$2" crates/*/src --include='*.rt' | grep -vE '^[^:]*:[0-9]+: *//')
    n=$(printf '%s' "$hits" | grep -c '')
    printf '%4d  %s\n' "$n" "$1"
    [ "$show" = -l ] && printf '%s\n' "$hits" | sed 's/^/        /'
    return 0
}
count "1a enums with a case that holds a refusal beside others" '^ *(Refused\(Refusal\),)'
count "1b an Option that holds an error" 'Option<Refusal>'
count "1c refusals told by number in code or tables" '\.number\(\)|\.detail\(\)|Err\(\([0-9]+, [0-9]+\)\)|\((16|17|18|0), [0-9]+\)|\(u32, usize\)|[^a-z]refused: u32|, [79]\),$|\[u32; [37]\]'
count "1d a number for a kind or for none" '[^a-z]rule: ([1-4]|u32)|== 255|!= 255|unwrap_or\(255\)|source: u32|returned: u32'
echo '      2a functions of one name in several places'
grep -rhoE '^ *(pub(\([a-z]+\))? )?fn [a-z_0-9]+' crates/*/src --include='*.rt' | sed -E 's/.*fn //' | sort | uniq -c | awk '$1>1 && $2!="fmt" && $2!="main" && $2!="next" && $2!="from" {print "        "$1" "$2}'
count "2b an all-zero value written out beside another" 'const NO_(FACT|EDGE)'
count "2c copies of a scan through the edges that count" 'last = Some\('
count "3a loops over an index that then index with it" 'for [a-z_]+ in .*\.\.(self\.held|[a-z]+\.at|nodes\.len|self\.edges\.len|recipe\.edges)'
count "3b loops that count by hand" '(many|place|from|at|sum|first|edges|i) \+= [0-9a-z]|from = at \+ 1|\.at \+= 1|self\.worked = at \+ 1'
count "3c while loops" '^ *while '
count "4a fields compared one by one" 'a\.[a-z]+ == b\.[a-z]+|e\.from == from|d\.from < e\.from|nodes == self\.nodes|&& (values|states|edges) == self\.|frames\[[0-9]\]\.(node|value)'
count "4b bytes and bits by hand" '\* 256|/ 256|% 256|if [a-z.]+ == [a-z.]+ \{ (bit|1) \}|if [a-z.]+ \{ 1 \} else'
count "4c printing by hand: a match from cases to words, a wrapper for a type of the repository" '=> "(safe|full)"|struct (Explained|Rights|Refused|Held|Action|Targets)'
count "5a a requires that another function repeats" 'requires.*(Summed|SpanOf|\.at < 65536)'
count "5b a recipe, rule and watch side by side as parameters" '^ *rule: &R,'
count "6a a length, a place or a depth beside a lent buffer" '^ *(pub )?(held|places|worked|depth|used): usize,|file: &.a \[u8\],'
count "6b arrays of numbers that stand for records" 'rows: &.a \[u8\]|\[u32; (8|10)\]'
count "7a a choice of which step or rule to run" '"(history|stack)" =>|if place == 0'
echo '      8a files of answers and invariants, and their lines'
find crates/*/proofs \( -name Answers.antt -o -name Invariants.antt \) | xargs wc -l | awk 'END{print "        "NR-1" files, "$1" lines"}'
find crates/*/proofs -name '*.antt' ! -name Answers.antt ! -name Invariants.antt | xargs wc -l | tail -1 | awk '{print "        lemmas: "$1" lines"}'
