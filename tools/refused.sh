#!/bin/sh
# Five programs that must not exist, each one edit away from one that does: an inquiry opened over a draft, dug after its close, linked after its close, never closed, and two inquiries that hold one fact table at once.
# The compiler refuses them before there is anything to prove, so they are no must-fail edits, which the prover has to refuse. `rt try`, which compiles and runs a program without a proof, is enough to see it.
# Usage: tools/refused.sh, in the repository. It works in a copy of the crates, none of which has to be proved. The status is 0 if the program that keeps the rules runs, and each of the five is refused for its own reason.
set -eu
root=$(cd "$(dirname "$0")/.." && pwd)
work=$(mktemp -d)
trap 'rm -rf "$work"' EXIT
tar -C "$root" --exclude=out -cf - crates crates.txt | tar -C "$work" -xf -
failed=0
made=

# makes CRATE EDIT: a crate of the copy has the program that keeps the rules, with an edit of sed's
makes() {
    mkdir -p "$work/crates/$1/src"
    echo "$1: inquiry rules recipe model anyhow" >>"$work/crates.txt"
    sed "$2" "$root/tools/refused/accepted.txt" >"$work/crates/$1/src/main.rt"
    made="$made $1"
}

# expects CRATE PATTERN: what rt said of the crate has a line that begins so
expects() {
    if said=$(grep -m 1 "^$2" "$work/$1.log"); then
        echo "$1: as it must be (${said#src/main.rt:})" | cut -c 1-160
    else
        echo "$1: NOT AS IT MUST BE; expected: $2"
        tail -n 5 "$work/$1.log"
        failed=1
    fi
}

opening='    let mut inquiry = Inquiry::open(&on, facts, edges);'
closing='    inquiry.close(on.watch)'
at='src/main.rt:[0-9]*:[0-9]*:'
makes keeps_the_rules ''
makes opened_over_a_draft 's/recipe: &recipe,/recipe: \&draft,/; s/recipe::check(draft, &mut recipe)?;//'
makes dug_after_close "s/$closing/    let report = inquiry.close(on.watch);\n    let _ = inquiry.dig(\&on, edges, 1);\n    report/"
makes linked_after_close "s/$closing/    let report = inquiry.close(on.watch);\n    let _ = inquiry.link(\&on, edges, Edge { from: 1, to: 2 });\n    report/"
makes never_closed "s/$closing/    Err(Refusal::TooMany)/"
makes two_hold_one_table "s/$opening/&\n    let other = Inquiry::open(\&on, facts, edges);/; s/$closing/    let _ = other.close(on.watch);\n&/"

for crate in $made; do
    (cd "$work/crates/$crate" && rt try <"$root/crates/judge/stdin" >"$work/$crate.log" 2>&1) &
done
wait

expects keeps_the_rules 'unfinished, facts 2, worked 0'
expects opened_over_a_draft "$at error\[mismatched-types\]: expected .&Recipe., found .&Draft."
expects dug_after_close "$at error\[borrow-e0382\]: borrow of moved value: .inquiry."
expects linked_after_close "$at error\[borrow-e0382\]: borrow of moved value: .inquiry."
expects never_closed "$at error\[linear-value-let-go\]: .inquiry. is let go"
expects two_hold_one_table "$at error\[borrow-e0499\]: cannot borrow .\*facts. as mutable more than once"
exit $failed
