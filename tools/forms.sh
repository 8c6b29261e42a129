#!/bin/sh
# Counts, in the sources of a commit, the places that docs/DESIGN-PASS.md speaks of: tools/forms.sh COMMIT [-v].
# With -v each line is printed that is counted.
commit=${1:-HEAD}
show=$2

count() {
    name=$1
    pattern=$2
    if [ "$show" = -v ]; then
        echo "== $name"
        git grep -nE "$pattern" "$commit" -- 'crates/*/src/*.rt'
    else
        printf '%4d  %s\n' "$(git grep -hE "$pattern" "$commit" -- 'crates/*/src/*.rt' | wc -l)" "$name"
    fi
}

count '1 a flag or a number beside a value' '\((bool|usize), (\(bool, )?[A-Z][A-Za-z]*\)'
count '1 a number for an error' 'Result<[^()]*, u(8|16|32|64)>'
count '1 a number for a kind' 'pub const [A-Z_]+: u(8|32) = [0-9]+;|fn of\(number: u'
count '1 a bool for success' 'Result<bool'
count '1 a flag that says which state' '(opened|withdrawn): bool,'
count '3 a loop that counts an index' 'for [a-z_]+ in [^{]*[a-z0-9]\.\.[a-z]|^ +number \+= 1;'
count '4 conversion, printing or equality by hand' '^impl.* (From<.*>|fmt::Display|PartialEq|Eq|TryFrom<.*>) for |fn (same|has_base)\('
count '6 an array in a struct or an answer' '^    (pub )?[a-z]+: \[[A-Za-z0-9]+; [0-9]+\],|-> \(?\[[A-Za-z0-9]+; [0-9]+\]'
count '6 a number of what an array holds' '^    (pub )?(count|rank|height|width): u(8|32),'
count '7 a switch on a command' 'match (verb|command) \{'
printf '%4d  2 names that two functions have\n' "$(git grep -hoE 'fn [a-z_]+' "$commit" -- 'crates/*/src/*.rt' | sort | uniq -d | wc -l)"
printf '%4d  8 files of proofs\n' "$(git ls-tree -r --name-only "$commit" -- crates | grep -c '/proofs/.*\.antt$')"
printf '%4d  8 lines of proofs\n' "$(git ls-tree -r --name-only "$commit" -- crates | grep '/proofs/.*\.antt$' | sed "s/^/$commit:/" | xargs git show | wc -l)"
