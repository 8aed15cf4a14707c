#!/bin/sh
# Checks what no proof sees: that the repository's files are where its reader looks for them, and
# speak of nothing that a reader does not have; texts.py has the checks of what texts name. Prints what is
# wrong and ends with status 1, or else prints how many checks passed. It builds nothing and takes some seconds.
cd "$(dirname "$0")/.." || exit 1
LC_ALL=C
export LC_ALL
passed=0
failed=0

# judge WHAT WRONG: one check, which passes where WRONG, the lines that tell what is wrong, is empty.
judge() {
    if [ -z "$2" ]; then
        passed=$((passed + 1))
    else
        failed=$((failed + 1))
        printf '%s:\n%s\n' "$1" "$2" | sed '2,$s/^/    /'
    fi
}

files=$(git ls-files)

handles() {
    printf 'Handles allowed: Threads, Wait.\n' | cmp -s - HANDLES || echo HANDLES
}

examples() {
    for folder in examples/*/; do
        for name in chain.json command expected.txt README.md; do
            [ -f "$folder$name" ] || echo "$folder$name is not there"
        done
        ls "$folder" | grep -v '^expected\.' | grep -q '\.pcap$' || grep -q ' gen:' "$folder/command" ||
            echo "$folder has no capture"
    done
}

edits() {
    for file in $(echo "$files" | grep '/must-fail/.*\.edit$'); do
        for head in file old new; do
            grep -q "^$head: ." "$file" || echo "$file has no line '$head: ..'"
        done
    done
}

lengths() {
    for file in $(echo "$files" | grep -E '\.(rt|antt)$'); do
        lines=$(wc -l <"$file")
        if [ "$lines" -gt 600 ]; then echo "$file has $lines lines"; fi
    done
}

# References to texts that are no part of the repository. In sources short labels are looked for in
# comments alone, since a type parameter may have such a name.
references() {
    git grep -nIE 'document 0[1-4]|[Rr]ow [0-9]+|C[F]1|share[d]/' || true
    git grep -nIwE '[TDRW][0-9]{1,2}|[Rr][u]ngs?' -- ':!*.rt' ':!*.antt' || true
    git grep -nIE '(//|--).*\b[TDRW][0-9]{1,2}\b' -- '*.rt' '*.antt' || true
}

judge 'HANDLES is not its one line' "$(handles)"
judge 'files of the examples' "$(examples)"
judge 'lines of the must-fail edits' "$(edits)"
judge 'sources of more than 600 lines' "$(lengths)"
judge 'references to texts that are not here' "$(references)"

# The last line is 'texts: N passed, M failed'.
said=$(python3 checks/texts.py)
last=$(echo "$said" | tail -n 1)
if echo "$last" | grep -qxE 'texts: [0-9]+ passed, [0-9]+ failed'; then
    echo "$said" | sed '$d'
    passed=$((passed + $(echo "$last" | awk '{ print $2 }')))
    failed=$((failed + $(echo "$last" | awk '{ print $4 }')))
else
    failed=$((failed + 1))
    printf 'checks/texts.py gave no answer:\n%s\n' "$said"
fi

if [ "$failed" -gt 0 ]; then
    echo "repository checks: $passed passed, $failed failed"
    exit 1
fi
echo "repository checks: $passed passed"
