#!/usr/bin/env bash
# Prints the files that docs/ARCHITECTURE.md says a reader has to believe, with their lines, and their sum. It fails if
# one of them is not there, so that the page cannot go stale unseen.
set -u
cd "$(dirname "$0")/.."
lost=0 sum=0 files=0
while read -r name; do
    file=crates/${name%%/*}/specs/${name#*/}.antt
    [ "$name" != history/Promises ] || file=crates/history/proofs/Promises.antt
    if [ -f "$file" ]; then
        n=$(grep -cvE '^ *$|^(pub )?use |^  [^ ].*,$|^}' "$file")
        printf '%5d %s\n' "$n" "$file"
        sum=$((sum + n)) files=$((files + 1))
    else
        echo "not there: $file"
        lost=$((lost + 1))
    fi
done < <(sed '1,/^## What has to be believed/d' docs/ARCHITECTURE.md | grep '^|' | cut -d'|' -f3 |
    grep -oE '[a-z]+/[A-Z][A-Za-z/]*')
echo "$files files, $sum lines without imports and empty ones"
if [ "$lost" -eq 0 ] && [ "$files" -gt 0 ]; then echo "1 passed, 0 failed"; else echo "0 passed, 1 failed"; exit 1; fi
