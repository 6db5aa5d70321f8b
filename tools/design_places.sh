#!/usr/bin/env bash
# Counts the places of points 1 to 7 of the design pass in crates/*/src/*.rt: of this checkout, or of the commit that
# is named. A line for each point and pattern, with its count; with -v each place stands below its line. A pattern tells
# where to look and decides nothing: which of the places stay, and why, docs/DESIGN-PASS.md says. It proves nothing.
# Usage: tools/design_places.sh [-v] [COMMIT]
set -u
cd "$(dirname "$0")/.." || exit
export LC_ALL=C.UTF-8 # a character is a character, not a byte
shown=false
if [ "${1-}" = -v ]; then shown=true; shift; fi
commit=${1-}

lines() { # each line of the sources, as FILE:LINE:TEXT
    if [ -n "$commit" ]; then
        git grep -n '' "$commit" -- 'crates/*/src/*.rt' | cut -d: -f2-
    else
        grep -n '' crates/*/src/*.rt
    fi
}

# Each line with what it is before it: `head` for a function's name, arguments and result, on one line however many
# they took; `clause` for what it asks and promises, and for the ghost fields of a type; `code` for the rest. Comments
# and imports go.
# shellcheck disable=SC2016
sorted=$(lines | awk '
    function head() {
        gsub(/\( /, "(", part); gsub(/, \)/, ")", part)
        print "head " at " " part
    }
    {
        match($0, /^[^:]*:[0-9]+:/)
        place = substr($0, 1, RLENGTH); text = substr($0, RLENGTH + 1)
        sub(/^ +/, "", text)
    }
    open { # a head goes on
        part = part " " text
        open = gsub(/\(/, "(", part) - gsub(/\)/, ")", part)
        if (!open) head()
        next
    }
    text ~ /^(\/\/|ghost use |(pub )?use |#)/ || text == "" { next }
    text ~ /^(pub(\([a-z]+\))? )?(extern "C" )?fn [a-z]/ {
        part = text; at = place
        open = gsub(/\(/, "(", part) - gsub(/\)/, ")", part)
        if (!open) head()
        clause = 0
        next
    }
    text ~ /^(requires|ensures|(pub )?ghost) / { clause = 1 }
    text == "{" { clause = 0; next }
    clause { print "clause " place " " text; if (text ~ /(;|,)$/ && text !~ /^×/) clause = 0; next }
    { print "code " place " " text }
' | sed -E 's/ ([^ ]+): /\t\1\t/; s/^([a-z]+) /\1\t/')
[ -n "$sorted" ] || { echo "no sources"; exit 1; }

point=0
tell() { # WHAT; the places on standard input
    local found n=0
    found=$(cat)
    [ -z "$found" ] || n=$(wc -l <<<"$found")
    printf '%s %5d  %s\n' "$point" "$n" "$1"
    if "$shown" && [ "$n" -gt 0 ]; then sed -E 's/^[a-z]+\t([^\t]*)\t/          \1: /' <<<"$found"; fi
}

place() { # WHAT KIND PATTERN [BUT-NOT]
    grep -P "^$2\t" <<<"$sorted" | grep -P -- "^[^\t]*\t[^\t]*\t.*(?:$3)" |
        if [ -n "${4-}" ]; then grep -vP -- "^[^\t]*\t[^\t]*\t.*(?:$4)"; else cat; fi | tell "$1"
}

twice() { # WHAT WORD: what WORD names in more than one crate, methods aside
    grep -P "^(head|code)\t[^\t]*\t(pub )?$2 [A-Za-z]" <<<"$sorted" | awk -F'\t' -v word="$2" '
        {
            split($2, path, "/"); name = $3
            if (name ~ /[(]&?(mut )?self/) next
            sub("^(pub )?" word " ", "", name); sub(/[^A-Za-z0-9_].*/, "", name)
            if (!((name, path[2]) in seen)) { seen[name, path[2]] = 1; crates[name]++ }
            line[NR] = $0; of[NR] = name
        }
        END { for (i = 1; i <= NR; i++) if (crates[of[i]] > 1) print line[i] }' | tell "$1"
}

numbers='DONE|SIZE|TABLE|ARGUMENT|KIND|TWICE|ABSENT|FULL|CLOCK|SHORT|LOOSE'

point=1
place "constants that are refusal numbers" code "pub const ($numbers): u8"
place "fields that are refusal numbers" code '\brefusal: u(8|32)\b'
place "arguments that are refusal numbers" head '\brefusal: u(8|32)\b'
place "functions that answer a refusal number, those for C aside" head \
    'fn (\w*refusal\w*|clear|check|number|told)\(.*-> u(8|32)\b' 'extern'
place "refusal numbers handed on in code" code \
    "(?<![;+] )\b($numbers)\b(?!:)|\brefusal (!=|==)|\.refusal\b" 'Refusal::|line\.refusal'
place "structs of a refusal and values" code 'struct (Admitted|Changed|Listed|Told|Found|Report|Answer)\b'
place "flags beside values" code '\b\w+: bool,|\b(fit|failed): (true|false)|\.(fit|failed)\b'
place "answers whether to go on, from functions that act" head '(rt: |&mut ).*-> bool'
place "a slot that is not found told as the number of records" code \
    '(root|lowest|slot) < n\b|\bn <= (\w+\.)?(v|s|slot|lowest)\b|(?<=\t)n$|(lowest|root): n,|unwrap_or\(n\)'
place "the slot that is none" code '\bNO_SLOT\b' 'pub const'
place "numbers that stand for no answer" code \
    '\bNO_ANSWER\b|\bNO_BOUND\b|\bFARTHE(R|ST)\b|return 0;|unwrap_or\(0\)' 'pub const'
place "an Option or a Result made a number" code 'unwrap_or\((?!kind)'
place "kinds and operations told apart as numbers" code '\b(operation|kind) == [0-9]|matches!\(kind|\.kind != 0'
place "kinds as numbers in arguments" head '\bkind: u(8|32)\b' 'extern'

point=2
place "functions of a width" head 'fn (\w*(16|32|64)|wide\w*)\('
place "refused results made by a function" head 'fn (refused|misfit|unread|told|nothing)\('
twice "functions of one name in two crates" fn
twice "structs of one name in two crates" struct
place "tables of numbers made by functions" head '-> \[u64; 9\]'
place "impls of one trait for a width each" code '(?<=\t)impl \w+(<\d>)? for u(8|16|32|64)'

point=3
place "while and loop" code '\b(while|loop)\b'
place "an index stepped by hand" code '(\+|-)= 1;|\b(\w) = \2 [+-] 1;'
place "for over numbers" code 'for \w+ in .*\.\.'

small='\b(p|b|c) as usize\b|(parent|slot|count|timestamp|radius|card|kind)_of\([^;]*\) as (u32|u64|usize)\b'

point=4
place "widening or narrowing by as" code '\bas (u8|u16|u32|u64|usize)\b'
place "widened by as where From would do" code \
    "$small|FARTHEST as|\((x|n|key|seen\.\w+[^)]*)\) as|\bx as (u16|u32|u64)\b" 'first_in|unwrap_or'
place "the larger, the smaller or a difference by if" code 'if \w+ <=? \w+ \{ [\w -]+ \} else'
place "fields copied one by one" code '\b(\w+): (\w+\.)+\1,'
place "fields named twice" code '\b(\w+): \1,'
place "digits and bytes taken apart" code '[%/]=? (256|10)\b|0x100 \*'
place "messages put together" code 'complain\('

point=5
place "Stands, of one slot" clause '\bStands t'
place "StandTo, of the first n slots" clause '\bStandTo t'
place "Walkable, Readable and FormedTable" clause '\b(Walkable|Readable|FormedTable) t'
place "the number of records written out" code 'len\(\) / RECORD\b'
place "what is found in a table, as numbers" clause 'used ≡ used_in|root ≡ root_of'
place "a radius below 2 ^ 32" clause 'radius < 2 \^ 32'
place "the floors are the floors" clause 'first\.now ≡'
place "rows that belong to a front" clause '\bRows k'
place "few records" clause 'most_records|largest_table'
place "readings that fit" clause '\bFit '
place "a command number that has a next" clause 'done \+ 1 < 2 \^ 64'
place "fields of a record given beside the record" clause \
    'count ≡ \(record_of|kind ≡ \(record_of|timestamp ≡ \(record_of'
place "kind and signature travel" head 'kind: u8, (\w+: u8, )?(q|x|signature): (Signature|&\[u8\])' 'extern'
place "two rows travel" head 'waits: &mut \[u64\]'
place "a tree's root and depth travel" head 'root: usize, depth: usize'
place "a parent's bound and the smallest distance of siblings travel" head \
    '\bp: u64, near: u64|away: u64, p: u64|p: u64, near'
place "used and root travel" head 'used: usize, root: usize'
place "a record given as bytes and slot" head '\bt: &(mut )?\[u8\], (n: usize, )?(s|a|b|c|p|v|x): usize'
place "seven arguments or more" head '\((?:[^,]*,){6,}[^,]*\)( ->|$)' 'extern'
place "six arguments" head '\((?:[^,]*,){5}[^,]*\)( ->|$)' 'extern'

rows='keys|held|waits|list|marks|ds|numbers|cards|out|room'

point=6
place "a row with a count or a place beside it" head \
    "\b($rows): &(mut )?\[\w+\](, \w+: \w+)?, (n|k|m|at|used|found): usize"
place "a table with its number of records beside it" head \
    '\bt: &(mut )?\[u8\], (\w+: &(mut )?\[\w+\], |\w+: \w+, )?n: usize'
place "a field that counts what stands in another" code 'pub (n|held|waits|waiting|holding): usize'
place "a row cut to a count kept beside it" code '\[\.\.\w'
place "rows of fixed memory" code '\[(0(u\d+)?|Pair \{); [A-Z]+\]|\}; [A-Z]+\]'

point=7
place "a step chosen by match or by number" code 'match key \{|\bKey::|if operation == '
place "enums" code '\benum '
place "functions in tables" code ': fn\(|\[fn\('
