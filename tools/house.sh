#!/usr/bin/env bash
# Counts what the house does not want, and fails where a count is above what tools/limits.txt allows: the record's
# length written out of its place, a shut name opened, long paths in proofs, wide lines, files without a head, a name
# that docs/PROMISES.md looks for in a wrong file. It also sees that every must-fail edit which docs/PROMISES.md names
# is there, that no crate with a public function is without one, and that crates.txt lists for a crate just what its
# files name. Long bodies and long files are only told. It takes seconds and proves nothing.
set -u
cd "$(dirname "$0")/.."
export LC_ALL=C.UTF-8 # a character is a character, not a byte
passed=0 failed=0

# Where the record's length may be written as a number: the files that say where a record stands. Elsewhere it has a
# name, so that there is one place to change.
layout='crates/table/specs/Record\.antt'
# Crates in which 64 is the number of bits of a word.
words='crates/(number|distance|compare|order|places)/'
# Names of table's that are shut: other crates use their laws, and not their text.
shut='Stands|StandTo|AreRecords|WholeRecords'
# Crates that may have a public function and no edit, each with its reason: 'NAME: REASON', one to a line.
without_edit=''
# From how many lines on a body, a definition or a file is told.
long_body=40 long_file=300

ok() { # TRUE-OR-FALSE WHAT
    if "$1"; then passed=$((passed + 1)); else failed=$((failed + 1)); fi
    echo "$2"
}

sources() { # SUFFIX..
    local s names=()
    for s; do names+=(-o -name "*.$s"); done
    find . \( -name .git -o -name target -o -name out -o -name must-fail \) -prune \
        -o -type f \( -false "${names[@]}" \) -print |
        sed 's|^\./||' | sort
}

limit() { sed -nE "s|^$1 ([0-9]+)( .*)?\$|\1|p" tools/limits.txt | head -n 1; }

# Holds a count to its limit, and shows where it is above.
count() { # NAME WHAT COMMAND, which prints each place on a line
    local places n most
    places=$("$3")
    n=$(printf '%s' "$places" | grep -c '')
    most=$(limit "$1")
    if [ -z "$most" ]; then
        ok false "$1: tools/limits.txt does not say how many are allowed"
    elif [ "$n" -gt "$most" ]; then
        printf '%s\n' "$places"
        ok false "$1: $n, allowed $most: $2"
    else
        ok true "$1: $n, allowed $most: $2"
    fi
}

# Comments are left out: it is contracts, definitions and proofs that a second length would break.
record_length() {
    sources rt antt | grep '^crates/' | grep -vE "^($layout|$words)" |
        xargs grep -nHE '[*/%+] 64\b|\b64 [*+]' | grep -vE '^[^:]+:[0-9]+:\s*(--|//)'
}

opened() {
    sources antt | grep '^crates/' | grep -v '^crates/table/' | xargs grep -nHE "\bunfold(ing)?\b.*\b($shut)\b"
}

long_paths() { sources antt | xargs perl -0777 -ne 'print "$ARGV\n" while /(\.before\s*){5,}/g'; }

# rt fmt lays a root file's tactic attribute in one line, whatever its length.
wide_lines() { sources rt antt rs sh c h | xargs grep -nHE '^.{121,}' | grep -v ':#!\[tactic(' | cut -c1-160; }

no_head() {
    local file start
    sources rt antt rs sh c h | while IFS= read -r file; do
        case $file in *.sh) start='^#' ;; *) start='^(--|//|/\*)' ;; esac
        head -n 1 "$file" | grep -qE "$start" || echo "$file"
    done
}

# Lines between the braces of each function in Rattle, Rust and C, as their formatters lay them out: the brace that ends
# a body stands below the start of the function's line.
long_bodies() {
    sources rt rs c | xargs awk -v most="$long_body" '
        FNR == 1 { from = 0 }
        !from && /^ *(pub(\([a-z]+\))? )?(unsafe )?(extern "C" )?fn [a-z_0-9]+|^[a-z].*\)$|^[a-z].*\) \{$/ {
            match($0, /^ */); indent = substr($0, 1, RLENGTH); name = $0; line = FNR; open = 0; from = 1
        }
        from && !open && ($0 ~ /\{$/ && $0 !~ /requires|ensures/) { open = FNR }
        from && !open && $0 ~ /;$|\}$/ && $0 !~ /requires|ensures/ { from = 0 }
        from && open && $0 == indent "}" {
            if (FNR - open - 1 > most) { sub(/^ */, "", name); print FNR - open - 1, FILENAME ":" line, name }
            from = 0
        }' | sort -rn
}

# A definition in antt ends at an empty line.
long_definitions() {
    sources antt | xargs awk -v most="$long_body" '
        function done_() { if (n > most) print n, file ":" line, name }
        FNR == 1 { done_(); n = 0; file = FILENAME }
        /^$/ { done_(); n = 0; next }
        n == 0 && /^ *(--|(pub )?(use|mod) )/ { next }
        n == 0 { name = $0; line = FNR }
        { n++ }
        END { done_() }' | cut -c1-120 | sort -rn
}

long_files() {
    sources rt antt rs sh c h | xargs wc -l | awk -v most="$long_file" '$1 > most && $2 != "total"' | sort -rn
}

told() { # WHAT COMMAND, which prints each place on a line
    local all
    all=$("$2")
    echo "told only: $(printf '%s' "$all" | grep -c '') $1"
    printf '%s' "$all" | head -n 5 | cut -c1-120 | sed 's/^ */    /'
    [ -z "$all" ] || echo
}

# The second column of the table of wrong versions.
named_edits() {
    sed '1,/^## Wrong versions/d' docs/PROMISES.md | grep '^|' | cut -d'|' -f3 | grep -oE '[a-z_]+/[a-z0-9_]+' | sort -u
}

edits_named() {
    local names name lost=''
    names=$(named_edits)
    for name in $names; do [ -f "crates/${name%/*}/must-fail/${name#*/}.edit" ] || lost="$lost $name"; done
    if [ -z "$names" ]; then
        ok false "docs/PROMISES.md names no must-fail edit: where is its table of wrong versions?"
    elif [ -n "$lost" ]; then
        ok false "docs/PROMISES.md names must-fail edits that are not there:$lost"
    else
        ok true "must-fail edits that docs/PROMISES.md names, all there: $(echo "$names" | grep -c '')"
    fi
}

# Names that docs/PROMISES.md says stand in a file of a crate's specs/ or proofs/, as `a`, `b` (crate/File), and that do
# not.
lost_names() {
    perl -0777 -ne '
        while (/((?:`[^`]+`, )*`[^`]+`) \(([a-z]+)\/([A-Z][A-Za-z\/]*)\)/g) {
            my ($names, $file, $text) = ($1, "$2/$3", "");
            for my $at ("crates/$2/specs/$3.antt", "crates/$2/proofs/$3.antt") {
                if (open my $f, "<", $at) { local $/; $text .= <$f> }
            }
            print "$file is not there\n" if $text eq "";
            for ($names =~ /`([A-Za-z][\w-]*)`/g) {
                print "$_ is not in $file\n" unless $text =~ /(?<![\w-])\Q$_\E(?![\w-])/;
            }
        }' docs/PROMISES.md
}

edits_everywhere() {
    local crate name lost=''
    for crate in crates/*/; do
        name=$(basename "$crate")
        grep -qrE '^ *pub (extern "C" )?fn |^fn main' "$crate/src" --include='*.rt' || continue
        [ -z "$(find "$crate" -path '*/must-fail/*.edit' -print -quit)" ] || continue
        printf '%s\n' "$without_edit" | grep -qE "^$name: .+" || lost="$lost $name"
    done
    if [ -n "$lost" ]; then
        ok false "crates with a public function and no must-fail edit:$lost"
    else
        ok true "every crate with a public function has a must-fail edit"
    fi
}

# The crates that a crate's files name, in code, contracts, specs and proofs.
names_in() { # CRATE
    find "crates/$1" \( -name must-fail -o -name out \) -prune -o -type f \( -name '*.rt' -o -name '*.antt' \) -print |
        xargs sed -E 's@(^|[[:space:]])(--|//).*@@' | grep -oE 'Rattle\.[a-z_]+|\b[a-z_]+::' |
        sed -E 's/^Rattle\.//; s/::$//' | grep -vx "$1" | sort -u
}

# Known are the repository's crates, and what one of them lists of the kit's.
names_listed() {
    local crate deps known wrong=''
    known=$(sed -nE 's/ *#.*//; s/^([a-z_]+)( staticlib)?:/\1/p' crates.txt | xargs -n 1 | sort -u)
    while IFS=: read -r crate deps; do
        crate=${crate% staticlib} deps=$(printf '%s\n' ${deps%%#*} | sort)
        [ "$deps" = "$(comm -12 <(names_in "$crate") <(printf '%s\n' "$known"))" ] || wrong="$wrong $crate"
    done < <(grep -E '^[a-z_]+( staticlib)?:' crates.txt)
    if [ -n "$wrong" ]; then
        ok false "crates.txt lists other crates than the files name, for:$wrong"
    else
        ok true "crates.txt lists for each crate those that its files name"
    fi
}

count record-length "lines with a product or a sum of the record's length outside its layout" record_length
count opened "places outside table that unfold one of its shut names" opened
count long-paths "paths of more than four .before in a proof" long_paths
count wide-lines "lines of more than 120 characters" wide_lines
count no-head "files without a head comment" no_head
count lost-names "names that docs/PROMISES.md looks for in a wrong file" lost_names
told "bodies of more than $long_body lines" long_bodies
told "definitions and proofs of more than $long_body lines" long_definitions
told "files of more than $long_file lines" long_files
edits_named
edits_everywhere
names_listed
echo "$passed passed, $failed failed"
[ "$failed" -eq 0 ]
