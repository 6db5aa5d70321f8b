#!/usr/bin/env bash
# Says what the proofs and the must-fail edits cost, crate by crate, and holds it to tools/limits.txt.
#   bash tools/seconds.sh watch CHECKS           beside `rt ci`, until it is stopped: what each check has used
#   bash tools/seconds.sh tell CHECKS YARDSTICK  afterwards: YARDSTICK has the user and system seconds of `rt selftest`,
#                                                a line for each run of it
#
# A gate that goes red because the machine was slow is worse than none. So no limit is held to the clock:
# - rt tells no check's time, and the clock runs on while a loaded machine does something else: tenfold has been seen.
#   What is held to a limit is the processor's time, which load changes by a half at most, read from /proc, twice a
#   second.
# - That half, and a slow processor, is found out by the yardstick: the kit's own small crate, which stays the same.
#   All limits are in seconds of a machine that takes `yardstick` seconds for it. It is taken before and after, and
#   the slower of the two counts.
# - What is above its limit by `room` percent or less is told and passes: that much no measure here can tell apart.
# What an earlier run on the machine proved is kept and not proved again, and so not measured: such a crate has no line.
set -u
cd -P "$(dirname "$0")/.."
passed=0 failed=0

limit() { sed -nE "s|^$1 ([0-9]+)( .*)?\$|\1|p" tools/limits.txt | head -n 1; }

# A line 'CRATE KIND PROCESS TICKS' for each check of this repository that runs, again and again while the file is
# there.
watch() { # CHECKS
    local at
    : >"$1"
    while sleep 0.5 && [ -e "$1" ]; do
        for at in $(grep -lsx rattle /proc/[0-9]*/comm); do used "${at%/comm}" 2>/dev/null; done >>"$1"
    done
}

# What a process has used, if what it checks is of this repository: its own and its children's time, user and system.
used() { # /proc/PID
    local words stat here kind i crate=''
    mapfile -d '' -t words <"$1/cmdline" && read -r stat <"$1/stat" && here=$(readlink "$1/cwd") || return
    for ((i = 0; i + 1 < ${#words[@]}; i++)); do
        [ "${words[i]}" != --crate-name ] || crate=${words[i + 1]}
    done
    case $here in
    "$PWD/crates/$crate") kind=proof ;;
    */rt-edit-*) [[ " ${words[*]} " == *"$PWD/crates/"* ]] && kind=edit || return ;;
    *) return ;;
    esac
    # shellcheck disable=SC2206
    stat=(${stat##*) })
    echo "$crate $kind ${1#/proc/} $((stat[11] + stat[12] + stat[13] + stat[14]))"
}

# The crates, each with the seconds of its proof, of its edits, and how many of those there were.
rows() { # CHECKS SPEED
    awk -v unit="$(awk -v s="$2" -v t="$(getconf CLK_TCK)" 'BEGIN { print s / t }')" -v OFMT=%.1f '
        { ticks[$1 " " $2 " " $3] = $4; if (!($1 in seen)) { seen[$1] = 1; order[++n] = $1 } }
        END {
            for (k in ticks) { split(k, at, " "); sum[at[1], at[2]] += ticks[k] * unit; many[at[1], at[2]]++ }
            for (i = 1; i <= n; i++) {
                c = order[i]
                print c, sum[c, "proof"] + 0, sum[c, "edit"] + 0, many[c, "edit"] + 0
            }
        }' "$1"
}

show() {
    awk '
        BEGIN { print "seconds of the processor, by the yardstick"; print "crate           proof    edits" }
        { printf "%-12s %8.1f %8.1f\n", $1, $2, $3; p += $2; e += $3 }
        END { printf "%-12s %8.1f %8.1f\n", "all", p, e }'
}

above() { awk -v a="$1" -v b="$2" -v room="$3" 'BEGIN { exit !(a > b * (1 + room / 100)) }'; }

hold() { # WHAT SECONDS LIMIT
    if [ -z "$3" ]; then
        echo "$1: tools/limits.txt allows nothing"
    elif above "$2" "$3" "$(limit room)"; then
        echo "$1: $2 s by the yardstick, allowed $3"
    else
        ! above "$2" "$3" 0 || echo "$1: $2 s by the yardstick, allowed $3: told only, for it may be the machine"
        passed=$((passed + 1))
        return
    fi
    failed=$((failed + 1))
}

tell() { # CHECKS YARDSTICK
    local all speed crate proof most
    speed=$(awk -v l="$(limit yardstick)" '$1 + $2 > s { s = $1 + $2 } END { print (s > 0 ? l / s : 0) }' "$2")
    all=$(rows "$1" "$speed")
    printf '%s\n' "$all" | show
    echo "a second of this machine's processor counts $speed, by the yardstick"
    hold "all must-fail edits" "$(printf '%s\n' "$all" | awk '{ s += $3 } END { printf "%.1f", s }')" "$(limit edits)"
    while read -r crate proof _; do
        [ -n "$crate" ] || continue
        most=$(limit "crate/$crate")
        hold "the proof of $crate" "$proof" "${most:-$(limit crate)}"
    done <<<"$all"
    echo "$passed passed, $failed failed"
    [ "$failed" -eq 0 ]
}

case ${1:-} in
watch) watch "$2" ;;
tell) tell "$2" "$3" ;;
*) sed -n '2,5p' "$0" >&2; exit 2 ;;
esac
