#!/bin/bash
# Builds the proved program and the plain one, compares them on generated lines, and times both. Outside the gate.
set -e
cd "$(dirname "$0")/../.."
(cd crates/daybook && rt run < /dev/null)
proved=$PWD/crates/daybook/out/daybook
work=$PWD/target/bench/daybook
mkdir -p "$work"
rustc --edition 2021 -O -o "$work/plain" bench/daybook/plain.rs
rustc --edition 2021 -O -o "$work/generate" bench/daybook/generate.rs
cd "$work"

# Runs both on the file `lines`; a difference ends the run and is shown with its line.
compare() {
    ./plain <lines >plain.out
    "$proved" <lines >proved.out
    cmp -s plain.out proved.out && return
    echo "DIFFERENCE: $1"
    diff --text <(cat -n plain.out) <(cat -n proved.out) | head -4 || true
    exit 1
}

for seed in $(seq 1 100); do
    ./generate "$seed" 4000 >lines
    compare "the short book of seed $seed"
done
echo "same: 100 books of 4,000 lines"
./generate 7 1000000 >lines
compare "the long book of seed 7"
echo "same: one book of 1,000,000 lines"

# Each pair of kind and reply that the checks of the calls can give, and how often it was met.
awk '/:/ { split($0, half, " : "); split(half[1], asked, " "); split(half[2], said, " "); met[asked[1] " " said[1]]++ }
    !/:/ { lines++ }
    END {
        rows = "10 0 1 3;11 0 1 3 18;12 0 1 3 13 18;13 0 1 3 4 5 7 8 18 20;15 0 1 4 6 9 10 19 20;16 0 1 3 6 9 10;" \
            "17 0 1 3 4 6 9 10 19 20;19 0 1 3 4 5 7 9 19;20 0 1 3 4 5 7 18;21 0 1 6;22 0 1 3 4 8;23 0 1 3 4 5 7 12;" \
            "24 0 1 3;25 0 1 3 4 20;26 0 1 3 4 19;27 0 1;28 0 1 14;29 0 18;30 0 1 16;31 0 1 17;32 0 1 3 15;99 2"
        count = split(rows, row, ";")
        for (i = 1; i <= count; i++) {
            n = split(row[i], word, " ")
            text = "kind " word[1] ", reply (times):"
            for (j = 2; j <= n; j++) { text = text " " word[j] " (" met[word[1] " " word[j]] + 0 ")"; if (!met[word[1] " " word[j]]) unmet++ }
            print text
        }
        print "statement lines: " lines + 0 "; pairs of kind and reply not met: " unmet + 0
    }' plain.out

# The fastest of five, in turn; seconds by the clock, and of the processor.
TIMEFORMAT='%R %U %S'
for program in ./plain "$proved"; do : >"$(basename "$program").times"; done
for turn in 1 2 3 4 5; do
    for program in ./plain "$proved"; do
        { time "$program" <lines >timed.out; } 2>>"$(basename "$program").times"
    done
done
awk '{ spent = $2 + $3; if (!seen[FILENAME]++ || $1 < clock[FILENAME]) clock[FILENAME] = $1
       if (seen[FILENAME] == 1 || spent < used[FILENAME]) used[FILENAME] = spent }
    END {
        a = "plain.times"; b = "daybook.times"
        printf "clock, fastest of 5: plain %.3f s, proved %.3f s, ratio plain/proved %.3f\n", clock[a], clock[b], clock[a] / clock[b]
        printf "processor, fastest of 5: plain %.3f s, proved %.3f s, ratio plain/proved %.3f\n", used[a], used[b], used[a] / used[b]
    }' plain.times daybook.times

# By instructions, which do not depend on what else the machine does: 200,000 lines under callgrind.
if command -v valgrind >/dev/null; then
    ./generate 7 200000 >lines
    for program in ./plain "$proved"; do
        valgrind --tool=callgrind --callgrind-out-file=/dev/null "$program" <lines 2>&1 >/dev/null |
            awk -v name="$(basename "$program")" '/Collected/ { print name, $NF }'
    done | awk '{ spent[$1] = $2 }
        END {
            ratio = spent["plain"] / spent["daybook"]
            printf "instructions: plain %d, proved %d, ratio plain/proved %.3f\n", spent["plain"], spent["daybook"], ratio
            print "target for the ratio: at least 0.9, " (ratio >= 0.9 ? "met" : "MISSED")
        }'
fi
