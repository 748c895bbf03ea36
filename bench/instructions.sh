#!/usr/bin/env bash
# Instructions per call: callgrind counts those of a part of the inputs of each form of the table "Calls". Prints a table:
# a column for each step, a line for each form, with proved / that form.
# Needs valgrind, gcc, cargo and the static libraries in target/staticlib.
set -euo pipefail

unset CDPATH
cd -- "$(dirname -- "${BASH_SOURCE[0]}")/.."
# where rustup puts cargo
PATH=$PATH:${CARGO_HOME:-${HOME:-}/.cargo}/bin
counts=$(mktemp -d)
trap 'rm -r -- "$counts"' EXIT

# what is counted, and written to a file of its own after each call
counted=mdeh_bench::measure::counted
export CARGO_TARGET_DIR=$PWD/target/rust CARGO_TARGET_X86_64_UNKNOWN_LINUX_GNU_LINKER=gcc
export CARGO_TARGET_X86_64_UNKNOWN_LINUX_GNU_RUNNER="valgrind --tool=callgrind --callgrind-out-file=$counts/count \
    --log-file=$counts/log --toggle-collect=$counted --dump-after=$counted"
cargo run --quiet --release --offline --locked --manifest-path bench/Cargo.toml -- --count Calls |
    awk -F '\t' 'NF == 5' >"$counts/runs"

# Appends the instructions of the nth run to its line, which has the table, step, records, form and units.
n=0
while IFS= read -r line; do
    n=$((n + 1))
    printf '%s\t%s\n' "$line" "$(awk '$1 == "totals:" { print $2 }' "$counts/count.$n")"
done <"$counts/runs" | awk -F '\t' '
    # a number with a decimal place below 1,000, and commas above
    function shown(number) { return number < 999.95 ? sprintf("%.1f", number) : grouped(int(number + 0.5)) }
    function grouped(number) {
        return number < 1000 ? number : grouped(int(number / 1000)) sprintf(",%03d", number % 1000)
    }
    # in brackets: a ratio with two decimal places, three below 0.1, and four below 0.01
    function ratio(number) { return sprintf(" (%." 2 + (number < 0.095) + (number < 0.0095) "f)", number) }
    function cell(step, form,    first) {
        first = each[step, forms[1]]
        if (form == forms[1]) return shown(first)
        return (step, form) in each ? shown(each[step, form]) ratio(first / each[step, form]) : "–"
    }
    BEGIN { all = split("proved,earlier,plain Rust,packed scan,column scan,SQLite", names, ",") }
    !($2 in seen) { seen[$2]; steps[++columns] = $2 }
    { counted[$4]; each[$2, $4] = $6 / $5 }
    END {
        for (i = 1; i <= all; i++) if (names[i] in counted) forms[++lines] = names[i]
        printf "\n## Instructions\n| form |"
        for (j = 1; j <= columns; j++) printf " %s |", steps[j]
        printf "\n|---|"
        for (j = 1; j <= columns; j++) printf "---|"
        for (i = 1; i <= lines; i++) {
            printf "\n| %s |", forms[i]
            for (j = 1; j <= columns; j++) printf " %s |", cell(steps[j], forms[i])
        }
        print ""
    }'
