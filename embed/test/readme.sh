#!/usr/bin/env bash
# Does what the README says: its three commands, from a CSV of random gateway rows to the list for code 30, in a home
# of its own below the given folder. The list has to be that of a scan of the rows.
# Needs make, python3 and the archive, or what `make` needs to build it; no network, no root.
#     readme.sh FOLDER
set -euo pipefail
unset CDPATH
[ $# -eq 1 ] || { echo 'usage: readme.sh FOLDER' >&2; exit 2; }
mkdir -p -- "$1"
folder=$(cd -- "$1" && pwd -P)
cd -- "$(dirname -- "${BASH_SOURCE[0]}")/../.."
rm -rf -- "$folder"
mkdir -p -- "$folder"

# The README's command with these first words, without the words that explain it.
shown_command() { # WORDS
    sed -n "s/^    \($1 .*[^ ]\)   *[^ ].*/\1/p" README.md
}

install=$(shown_command 'make install')
import=$(shown_command 'mdeh import')
ask=$(shown_command 'mdeh ask')
printf '%s\n' "$install" "$import" "$ask"
python3 - >"$folder/events.csv" <<'PYTHON'
import random
draw = random.Random(30)
print("time,code,slot,release")
for second in range(20000):
    code, slot, release = draw.randrange(100), draw.randrange(24), draw.randrange(398, 480)
    print(f"{second / 8:.3f},{code},{slot},{release}")
PYTHON

export HOME=$folder
PATH=$HOME/.local/bin:$PATH
eval "$install" >"$folder/install.txt"
cd -- "$folder"
eval "$import" 2>refused.txt
if grep -v ': 4 (the key is stored already)$' refused.txt; then
    echo 'readme.sh: rows are refused that are not stored already' >&2
    exit 1
fi
eval "$ask --csv" | sed 1d | sort >listed.txt
# the first row of each key, with its line
awk -F, '$2 == 30 && 400 <= $4 && $4 <= 479 && !seen[$2, $3, $4]++ { print $2 "," $3 "," $4 "," NR }' events.csv |
    sort >scanned.txt
[ -s scanned.txt ] || { echo 'readme.sh: the scan finds nothing' >&2; exit 1; }
cmp listed.txt scanned.txt
eval "$ask" | tail -n 1 | grep "^$(wc -l <scanned.txt) records, "
echo "listed as scanned"
