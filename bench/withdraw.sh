#!/bin/sh
# Times withdrawals on a book of base 4,096 with sixteen units: a sheet of 1,000 withdrawals and as many admits.
# Not part of the gate.
set -eu

cd "$(dirname "$0")/.."

day_sheet=crates/day_sheet/out/day_sheet
mkdir -p target
if ! (cd crates/day_sheet && rt run < stdin) > target/day_sheet.log 2>&1; then
    cat target/day_sheet.log
    echo "bench/withdraw.sh: the program was not built" >&2
    exit 1
fi
sheet=$(mktemp)
trap 'rm -f "$sheet"' EXIT
{
    echo "B 4096"
    i=0
    while [ $i -lt 15 ]; do echo "A $((65535 - 7 * i))"; i=$((i + 1)); done
    i=0
    while [ $i -lt 1000 ]; do
        echo "W $((65535 - 7 * (i % 15)))"
        echo "A $((65535 - 7 * (i % 15)))"
        i=$((i + 1))
    done
} > "$sheet"
echo "lines: $(wc -l < "$sheet"), refused: $("$day_sheet" < "$sheet" | grep -c ' no ' || true)"
start=$(date +%s%N)
"$day_sheet" < "$sheet" > /dev/null
end=$(date +%s%N)
echo "1,000 withdrawals and 1,015 admits: $(((end - start) / 1000000)) ms"
