#!/usr/bin/env bash
# Runs balance_file, meters_to_buy, layouts_file, visits_file, charges_file, check_sheet, check_flow and place_numbers of target/built: the samples, a cut plant, the last sheet
# number, the offices, the longest file and one byte more, and what cannot be read, written or understood; then limits.
#
#     bash programs/test.sh            the programs of target/built, then the same with the sanitizers of addresses and of undefined behaviour
#     bash programs/test.sh FOLDER     those of another folder
# SPDX-License-Identifier: LicenseRef-Wengeludo
set -eu
cd "$(dirname "$0")/.."
folder=${1:-target/built}
program=$folder/balance_file
[ -x "$program" ] || { echo "no $program: build it with 'bash programs/build.sh'" >&2; exit 2; }
work=$(mktemp -d)
trap 'rm -rf "$work"' EXIT
failed=0 runs=0
expect() { # status, output, words; of the program that is tried. With status 2 it says why in one line, else nothing
    local status=0 out
    runs=$((runs + 1))
    out=$("$program" "${@:3}" 2>"$work/said") || status=$?
    if [ "$status" != "$1" ] || [ "$out" != "$2" ]; then
        printf '%s %s: status %s, expected %s; printed:\n%s\nexpected:\n%s\n' "${program##*/}" "${*:3}" "$status" "$1" "$out" "$2" >&2
        failed=1
    fi
    if [ "$(grep -c "^\(usage: \)\?$program" "$work/said") $(wc -l <"$work/said")" != "$([ "$1" = 2 ] && echo 1 1 || echo 0 0)" ]; then
        printf '%s %s: status %s, and on standard error:\n%s\n' "${program##*/}" "${*:3}" "$status" "$(cat "$work/said")" >&2
        failed=1
    fi
}
uses() { # words: what the program that is tried takes
    "$program" 2>"$work/said" >&2 || true
    [ "$(cat "$work/said")" = "usage: $program $*" ] || { echo "${program##*/} without a word says: $(cat "$work/said")" >&2; failed=1; }
}
full() { # words; the program that is tried, to a full device
    local status=0
    runs=$((runs + 1))
    "$program" "$@" >/dev/full 2>"$work/said" || status=$?
    if [ "$status" != 2 ] || [ "$(cat "$work/said")" != "$program: standard output cannot be written" ]; then
        echo "${program##*/} $* to a full device: status $status, and said: $(cat "$work/said")" >&2
        failed=1
    fi
}
stream() { printf '\006\000\001\000\001\000\000\000\000\000\000\000\000\000\000\000\000'; } # of weight 1, with the range 0 to 0
{ printf '\001\001'; for _ in {1..96}; do stream; done; printf '\004\140'; } >"$work/longest"
{ cat "$work/longest"; printf '\000'; } >"$work/longer"
{ printf '\001\001'; for _ in {1..96}; do printf '\003\001\000'; done; printf '\004\140'; } >"$work/bare" # all to the outside, without meters
{ printf '\001\040\006\000\040\000\001\000\000\000\005\000\000\000\001\000\000\000\011\004\001'; } >"$work/dead_end" # at least 1 into unit 32
uses 'FILE [LAST [OFFICE]]'
for word in 'sheet number' office; do
    "$program" samples/listing.bin $([ "$word" = office ] && echo 0) x 2>"$work/said" >/dev/null || true
    grep -q "\b$word\b" "$work/said" && ! grep -q '~' "$work/said" || { echo "of a wrong $word it says: $(cat "$work/said")" >&2; failed=1; }
done
listing=samples/listing.bin
head -c 20 "$listing" >"$work/cut"
cut=$'refused 3\nat byte 20, stream 4' longer=$'refused 12\nat byte 1636' # what every program says of these two
expect 0 "$(cat samples/listing.expected)" "$listing"
expect 0 "$(cat samples/steam_site.expected)" samples/steam_site.bin
expect 0 "$(cat samples/rated_site.expected)" samples/rated_site.bin
expect 0 "$(cat samples/small_header.expected)" samples/small_header.bin
expect 0 "$(cat samples/far_off_site.expected)" samples/far_off_site.bin
expect 1 "$(cat samples/overfull_site.expected)"$'\nmarked 2 3' samples/overfull_site.bin
expect 0 $'1 A 99\n2 W -\n3 W -\n4 A 99\ntotal 4294967295 20 1 pass' "$listing" 4294967294
expect 1 'refused 2' "$listing" 4294967295
expect 0 $'1 A 99\n2 W -\n3 W -\n4 A 99\ntotal 8 20 1 pass' "$listing" 7 7
expect 1 'refused 2' "$listing" 4294967295 3
expect 1 'refused 22' "$listing" 4294967295 8
expect 1 'refused 22' "$work/cut" 0 255
printf '\001\001\003\000\001\002\000\001\000\000\000\000\000\000\004\002' >"$work/weightless"
expect 1 $'refused 9\nat byte 8, stream 2' "$work/weightless"
expect 1 "$cut" "$work/cut"
expect 2 ''
expect 2 '' "$listing" 0 0 0
expect 2 '' "$listing" 0 256
expect 2 '' "$listing" 0 x
expect 2 '' "$listing" 4294967296
expect 2 '' "$work/missing"
expect 2 '' "$work"
# A text that cannot be written, of a sheet and of a refusal.
for file in "$listing" "$work/cut"; do full "$file"; done
expect 1 $'refused 19\nmarked 32' "$work/dead_end"
expect 0 "$(for k in {1..96}; do echo "$k A 0"; done)"$'\ntotal 1 0 1 pass' "$work/longest"
expect 1 "$longer" "$work/longer"
# Meters to buy.
program=$folder/meters_to_buy
[ -x "$program" ] || { echo "no $program: build it with 'bash programs/build.sh'" >&2; exit 2; }
uses 'FILE [PRICE..]'
blind=samples/blind_site.bin
expect 0 $'buy 4\nbuy 8\nprice 950' "$blind" 900 1400 650 650 300 300 420
expect 0 $'buy 3\nprice 3' "$listing" 5 3
expect 0 $'buy 2\nprice 4' "$listing" 4 4
expect 0 'price 0' samples/sighted_site.bin 900 1400 650 300 420
expect 1 'refused 21' "$blind" 900 1400 650 650 300 300
expect 1 'refused 21' "$listing" 0 3
expect 1 'refused 21' "$listing" 5 1000001
expect 1 "$cut" "$work/cut"
expect 2 ''
expect 2 '' "$listing" 5 x
expect 2 '' "$listing" 5 4294967296
expect 2 '' "$work/missing" 5 3
expect 1 "$longer" "$work/longer"
full "$listing" 5 3
# shellcheck disable=SC2046
expect 0 "$(for k in {1..95}; do echo "buy $k"; done)"$'\nprice 95' "$work/bare" $(for _ in {1..95}; do echo 1; done) 2
# shellcheck disable=SC2046
expect 1 'refused 21' "$work/bare" $(for _ in {1..97}; do echo 1; done)
program=$folder/layouts_file
[ -x "$program" ] || { echo "no $program: build it with 'bash programs/build.sh'" >&2; exit 2; }
uses 'FILE'
printf '\001\001\004\000' >"$work/empty"
expect 0 "$(cat samples/listing.layouts)" "$listing"
expect 0 '0 1' "$work/empty"
expect 1 'refused 23' samples/steam_site.bin
expect 1 "$longer" "$work/longer"
expect 1 "$cut" "$work/cut"
expect 2 ''
expect 2 '' "$listing" 0
expect 2 '' "$work/missing"
expect 2 '' "$work"
full "$listing"
program=$folder/visits_file
[ -x "$program" ] || { echo "no $program: build it with 'bash programs/build.sh'" >&2; exit 2; }
uses 'FILE'
expect 0 "$(cat samples/listing.visits)" "$listing"
expect 0 "$(cat samples/far_off_site.visits)" samples/far_off_site.bin
expect 0 '' "$work/empty"
expect 1 'refused 19' samples/overfull_site.bin
expect 1 "$longer" "$work/longer"
expect 1 "$cut" "$work/cut"
expect 2 ''
expect 2 '' "$listing" 0
expect 2 '' "$work/missing"
expect 2 '' "$work"
for file in "$listing" "$work/cut"; do full "$file"; done
program=$folder/charges_file
[ -x "$program" ] || { echo "no $program: build it with 'bash programs/build.sh'" >&2; exit 2; }
uses 'FILE [RATE..]'
billed=samples/billed_site.bin
expect 0 "$(cat samples/billed_site.charges)" "$billed" 0 8350 8350 7120 9060
expect 1 "$(cat samples/twin_lines.charges)" samples/twin_lines.bin 8350 8350 8350
expect 1 'refused 25' samples/twin_lines.bin 8350 0 0
expect 0 $'4 99\nbill 99' "$listing" 10000
expect 0 $'4 0\nbill 0' "$listing" 0
expect 0 'bill 0' "$work/empty"
expect 1 'refused 24' "$listing"
expect 1 'refused 24' "$listing" 5 5
expect 1 'refused 24' "$listing" 10001
expect 1 'refused 24' samples/twin_lines.bin 8350 10001 0
expect 1 'refused 19' samples/overfull_site.bin 10001
expect 1 "$longer" "$work/longer"
# shellcheck disable=SC2046
expect 1 'refused 25' "$work/bare" $(for _ in {1..96}; do echo 1; done)
# shellcheck disable=SC2046
expect 1 'refused 24' "$work/bare" $(for _ in {1..97}; do echo 1; done)
expect 1 "$cut" "$work/cut" 5
expect 2 ''
expect 2 '' "$listing" x
expect 2 '' "$listing" 5x
expect 2 '' "$listing" -1
expect 2 '' "$listing" 65536
expect 2 '' "$work/missing" 5
expect 2 '' "$work" 5
for file in "$listing" "$work/cut"; do full "$file" 5; done
# Sheets drawn up elsewhere.
program=$folder/check_sheet
[ -x "$program" ] || { echo "no $program: build it with 'bash programs/build.sh'" >&2; exit 2; }
uses 'PLANT SHEET NUMBERS'
rated=samples/rated_site.bin
sheet=samples/rated_site.sheet
numbers=samples/rated_site.numbers
changed() { # name, byte from 0, its new value in octal: the sheet with that byte changed
    { head -c "$2" "$sheet"; printf "\\$3"; tail -c "+$(($2 + 2))" "$sheet"; } >"$work/$1"
    echo "$work/$1"
}
listed() { printf '%s\n' "${@:2}" >"$work/$1"; echo "$work/$1"; } # name, numbers: a file of them
expect 0 'passes' "$rated" "$sheet" "$numbers"
expect 0 'passes' "$rated" "$(changed office 73 007)" "$numbers"
expect 0 'passes' "$rated" "$(changed number 74 001)" "$numbers"
expect 1 $'refused 26\nthere are 4 numbers for 5 places' "$rated" "$sheet" "$(listed few -27 -103 -48 0)"
expect 1 $'refused 26\nplace 2: its number is past its limit' "$rated" "$sheet" "$(listed far -27 -103 1000000000000000001 0 -27)"
expect 1 $'refused 26\nstream 1: its class is A, not R' "$rated" "$(changed class 0 022)" "$numbers"
expect 1 $'refused 26\nthe degrees are 3, not 2' "$rated" "$(changed degrees 86 002)" "$numbers"
expect 1 $'refused 26\nthe least cost is 5322, not 5323' "$rated" "$(changed cost 85 313)" "$numbers"
printf '\001\001\002\000\001\003\350\000\000\000\000\002\001\000\003\350\000\000\000\144\004\002' >"$work/apart" # two meters that read 0 and 100
both='\021\000\000\000\000\000\000\000\062\021\000\000\000\000\000\000\000\062'
for verdict in 0 3; do printf "$both"'\036\000\000\000\000\001\000\000\000\000\000\114\113\100\001'"\\00$verdict" >"$work/apart$verdict"; done
expect 1 $'refused 26\nthe verdict is fail, not pass' "$work/apart" "$work/apart0" "$(listed two 0 0)"
expect 1 $'refused 26\nthe verdict is fail, not close' "$work/apart" "$work/apart3" "$(listed two 0 0)"
expect 1 $'refused 26\nthe verdict is pass, not close' "$rated" "$(changed verdict 87 003)" "$numbers"
expect 1 $'refused 26\nstream 7: it has no meter, and the numbers of its places differ by 1' "$rated" "$sheet" "$(listed unequal -26 -103 -48 0 -27)"
expect 1 $'refused 26\nstream 1: the numbers of its places differ by -76, too much: a greater flow would cost less' "$rated" "$(changed less 8 261)" "$numbers"
expect 1 $'refused 26\nstream 1: the numbers of its places differ by -76, too little: a smaller flow would cost less' "$rated" "$(changed more 8 264)" "$numbers"
expect 1 $'refused 26\nstream 3: its flow 10001 is outside its range 0 to 10000' "$rated" "$(changed above 26 021)" "$numbers"
expect 1 $'refused 26\nplace 0, with the places that W streams join to it: flows in and out have other sums' "$rated" "$(changed given 62 021)" "$numbers"
expect 1 $'refused 26\nthe sheet lists 8 streams, the plant 4' "$listing" "$sheet" "$(listed three 0 0 0)"
expect 1 $'refused 26\nthe plant has no sheet: no balanced flow lies within all ranges' samples/overfull_site.bin "$sheet" "$(listed six 0 0 0 0 0 0)"
expect 1 "$cut" "$work/cut" "$work/cut" "$numbers"
expect 1 'refused 13' "$rated" "$work/cut" "$(listed none)"
expect 1 "$longer" "$work/longer" "$sheet" "$(listed two 0 0)"
printf '\001\040\004\000' >"$work/units"
printf '\036\000\000\000\000\001\000\000\000\000\000\000\000\000\000\002' >"$work/total"
expect 0 'passes' "$work/units" "$work/total" "$(listed most {0..32})"
expect 1 $'refused 26\nthere are 34 numbers for 33 places' "$work/units" "$work/total" "$(listed more {0..33})"
printf '\001\040\002\000\040\000\001\000\000\000\000\002\040\000\000\001\000\000\000\000\004\002' >"$work/last" # to unit 32 and back
printf '\021\000\000\000\000\000\000\000\001\021\000\000\000\000\000\000\000\000\036\000\000\000\000\001\000\000\000\000\000\000\000\000\001\000' >"$work/last_sheet"
# shellcheck disable=SC2046
expect 1 $'refused 26\nplace 0, with the places that W streams join to it: flows in and out have other sums' "$work/last" "$work/last_sheet" "$(listed edge $(for _ in {0..31}; do echo 0; done) 1)"
printf '\001\002\002\000\001\003\350\000\000\000\005\003\001\002\003\002\000\004\003' >"$work/line" # from the outside by units 1 and 2, a meter that reads 5
for flow in 5 6; do
    { printf '\022\000\000\000\000\000\000\000\005'; printf "\\023\\000\\000\\000\\000\\000\\000\\000\\00$flow"; printf '\023\000\000\000\000\000\000\000\005'; cat "$work/total"; } >"$work/line$flow"
done
expect 0 'passes' "$work/line" "$work/line5" "$(listed three 0 0 0)"
expect 1 $'refused 26\nplace 1, with the places that W streams join to it: flows in and out have other sums' "$work/line" "$work/line6" "$(listed three 0 0 0)"
{ for _ in {1..96}; do printf '\021\000\000\000\000\000\000\000\000'; done; printf '\036\000\000\000\000\001\000\000\000\000\000\000\000\000\001\000'; } >"$work/long_sheet"
{ cat "$work/long_sheet"; printf '\000'; } >"$work/longer_sheet"
expect 0 'passes' "$work/longest" "$work/long_sheet" "$(listed two 0 0)"
expect 1 'refused 15' "$work/longest" "$work/longer_sheet" "$(listed two 0 0)"
expect 2 '' "$rated" "$sheet" "$numbers" "$numbers"
expect 2 '' "$rated" "$sheet"
expect 2 '' "$rated" "$sheet" "$work/missing"
expect 2 '' "$rated" "$work/missing" "$numbers"
expect 2 '' "$rated" "$sheet" "$(listed words -27 -103 x 0 -27)"
expect 2 '' "$rated" "$sheet" "$(listed long -27 -103 9223372036854775808 0 -27)"
full "$rated" "$sheet" "$numbers"
# Flows found elsewhere.
program=$folder/check_flow
[ -x "$program" ] || { echo "no $program: build it with 'bash programs/build.sh'" >&2; exit 2; }
wide=samples/wide_site.flow
other() { sed "$2" "$wide" >"$work/wide_$1"; echo "$work/wide_$1"; } # name, a change of the sample
uses 'FLOW'
expect 0 $'passes\ncost 2535198345492880289' "$wide"
expect 0 $'passes\ncost 2535198345492880289' "$(other blanks 's/ /\t /g; s/$/ # a word/')"
expect 1 'refused 26' "$(other number 's/^number 1 .*/number 1 0/')"
expect 1 'refused 26' "$(other flow '/^metered 0 1/s/41019622$/41019621/')"
expect 1 'refused 26' "$(other dearer '/^metered [01] [12]/s/[0-9]*$/26746824/')"
expect 1 'refused 26' "$(other high 's/ 0 34000 34000$/ 0 33999 34000/')"
expect 1 'refused 18' "$(other range 's/ 0 34000 34000$/ 34001 34000 34000/')"
expect 1 'refused 9' "$(other weight 's/1099511627776/1099511627777/')"
expect 1 'refused 9' "$(other below 's/1099511627776/-1/')"
expect 1 'refused 10' "$(other reading 's/ 41200000 / 1099511627777 /')"
expect 1 'refused 7' "$(other place 's/^unmetered 3 0/unmetered 3 5/')"
expect 1 'refused 8' "$(other loop 's/^unmetered 3 0/unmetered 3 3/')"
expect 1 'refused 6' "$(other units 's/^units 4/units 33/')"
{ cat "$wide"; for _ in {1..89}; do echo 'unmetered 3 0 0'; done; } >"$work/many"
expect 1 'refused 5' "$work/many"
{ cat "$wide"; for _ in {1..90}; do echo 'unmetered 3 0 0'; done; } >"$work/more"
expect 2 '' "$work/more"
expect 2 '' "$(other words 's/^units 4/units four/')"
expect 2 '' "$(other few 's/ 34000$//')"
expect 2 '' "$(other extra 's/ 34000$/ 34000 0/')"
expect 2 '' "$(other kind 's/^ranged/range/')"
expect 2 '' "$(other long 's/ 41200000 / 9223372036854775808 /')"
expect 1 'refused 7' "$(other last 's/^unmetered 3 0/unmetered 3 255/')"
expect 1 'refused 6' "$(other all 's/^units 4/units 255/')"
expect 2 '' "$(other far 's/^unmetered 3 0/unmetered 3 256/')"
expect 2 '' "$(other beyond 's/^units 4/units 256/')"
padded() { printf -v blanks '%*s' "$(($1 - 7))" ''; other "padded$1" "s/^units 4.*/units 4$blanks/"; } # a line of so many letters
expect 0 $'passes\ncost 2535198345492880289' "$(padded 510)"
expect 2 '' "$(padded 511)"
expect 2 ''
expect 2 '' "$wide" "$wide"
expect 2 '' "$work/missing"
expect 2 '' "$work"
full "$wide"
# The archive's own numbers.
program=$folder/check_sheet
for file in "$listing" samples/steam_site.bin "$rated"; do
    $folder/place_numbers "$file" >"$work/own" || { echo "place_numbers $file: status $?" >&2; failed=1; }
    [ "$(head -n 1 "$work/own")" = 0 ] || { echo "place_numbers $file: the outside has not 0" >&2; failed=1; }
done
expect 0 'passes' "$rated" "$sheet" "$work/own"
program=$folder/place_numbers
uses 'FILE'
expect 1 'refused 19' samples/overfull_site.bin
expect 1 "$longer" "$work/longer"
expect 1 "$cut" "$work/cut"
expect 0 "$(for _ in {0..32}; do echo 0; done)" "$work/units"
expect 2 ''
expect 2 '' "$listing" 0
expect 2 '' "$work/missing"
expect 2 '' "$work"
full "$listing"
[ "$failed" = 0 ] || exit 1
echo "the C programs: $runs runs as expected"
$folder/limits
if [ $# = 0 ]; then
    if echo 'int main(void) { return 0; }' | "${CC:-cc}" -fsanitize=address,undefined -x c - -o "$work/tried" 2>/dev/null && "$work/tried"; then
        CFLAGS="-g -fsanitize=address,undefined -fno-sanitize-recover=all" bash programs/build.sh "$folder/sanitized" >"$work/log" || { cat "$work/log" >&2; exit 1; }
        bash programs/test.sh "$folder/sanitized"
    else
        echo "the C programs: not tried with sanitizers, which this compiler lacks"
    fi
fi
