#!/bin/sh
# Endless, huge and odd inputs against the programs sheet, survey and certify.
# Each case must end in time with the documented output and status 0, or with one line on standard error and status 1.
# Usage: tests/odd_inputs.sh [FOLDER], where FOLDER has the programs (default: those that `make programs` leaves in crates/NAME/out).
set -u
root=$(cd "$(dirname "$0")/.." && pwd)

# Where the program of that name is.
program() {
    if [ -n "${folder_given:-}" ]; then echo "$folder_given/$1"; else echo "$root/crates/$1/out/$1"; fi
}

folder_given=${1:-}
for name in sheet survey certify; do
    [ -x "$(program "$name")" ] || { echo "no program $(program "$name"); run: make programs" >&2; exit 2; }
done

work=$(mktemp -d)
trap 'chmod -R u+rwx "$work" && rm -rf "$work"' EXIT
mkdir "$work/bin" "$work/cases"
cp "$(program sheet)" "$(program survey)" "$(program certify)" "$work/bin"
chmod 755 "$work" "$work/bin"
chmod 777 "$work/cases"
good=$root/examples/sheet.rec

# Root reads any file, so the cases run as nobody where this is root.
as_user=''
if [ "$(id -u)" -eq 0 ]; then
    command -v setpriv > /dev/null || { echo "root reads any file, and there is no setpriv to run as nobody" >&2; exit 2; }
    as_user='setpriv --reuid=65534 --regid=65534 --clear-groups'
fi

passed=0
failed=0

# A new folder for a case, with a lawful record.
fresh() {
    folder=$(mktemp -d "$work/cases/XXXXXX")
    cp "$good" "$folder/sheet.rec"
    chmod 777 "$folder"
    chmod 644 "$folder/sheet.rec"
}

# A folder whose record is what the words make of it: endless, noise, a directory, closed, missing, empty, dangling, circular.
with_record() {
    fresh
    rm "$folder/sheet.rec"
    case $1 in
        endless) ln -s /dev/zero "$folder/sheet.rec" ;;
        random) ln -s /dev/urandom "$folder/sheet.rec" ;;
        noise) noise 5000 > "$folder/sheet.rec" ;;
        directory) mkdir "$folder/sheet.rec" ;;
        closed) cp "$good" "$folder/sheet.rec"; chmod 000 "$folder/sheet.rec" ;;
        missing) ;;
        empty) : > "$folder/sheet.rec" ;;
        dangling) ln -s nowhere "$folder/sheet.rec" ;;
        circular) ln -s sheet.rec "$folder/sheet.rec" ;;
        huge) head -c 50000000 /dev/zero > "$folder/sheet.rec" ;;
    esac
}

# So many bytes of every value, the same in each run. They begin 95 F1 D9 9C D3 F3: last 2,399, slope 7,577, slack 52,543, which is too large.
noise() {
    awk -v n="$1" 'BEGIN { s = 1; for (i = 0; i < n; i++) { s = (s * 75 + 74) % 65537; printf "\\%03o", s % 256 } }' > "$work/octal"
    # shellcheck disable=SC2059
    printf "$(cat "$work/octal")"
}

# Runs a shell line in the folder of the case; its programs are on the path.
run() {
    (cd "$folder" && PATH=$work/bin:$PATH timeout 20 $as_user sh -c "$1" > "$work/out" 2> "$work/err")
    status=$?
}

report() {
    if [ -z "$2" ]; then
        passed=$((passed + 1))
        echo "ok      $1"
    else
        failed=$((failed + 1))
        echo "FAILED  $1: $2"
    fi
}

# The line prints exactly this text, with status 0 and nothing on standard error.
prints() {
    run "$2"
    printf '%s\n' "$3" > "$work/expected"
    fault=''
    cmp -s "$work/out" "$work/expected" || fault="printed $(head -c 200 "$work/out" | head -n 3 | tr '\n' '|')"
    [ -s "$work/err" ] && fault="wrote to standard error: $(head -n 1 "$work/err")"
    [ "$status" -eq 0 ] || fault="status $status"
    report "$1" "$fault"
}

# The line prints nothing, and one line on standard error that begins so, with status 1.
refuses() {
    run "$2"
    fault=''
    case $(cat "$work/err") in
        "$3"*) ;;
        *) fault="said $(head -n 1 "$work/err" | cut -c 1-200)" ;;
    esac
    [ "$(wc -l < "$work/err")" -eq 1 ] || fault="$(wc -l < "$work/err") lines on standard error"
    [ -s "$work/out" ] && fault="printed $(head -n 1 "$work/out" | cut -c 1-200)"
    [ "$status" -eq 1 ] || fault="status $status"
    report "$1" "$fault"
}

# As `refuses`, where the output that was begun stays.
breaks_off() {
    run "$2"
    fault=''
    [ "$(wc -l < "$work/err")" -eq 1 ] || fault="$(wc -l < "$work/err") lines on standard error"
    [ "$status" -eq 1 ] || fault="status $status"
    report "$1" "$fault"
}

long=$(head -c 100000 /dev/zero | tr '\0' 9)

# survey: the record
with_record endless;   prints 'survey, an endless record' 'survey < /dev/null' 'sheet 2'
with_record huge;      prints 'survey, a record of 50 MB' 'survey < /dev/null' 'sheet 2'
with_record noise;     prints 'survey, noise for a record' 'survey < /dev/null' 'sheet 4'
with_record random;    prints 'survey, endless noise for a record: one line of two words' 'survey < /dev/null | grep -cE "^sheet [1-8]$"' 1
with_record missing;   prints 'survey, no record' 'survey < /dev/null' 'sheet 1'
with_record empty;     prints 'survey, an empty record' 'survey < /dev/null' 'sheet 1'
with_record dangling;  prints 'survey, a link to no record' 'survey < /dev/null' 'sheet 1'
with_record missing;   prints 'survey, no record and an endless input' 'survey < /dev/zero' 'sheet 1'
with_record directory; refuses 'survey, a directory for a record' 'survey < /dev/null' 'survey: '
with_record closed;    refuses 'survey, a record without read permission' 'survey < /dev/null' 'survey: '
with_record circular;  refuses 'survey, a link to itself' 'survey < /dev/null' 'survey: '

# survey: the input
fresh; prints 'survey, an endless input of zeros' 'survey < /dev/zero' 'long'
fresh; prints 'survey, an endless input of noise' 'survey < /dev/urandom' 'long'
fresh; prints 'survey, an endless pipe' 'yes high | survey' 'long'
fresh; prints 'survey, one byte too many' 'head -c 4097 /dev/zero | survey' 'long'
fresh; prints 'survey, as many bytes as may be, in one line' 'head -c 4096 /dev/zero | survey' '? 22 0 - - -'
fresh; prints 'survey, line ends alone: nothing is printed' 'head -c 4096 /dev/zero | tr "\0" "\n" | survey | wc -c' 0
fresh; noise 4096 > "$folder/noise"
prints 'survey, noise: each line that is not empty is no command' 'survey < noise | sort | uniq -c | sed "s/^ *//"' "$(grep -a -c . "$folder/noise") ? 22 0 - - -"
fresh; prints 'survey, huge numbers' 'printf "at 99999\nrun 99999\ntol 99999\nat 100000\n" | survey' 'at 11 0 - - -
run 13 5 3 10 10
tol 17 5 3 10 10
? 22 5 3 10 10'
fresh; refuses 'survey, a closed input' 'survey <&-' 'survey: '
fresh; refuses 'survey, a directory for an input' 'survey < .' 'survey: '
fresh; prints 'survey, words that it does not take' "printf ask | survey $long" 'ask 19 0 - - -'
fresh; breaks_off 'survey, a closed output' 'printf ask | survey >&-'
fresh; breaks_off 'survey, a full output' 'printf ask | survey > /dev/full'

# certify
with_record endless;   refuses 'certify, an endless record' 'certify 3' 'certify: no certificate, refused with 2:'
with_record huge;      refuses 'certify, a record of 50 MB' 'certify 3' 'certify: no certificate, refused with 2:'
with_record noise;     refuses 'certify, noise for a record' 'certify 3' 'certify: no certificate, refused with 4:'
with_record missing;   refuses 'certify, no record' 'certify 3' 'certify: '
with_record empty;     refuses 'certify, an empty record' 'certify 3' 'certify: no certificate, refused with 1:'
with_record directory; refuses 'certify, a directory for a record' 'certify 3' 'certify: '
with_record closed;    refuses 'certify, a record without read permission' 'certify 3' 'certify: '
with_record circular;  refuses 'certify, a link to itself' 'certify 3' 'certify: '
fresh; refuses 'certify, no tolerance' 'certify' 'certify: usage'
fresh; refuses 'certify, two tolerances' 'certify 3 4' 'certify: usage'
fresh; refuses 'certify, a tolerance of no digits' 'certify ""' 'certify: '
fresh; refuses 'certify, a tolerance below 0' 'certify -1' 'certify: '
fresh; refuses 'certify, a tolerance of 100,000 digits' "certify $long" 'certify: '
fresh; refuses 'certify, a tolerance above 40,000' 'certify 40001' 'certify: no certificate, refused with 17:'
fresh; refuses 'certify, a tolerance that is no text' 'certify "$(printf "\377\376")"' ''
fresh; prints 'certify, a closed input, which it does not read' 'certify 3 <&- | tail -n 1' 'certificate of 30 bytes written to sheet.cert'
fresh; breaks_off 'certify, a closed output' 'certify 3 >&-'
fresh; breaks_off 'certify, a full output' 'certify 3 > /dev/full'
fresh; mkdir "$folder/sheet.cert"; breaks_off 'certify, a directory for the certificate' 'certify 3'
fresh; chmod 555 "$folder"; breaks_off 'certify, a folder without write permission' 'certify 3'

# sheet show
with_record endless;   refuses 'sheet show, an endless record' 'sheet show sheet.rec' 'sheet: refused with 2:'
with_record huge;      refuses 'sheet show, a record of 50 MB' 'sheet show sheet.rec' 'sheet: refused with 2:'
with_record noise;     refuses 'sheet show, noise for a record' 'sheet show sheet.rec' 'sheet: refused with 4:'
with_record missing;   refuses 'sheet show, no record' 'sheet show sheet.rec' 'sheet: '
with_record empty;     refuses 'sheet show, an empty record' 'sheet show sheet.rec' 'sheet: refused with 1:'
with_record directory; refuses 'sheet show, a directory for a record' 'sheet show sheet.rec' 'sheet: '
with_record closed;    refuses 'sheet show, a record without read permission' 'sheet show sheet.rec' 'sheet: '
with_record circular;  refuses 'sheet show, a link to itself' 'sheet show sheet.rec' 'sheet: '
fresh; refuses 'sheet, no words' 'sheet' 'sheet: usage'
fresh; refuses 'sheet, an unknown word' 'sheet turn sheet.rec' 'sheet: usage'
fresh; refuses 'sheet show, a name of 100,000 bytes' "sheet show $long" 'sheet: '
fresh; refuses 'sheet show, an empty name' 'sheet show ""' 'sheet: '
fresh; refuses 'sheet show, a step of 100,000 digits' "sheet show sheet.rec --step $long" 'sheet: '
fresh; refuses 'sheet show, a beam that ends early' 'sheet show sheet.rec --beam 5' 'sheet: '
fresh; refuses 'sheet show, a name that is no text' 'sheet show "$(printf "\377\376")"' ''
fresh; breaks_off 'sheet show, a closed output' 'sheet show sheet.rec >&-'
fresh; breaks_off 'sheet show, a full output' 'sheet show sheet.rec > /dev/full'

# sheet pack
fresh; refuses 'sheet pack, an endless text' 'yes 0 | sheet pack new.rec' 'sheet: the text is longer than'
fresh; refuses 'sheet pack, an endless text of zeros' 'sheet pack new.rec < /dev/zero' 'sheet: '
fresh; refuses 'sheet pack, endless noise' 'sheet pack new.rec < /dev/urandom' 'sheet: '
fresh; noise 4096 > "$folder/noise"; refuses 'sheet pack, noise' 'sheet pack new.rec < noise' 'sheet: '
fresh; refuses 'sheet pack, no text' 'sheet pack new.rec < /dev/null' 'sheet: '
fresh; refuses 'sheet pack, a closed input' 'sheet pack new.rec <&-' 'sheet: '
fresh; refuses 'sheet pack, a directory for an input' 'sheet pack new.rec < .' 'sheet: '
fresh; refuses 'sheet pack, a number of 60,000 digits' "(printf '5 0\n'; head -c 60000 /dev/zero | tr '\\0' 1) | sheet pack new.rec" 'sheet: '
fresh; refuses 'sheet pack, 20,000 heights' "(printf '5 0\n'; yes 0 | head -n 20000) | sheet pack new.rec" 'sheet: refused with 2:'
fresh; refuses 'sheet pack, a directory for the record' 'printf "5 0\n0 4\n" | sheet pack .' 'sheet: '
fresh; chmod 555 "$folder"; refuses 'sheet pack, a folder without write permission' 'printf "5 0\n0 4\n" | sheet pack new.rec' 'sheet: '

echo "$passed passed, $failed failed"
[ "$failed" -eq 0 ]
