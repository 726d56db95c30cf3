#!/bin/bash
# Runs encode and decode on good and bad arguments and records, and compares what they write and their status.
cd "$(dirname "$0")/.." || exit 1
encode=crates/encode/out/encode
decode=crates/decode/out/decode
# Proves and builds both; what they write here is looked at below.
(cd crates/encode && rt run -- 2 line 2 1 < stdin > /dev/null 2> out/said) || { tail -5 crates/encode/out/said; exit 1; }
(cd crates/decode && rt run < stdin > /dev/null 2> out/said) || { tail -5 crates/decode/out/said; exit 1; }
failed=0
tried=0

L='\x09\x00\x04\x00\x05\x00\x05\x00\x04\x03\x60'
ENDS='\x08\x00\x02\x00\x05\x00\x05\x00\x01\xe8'
STEP='\x08\x00\x04\x00\x05\x00\x05\x00\x01\xe0'

# try STATUS STDOUT STDERR STDIN PROGRAM WORD..: texts as printf has them; a STDERR of `usage` stands for the usage text.
try() {
    local status=$1 out=$2 err=$3 in=$4
    shift 4
    local got_out got_err got_status
    got_out=$(printf "$in" | "$@" 2>/tmp/programs.$$ | od -An -v -tx1 | tr -d ' \n'; exit "${PIPESTATUS[1]}")
    got_status=$?
    got_err=$(cat /tmp/programs.$$)
    tried=$((tried + 1))
    local want_out
    want_out=$(printf "$out" | od -An -v -tx1 | tr -d ' \n')
    if [ "$err" = usage ]; then
        case $got_err in 'usage: '*) got_err=usage ;; esac
    fi
    if [ "$got_out" != "$want_out" ] || [ "$got_err" != "$err" ] || [ "$got_status" != "$status" ]; then
        failed=$((failed + 1))
        echo "not as wanted: $* < $in"
        echo "  status $got_status, wanted $status"
        echo "  stdout $got_out, wanted $want_out"
        echo "  stderr $got_err, wanted $err"
    fi
}

# good: the cheapest within a tolerance, the closest within a budget
try 0 "$ENDS" '' "$L" $encode 2 line 2 1
try 0 "$ENDS" '' "$L" $encode 2 pace 2 1
try 0 '\x09\x00\x02\x00\x05\x00\x05\x00\x02\x0b\x20' '' "$L" $encode 2 line 1 1
try 0 "$ENDS" '' "$L" $encode 2 line 11
try 0 '\x09\x00\x02\x00\x05\x00\x05\x00\x02\x0b\x20' '' "$L" $encode 2 line 12
try 0 "$L" '' "$L" $encode 4 line 0 1
try 0 "$L" '' "$L\x01\x02" $encode 4 line 0 1
try 0 '\x0a\x00\x01\x00\x05\x00\x05\x00\x01\x00\x40\x08' '' "$L" $encode 1 line 22
try 0 '\x0d\x00\x01\x00\x05\x00\x05\x00\x02\x00\x40\x00\x00\x00\x20' '' "$L" $encode 1 line 65536
try 0 '\x07\x00\x05\x00\x05\x00\x05\x00\x00' '' '\x07\x00\x04\x00\x05\x00\x05\x00\x00' $encode 5 pace 0

# refused, first the kind, then the record, then the search
try 1 '' 'refused 7' '' $encode 0 line 1 0
try 1 '' 'refused 7' '' $encode 6 line 2 1
try 1 '' 'refused 7' '' $encode 70000 line 2 1
try 1 '' 'refused 6 byte 0' '' $encode 2 line 1 0
try 1 '' 'refused 7 byte 2' "$ENDS" $encode 2 line 1 0
try 1 '' 'refused 8 byte 4' '\x07\x00\x04\x00\x00\x04\x05\x00\x00' $encode 2 line 2 1
try 1 '' 'refused 8 byte 6' '\x07\x00\x04\x00\x05\x00\x00\x04\x00' $encode 2 line 2 1
try 1 '' 'refused 8 edge 2 bit 3' '\x08\x00\x04\x00\x00\x00\x05\x00\x02\x50' $encode 2 line 2 1
try 1 '' 'refused 9 edge 1 bit 0' '\x07\x00\x04\x00\x05\x00\x05\x00\x01' $encode 2 line 2 1
try 1 '' 'refused 10 edge 0 bit 0' '\x08\x00\x04\x00\x05\x00\x05\x00\x00\x00' $encode 2 line 2 1
try 1 '' 'refused 4' "$STEP" $encode 3 line 1 0
try 1 '' 'refused 4' "$STEP" $encode 3 line 1099511627776 1
try 1 '' 'refused 4' "$STEP" $encode 3 line 99999999999999999999999999 1
try 1 '' 'refused 26' "$STEP" $encode 3 line 2 1
try 1 '' 'refused 26' "$STEP" $encode 3 line 100
try 1 '' 'refused 27' "$L" $encode 2 line 5

# no order
try 1 '' usage "$L" $encode
try 1 '' usage "$L" $encode 2 line
try 1 '' usage "$L" $encode 2 line 2 1 1
try 1 '' usage "$L" $encode two line 2 1
try 1 '' usage "$L" $encode 2 Line 2 1
try 1 '' usage "$L" $encode 2 line 2 -1
try 1 '' usage "$L" $encode 2 line ''
try 1 '' usage "$L" $encode 2 line +5
try 1 '' usage "$L" $encode 2 line $'\xff'

# decode
try 0 'kind 2\n5 5\n7 7\n' '' "$ENDS" $decode
try 0 'kind 2\n5 5\n7 7\n' '' "$ENDS$L" $decode
try 0 'kind 4\n5 5\n6 5\n7 5\n7 6\n7 7\n' '' "$L" $decode
try 0 'kind 1\n5 5\n7 7\n' '' '\x0a\x00\x01\x00\x05\x00\x05\x00\x01\x00\x40\x08' $decode
try 0 'kind 5\n1023 0\n' '' '\x07\x00\x05\x00\xff\x03\x00\x00\x00' $decode
try 1 '' 'refused 6 byte 0' '' $decode
try 1 '' 'refused 7 byte 2' '\x07\x00\x06\x00\x05\x00\x05\x00\x00' $decode
try 1 '' 'refused 8 byte 4' '\x07\x00\x01\x00\x00\x04\x05\x00\x00' $decode
try 1 '' 'refused 9 edge 2 bit 6' '\x08\x00\x02\x00\x05\x00\x05\x00\x02\xe8' $decode
try 1 '' 'refused 10 edge 1 bit 6' '\x08\x00\x02\x00\x05\x00\x05\x00\x01\xe9' $decode
try 1 '' usage "$ENDS" $decode now

rm -f /tmp/programs.$$
echo "$tried tried, $failed not as wanted"
[ "$failed" = 0 ]
