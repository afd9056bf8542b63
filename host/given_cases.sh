# The cases of given directions for host/check, which reads this file after cases.sh: it has the fields that those make.

# drawn HEADER CODES: the text of given directions, codes.asc.
drawn() {
    printf '%s\n%b\n' "$1" "$2" >codes.asc
}

# shape COLUMNS ROWS: a header.
shape() {
    echo "ncols $1 nrows $2 xllcorner 0 yllcorner 0 cellsize 10"
}

# flat COLUMNS ROWS: a field of equal heights, flat.asc.
flat() {
    awk -v head="$(shape "$1" "$2")" -v columns="$1" -v rows="$2" \
        'BEGIN { print head; for (x = 0; x < columns * rows; x++) print 5 }' >flat.asc
}

# own_back WORDS...: our own directions, as --text writes them, give back the sheet and the texts of a field.
own_back() {
    "$lsmap" "$@" --text own >own.txt
    "$lsmap" "$@" --directions own/direction.asc --text back | cmp - own.txt || fail "our own directions given back: $*"
    diff -r own back || fail "the texts by our own directions given back: $*"
}

# none_by HEADER WORD: under a header a word is the code of NoData.
none_by() {
    drawn "$1" "$2 4 8\n1 0 16\n128 64 32"
    "$lsmap" hole.asc --directions codes.asc | cmp - own.txt || fail "$2 as NoData's code under $1"
}

# Directions that are accepted: our own given back; others, with NoData by each of its spellings; from standard input; beside
# floats and on disk.
given() {
    own_back pit.asc
    own_back pit.asc $printers
    own_back long.asc --steepness newer
    own_back full.asc --channel cells:9
    own_back --floats pit.flt pit.hdr
    printf '%s\n-9999 5 5\n5 2 4\n5 5 5\n' "$head" >hole.asc
    own_back hole.asc
    drawn "$head" '0 0 0\n0 1 0\n0 0 0.00'
    "$lsmap" pit.asc --directions codes.asc --channel none --grids grids >out
    [ "$(head -n 1 out)" = '3 3 1000 9 1' ] || fail "the totals by given directions"
    [ "$(awk 'NR > 1 { printf " %s", $5 "/" $6 "/" $7 }' out)" = ' 0/1/5000 0/1/5000 0/1/5000 0/1/5000 1/1/5000 0/2/5000 0/1/5000 0/1/5000 0/1/5000' ] || fail "the sheet by given directions"
    [ "$(od -An -tu1 -v grids/direction.bin | tr -s ' \n' ' ')" = ' 0 0 0 0 1 0 0 0 0 ' ] || fail "the given directions on disk"
    "$lsmap" pit.asc --directions - --channel none <codes.asc | cmp - out || fail "directions from standard input"
    "$lsmap" - --directions codes.asc --channel none <pit.asc | cmp - out || fail "a field from standard input beside directions"
    "$lsmap" --floats pit.flt --directions codes.asc pit.hdr --channel none | cmp - out || fail "given directions beside floats"
    "$lsmap" --directions codes.asc pit.asc --verbose 2>&1 >out | grep -qx 'lsmap: directions given by codes.asc' || fail "--verbose tells of given directions"
    ! "$lsmap" pit.asc --verbose 2>&1 >out | grep -q directions || fail "--verbose tells of directions that are not given"
    "$lsmap" --directions missing.asc pit.asc --directions codes.asc --quiet || fail "of --directions given twice the last one"
    "$lsmap" hole.asc --directions own/direction.asc >own.txt
    none_by "$head" -9999
    none_by "$head" 255
    none_by "$head nodata_value 255" 255.0
    none_by "$head nodata_value -1.5" -1.50
    none_by "$head nodata_value -1.5" 255
}

# breaks FIELD PLACE WORDS CODES: the code at a place breaks a rule, and the message says so in these words.
breaks() {
    drawn "$head" "$4"
    stops 1 "refused 17 at $2" "codes.asc: refused 17 at $2: $3" "$1" --directions codes.asc
}

# A code that breaks one of the five rules; of several such cells the first decides.
broken_rules() {
    nine='the cell is not NoData, so its code is one of 0, 1, 2, 4, 8, 16, 32, 64 and 128'
    none='the cell is NoData, so its code is 255 or the NoData number'
    for code in 0 64 3 2.0 -0.01; do
        breaks hole.asc 0 "row 0, column 0, \`$code\`: $none" "$code 4 8\n1 0 16\n128 64 32"
    done
    for code in 3 5 254 129 300 1.5 -1 255 255.00 256 -9999; do
        breaks pit.asc 2 "row 0, column 2, \`$code\`: $nine" "2 4 $code\n1 1 0\n128 64 64"
    done
    breaks pit.asc 1 'row 0, column 1, `64`: points north, off the grid' '2 64 4\n1 1 0\n128 64 64'
    breaks pit.asc 5 'row 1, column 2, `1`: points east, off the grid' '2 4 4\n1 1 1\n128 64 64'
    breaks pit.asc 6 'row 2, column 0, `0032.0`: points northwest, off the grid' '2 4 4\n1 1 0\n0032.0 64 64'
    breaks hole.asc 1 'row 0, column 1, `16`: points west at row 0, column 0, which is NoData' '-9999 16 4\n1 1 0\n128 64 64'
    breaks hole.asc 4 'row 1, column 1, `32`: points northwest at row 0, column 0, which is NoData' '255 4 4\n1 32 0\n128 64 64'
    breaks pit.asc 5 'row 1, column 2, `64`: points north and uphill: from a filled height of 4.00 m to 5.00 m at row 0, column 2' '2 4 4\n1 1 64\n128 64 64'
    breaks pit.asc 4 'row 1, column 1, `0`: 0 stands only on rim cells, at the edge of the grid or beside NoData' '2 4 4\n1 0 0\n128 64 64'
    drawn "$head" '-9999 4 4\n1 0 0\n128 64 64'
    "$lsmap" hole.asc --directions codes.asc --quiet || fail "0 beside NoData"
    breaks pit.asc 1 'row 0, column 1, `64`: points north, off the grid' '2 64 3\n1 0 64\n300 64 64'
    breaks pit.asc 4 'row 1, column 1, `0`: 0 stands only' '2 4 4\n1 0 64\n300 64 1'
    breaks pit.asc 8 'row 2, column 2, `4`: points south, off the grid' '1 16 4\n1 1 16\n128 64 4'
    drawn "$head" '2 4 4\n1 1 64\n128 64 64'
    stops 1 'refused 17 at 5' 'standard input: refused 17 at 5: row 1, column 2, `64`: points north and uphill' pit.asc --directions - <codes.asc
    stops 1 'refused 17 at 5' 'codes.asc: refused 17 at 5: row 1, column 2, `64`' --floats pit.flt pit.hdr --directions codes.asc
    stops 1 'refused 4 at 1' 'pit.asc: refused 4 at 1: --low is a cutoff' pit.asc --directions codes.asc --low 2
}

# rounds COLUMNS ROWS PLACE WORDS CODES: a trail over a flat goes round a ring that has the place, which is told in these words.
rounds() {
    flat "$1" "$2"
    drawn "$(shape "$1" "$2")" "$5"
    stops 1 "refused 18 at $3" "codes.asc: refused 18 at $3: a trail goes round: $4; and back to the first" flat.asc --directions codes.asc
}

# Trails that go round: a pair, eight cells with a way into them, two rings, of which the first cell in row order decides and
# not the first trail, and a long one.
rings() {
    drawn "$head" '2 4 4\n1 1 16\n128 64 64'
    stops 1 'refused 18 at 4' 'codes.asc: refused 18 at 4: a trail goes round: row 1, column 1; row 1, column 2; and back to the first' pit.asc --directions codes.asc
    rounds 2 1 0 'row 0, column 0; row 0, column 1' '1 16'
    rounds 3 3 0 'row 0, column 0; row 0, column 1; row 0, column 2; row 1, column 2; row 2, column 2; row 2, column 1; row 2, column 0; row 1, column 0' \
        '1 1 4\n64 1 4\n64 16 16'
    rounds 3 3 1 'row 0, column 1; row 1, column 2; row 2, column 1; row 1, column 0' '1 2 0\n128 64 8\n0 32 0'
    rounds 4 1 0 'row 0, column 0; row 0, column 1' '1 16 1 16'
    rounds 4 2 2 'row 0, column 2; row 0, column 3' '4 0 1 16\n1 16 0 0'
    east=$(printf '1 %.0s' $(seq 19)) west=$(printf ' 16%.0s' $(seq 19))
    rounds 20 2 0 "$(printf 'row 0, column %d; ' $(seq 0 15))24 more" "${east}4\n64$west"
    own_back flat.asc
}

# Texts that are no direction grid, after the field and before the settings; files and words that are no good beside one.
no_codes() {
    drawn "$(shape 9 1)" '2 4 4 1 1 0 128 64 64'
    stops 1 'refused 2 at 0' 'codes.asc: refused 2 at 0: 1 rows of 9 codes; the field has 3 rows of 3' pit.asc --directions codes.asc --low 2
    stops 1 'refused 2 at 0' '1 rows of 9 codes; the field has 3 rows of 3' --floats pit.flt --directions codes.asc pit.hdr
    drawn "$(shape 2 1)" '1 0'
    stops 1 'refused 2 at 0' '1 rows of 2 codes; the field has 3 rows of 3' pit.asc --directions codes.asc
    drawn "$head" '2 4 4\n1,5 1 0\n128 64 64'
    stops 1 'refused 12 at 59' 'codes.asc: refused 12 at 59 (line 3, column 2, at `1,5`): a comma stands where a point belongs' pit.asc --directions codes.asc --low 2
    stops 1 'refused 12 at 54' 'comma.asc: refused 12 at 54 (line 2, column 3, at `12,5`)' comma.asc --directions codes.asc
    spoiled "$not"
    stops 1 'refused 15 at 5' 'spoiled.flt: refused 15 at 5' --floats spoiled.flt pit.hdr --directions codes.asc
    drawn "$head" '2 4 4\n1 1 0\n128 64 64 64'
    stops 1 'refused 10 at 74' 'nothing may follow the last code; the header asks for 3 rows of 3 codes' pit.asc --directions codes.asc
    drawn "$head" '2 4 4\n1 1 0\n128 64'
    stops 1 'refused 9 at 71' 'codes.asc: refused 9 at 71 (line 5, column 1, at the end of the text)' pit.asc --directions codes.asc
    drawn "$head" '2 4 65535\n1 1 0\n128 64 64'
    stops 1 'refused 5 at 56' '(line 2, column 5, at `65535`): a code is a whole number from 0 to 255, or equals the NoData number' pit.asc --directions codes.asc
    drawn "$head" '2 4 4.005\n1 1 0\n128 64 64'
    stops 1 'refused 8 at 56' 'codes.asc: refused 8 at 56 (line 2, column 5, at `4.005`): a digit after the second decimal has to be 0' pit.asc --directions codes.asc
    : >codes.asc
    stops 1 'refused 9 at 0' 'codes.asc: refused 9 at 0 (line 1, column 1, at the end of the text): the text ends too early' pit.asc --directions codes.asc
    stops 2 '' 'cannot read missing.asc: No such file or directory' pit.asc --directions missing.asc
    stops 2 '' 'cannot read folder.asc: Is a directory' pit.asc --directions folder.asc
    stops 2 '' 'cannot read missing.asc: No such file or directory' missing.asc --directions folder.asc
    stops 2 '' 'cannot read missing.asc: No such file or directory' comma.asc --directions missing.asc
    stops 2 '' 'standard input, `-`, can be read only once' - --directions - <pit.asc
    stops 2 '' 'standard input, `-`, can be read only once' --floats - pit.hdr --directions - <pit.flt
    stops 2 '' '--directions wants a value' pit.asc --directions --quiet
    stops 2 '' '--output: ./codes.asc is the given directions' pit.asc --directions codes.asc --output ./codes.asc
    stops 2 '' '--text: own/direction.asc is the given directions' pit.asc --directions ./own/direction.asc --text own
    no_report 2 "--directions: a report's maps have our own directions" --directions codes.asc pit.asc
}
