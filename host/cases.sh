# The cases of host/check, which reads this file.

head='ncols 3 nrows 3 xllcorner 0 yllcorner 0 cellsize 10'

# The printer's settings.
printers='--channel none --low 0.5 --high 0.5 --steepness older'

# Sheets that are known: the pit of docs/RULES.md 8; and of the real grids the sums that the second program's sheets have,
# with its limits of a printer (2,048 cells, 32,768 bytes) lifted for volcano.
sheets() {
    printf '%s\n5 5 5\n5 2 4\n5 5 5\n' "$head" >pit.asc
    "$lsmap" pit.asc $printers --grids grids >out
    cmp out "$root/host/pit.txt" || fail "the pit's sheet"
    "$lsmap" - $printers <pit.asc | cmp - "$root/host/pit.txt" || fail "the pit from standard input"
    cp pit.asc ./--low
    "$lsmap" $printers -- --low | cmp - "$root/host/pit.txt" || fail "a field behind --"
    [ "$(cat grids/length.txt)" = 'length rows 3 columns 3 type u64 side 1000' ] || fail "the description of a grid"
    [ "$(od -An -td4 -v grids/filled.bin | tr -s ' \n' ' ')" = ' 500 500 500 500 400 400 500 500 500 ' ] || fail "the filled heights on disk"
    [ "$(od -An -tu4 -v grids/ls.bin | tr -s ' \n' ' ')" = ' 39424 54379 54379 54379 0 4810 39424 54379 54379 ' ] || fail "LS on disk"
    printf 'ncols 2 nrows 1 xllcorner 0 yllcorner 0 cellsize 1000\n-5 -9999\n' >long.asc
    printf '1 2 100000 1 0\n0 0 -500 -500 0 1 5000 long\n0 1 - - - - - -\n' >wanted
    "$lsmap" long.asc $printers | cmp - wanted || fail "NoData and too long"
    data=${DATA:-$root/../shared/data}
    [ -d "$data" ] || { echo "host/check: no $data, the real grids are skipped"; return; }
    while read -r name sum; do
        "$lsmap" "$data/$name.asc" $printers >out
        [ "$(cksum <out | cut -d' ' -f1)" = "$sum" ] || fail "the sheet of $name"
        as_floats "$data/$name.asc" 6
        "$lsmap" --floats as.flt as.hdr $printers | cmp - out || fail "the sheet of $name as floats"
    done <"$root/host/sums.txt"
}

# as_floats FIELD LINES: the heights of a text as floats, and its header, which has so many lines: as.flt and as.hdr.
as_floats() {
    "$root/second/second" as-floats <"$1" >as.flt
    head -n "$2" "$1" >as.hdr
}

# Files that are no field.
files() {
    printf '%s\n12,5 5 5\n5 2 4\n5 5 5\n' "$head" >comma.asc
    stops 1 'refused 12 at 54' 'comma.asc: refused 12 at 54 (line 2, column 3, at `12,5`): a comma stands where a point belongs' comma.asc
    stops 1 'refused 12 at 54' 'write `12.5`' comma.asc
    stops 1 'refused 12 at 54' 'standard input: refused 12 at 54 (line 2, column 3, at `12,5`)' - <comma.asc
    printf '%s\n1e3 5 5\n5 2 4\n5 5 5\n' "$head" >letter.asc
    stops 1 'refused 7 at 53' 'letter.asc: refused 7 at 53 (line 2, column 2, at `1e3`): expected a digit, a point or the end of the word, not `e`' letter.asc
    printf '%s\n5 5 5\n5 2 4\n5 5 5.' "$head" >cut.asc
    stops 1 'refused 7 at 70' '(line 4, column 7, after `5.`, at the end of the text): the word stops too soon: expected a digit' cut.asc
    printf 'ncols 3,0\n' >count.asc
    stops 1 'refused 7 at 7' '(line 1, column 8, at `3,0`): expected a digit or the end of the word, not `,`; ncols and nrows take' count.asc
    printf 'ncols 1\nnrows 1\nxllcorner 478000.000000000000\n' >gdal.asc
    stops 1 'refused 7 at 39' '(line 3, column 24, at `478000.000000000000`): expected the end of the word, not `0`' gdal.asc
    stops 1 'refused 7 at 39' 'at most six digits may stand behind the point: docs/FROM-GIS.md' gdal.asc
    printf '%s\n5 5 5\n5 2 4\n' "$head" >short.asc
    stops 1 'refused 9 at 64' '(line 4, column 1, at the end of the text): the text ends too early' short.asc
    stops 1 'refused 9 at 64' 'the header asks for 3 rows of 3 heights' short.asc
    printf '\357\273\277%s\n5 5 5\n5 2 4\n5 5 5\n' "$head" >bom.asc
    stops 1 'refused 6 at 0' 'byte order mark' bom.asc
    printf '%s\n5 5 5\n5 2 4\n5 5 5\nend\n' "$head" >more.asc
    stops 1 'refused 10 at 70' '(line 5, column 1, at `end`): nothing may follow' more.asc
    : >empty.asc
    stops 1 'refused 9 at 0' 'the text is empty' empty.asc
    head -c 200000000 /dev/zero | tr '\0' 7 >digits.asc
    stops 1 'refused 6 at 0' 'at `777777777777777777777777..`): expected the header' digits.asc
    rm digits.asc
    mkdir folder.asc
    stops 2 '' 'cannot read folder.asc: Is a directory' folder.asc
    stops 2 '' 'cannot read missing.asc: No such file or directory' missing.asc
    stops 2 '' 'cannot read standard input: Is a directory' - <folder.asc
}

# column N HEIGHTS WORDS...: the Nth number of each cell of a strip of heights.
column() {
    number=$1
    printf 'ncols %d nrows 1 xllcorner 0 yllcorner 0 cellsize 10 %s\n' "$(echo "$2" | wc -w)" "$2" >strip.asc
    shift 2
    "$lsmap" strip.asc "$@" | awk -v number="$number" 'NR > 1 { printf " %s", $number }'
}

# The slope lengths of a strip, and its LS.
lengths() { column 7 "$@"; }
factors() { column 8 "$@"; }

# The strips of docs/RULES.md 8 and one of nine percent, by which each flag shows that it reaches the library as the setting
# that it names.
settings() {
    [ "$(lengths '9 8 7 5' --channel none)" = ' 5000 15000 25000 0' ] || fail "the default high cutoff, 0.5"
    [ "$(lengths '9 8.6 8.44 8.4' --channel none)" = ' 5000 15000 0 0' ] || fail "the default low cutoff, 0.7"
    [ "$(lengths '9 8.6 8.44 8.4' --channel none --low 0.5)" = ' 5000 0 0 0' ] || fail "the former low cutoff, 0.5"
    [ "$(lengths '9 8 7 5' --channel none --low 1.0 --high 1.0)" = ' 5000 15000 25000 35000' ] || fail "cutoffs 1.0"
    [ "$(lengths '9 7 6' --channel none --high 0.51)" = ' 5000 15000 0' ] || fail "the high cutoff"
    [ "$(lengths '9 8 7 5' --channel none --low 1.0)" = ' 5000 15000 25000 35000' ] || fail "the low cutoff"
    [ "$(lengths '9 8 7 6' --channel cells:2)" = ' 5000 15000 0 0' ] || fail "a number of cells"
    [ "$(lengths '9 8 7 6' --channel percent:75.0)" = ' 5000 15000 25000 0' ] || fail "a percentage"
    [ "$(factors '9 8.1' --channel none --low 1.0)" = ' 46436 5980' ] || fail "the default steepness formula, older"
    [ "$(factors '9 8.1' --channel none --low 1.0 --steepness older)" = ' 46436 5980' ] || fail "the older steepness formula"
    [ "$(factors '9 8.1' --channel none --low 1.0 --steepness newer)" = ' 46765 3680' ] || fail "the newer steepness formula"
}

# Settings that the library refuses, and words that are no flags.
flags() {
    stops 1 'refused 4 at 1' '--low is a cutoff' pit.asc --low 0.505
    stops 1 'refused 4 at 1' '--low is a cutoff' pit.asc --low nan --high 2
    stops 1 'refused 4 at 2' '--high is a cutoff' pit.asc --high 1.01
    stops 1 'refused 4 at 3' '--channel percent:P takes' pit.asc --channel percent:100.1
    stops 2 '' '--low: "half" is not a number' pit.asc --low half
    stops 2 '' '--channel cells:N: "1.5" is not a number' pit.asc --channel cells:1.5
    stops 2 '' '--channel: "some" is none of none, cells:N, percent:P' pit.asc --channel some
    stops 2 '' '--steepness: "new" is neither older nor newer' pit.asc --steepness new
    stops 2 '' '--deep: no such flag' pit.asc --deep
    stops 2 '' '-x: no such flag' -x
    stops 2 '' '--deep: no such flag; --low wants a value; -x: no such flag' --deep 3 pit.asc --low --high 0.5 -x
    stops 2 '' 'one field at a time' pit.asc pit.asc
    stops 2 '' 'no FIELD.asc is named'
    "$lsmap" pit.asc --verbose 2>&1 >out | grep -qx 'lsmap: low 0.7, high 0.5, channel percent:1, steepness older' || fail "the defaults"
    "$lsmap" pit.asc --channel percent:1.0 --low 0.7 --high 0.5 --steepness older | cmp - out || fail "the defaults as flags"
    "$lsmap" pit.asc --verbose --steepness newer 2>&1 >out | grep -q ', steepness newer$' || fail "--verbose tells the formula"
    "$lsmap" --help | grep -q 'default: low 0.7, high 0.5, channel percent:1, steepness older;' || fail "the defaults in --help"
    "$lsmap" --help | grep -q 'Exit status' || fail "--help"
    "$lsmap" --version | grep -qx 'lsmap [^ ].*' || fail "--version"
    stops 2 '' 'cannot make pit.asc' pit.asc --grids pit.asc
}

# The sheet as a file: whole or not at all.
output() {
    "$lsmap" pit.asc $printers --output sheet.txt >out 2>err
    cmp sheet.txt "$root/host/pit.txt" || fail "the sheet as a file"
    [ ! -s out ] && [ ! -s err ] || fail "--output prints"
    chmod 640 sheet.txt
    ln -s sheet.txt link.txt
    ln sheet.txt old.txt
    "$lsmap" pit.asc --output link.txt
    cmp old.txt "$root/host/pit.txt" || fail "an old sheet is written over and not replaced"
    ! ls -A | grep '^\.lsmap' || fail "a sheet's part is left"
    [ -L link.txt ] && [ "$(stat -c %a sheet.txt)" = 640 ] && ! cmp -s sheet.txt "$root/host/pit.txt" || fail "--output over a link"
    cp sheet.txt before.txt
    stops 1 'refused 12 at 54' 'comma.asc: refused 12' comma.asc --output sheet.txt
    stops 2 '' 'cannot make pit.asc' pit.asc --grids pit.asc --output sheet.txt
    cmp sheet.txt before.txt || fail "a run that failed changed a sheet"
    stops 2 '' 'cannot write gone/sheet.txt: No such file or directory' pit.asc --output gone/sheet.txt
    stops 2 '' 'cannot write folder.asc: Is a directory' pit.asc --output folder.asc
    stops 2 '' '--output: ./pit.asc is the field itself' pit.asc --output ./pit.asc
    "$lsmap" pit.asc --output - | cmp - sheet.txt || fail "--output -"
    "$lsmap" pit.asc --output /dev/stdout | cmp - sheet.txt || fail "--output to a device"
}

# holds FILE COLUMNS ROWS SIDE ROWS_OF_NUMBERS: a file is the text of a grid with the corners -12.500000 and 007.
holds() {
    printf 'ncols %s\nnrows %s\nxllcorner -12.500000\nyllcorner 007\ncellsize %s\nnodata_value -9999\n%b\n' \
        "$2" "$3" "$4" "$5" | cmp - "$1" || fail "the text $1"
}

# The grids as texts: the pit, read again; heights, side and LS at their bounds; beside a sheet that nobody reads.
texts() {
    corners='xllcorner -12.500000 yllcorner 007'
    printf 'NCOLS 3 nrows 3\n%s cellsize 10\n5 5 5\n5 2 4\n5 5 5' "$corners" >corners.asc
    "$lsmap" corners.asc $printers --text deep/texts | cmp - "$root/host/pit.txt" || fail "the sheet beside the texts"
    holds deep/texts/ground.asc 3 3 10.00 '5.00 5.00 5.00\n5.00 2.00 4.00\n5.00 5.00 5.00'
    holds deep/texts/filled.asc 3 3 10.00 '5.00 5.00 5.00\n5.00 4.00 4.00\n5.00 5.00 5.00'
    holds deep/texts/direction.asc 3 3 10.00 '2 4 4\n1 1 0\n128 64 64'
    holds deep/texts/count.asc 3 3 10.00 '1 1 1\n1 6 9\n1 1 1'
    holds deep/texts/ls.asc 3 3 10.00 '0.39424 0.54379 0.54379\n0.54379 0.00000 0.04810\n0.39424 0.54379 0.54379'
    "$lsmap" deep/texts/ground.asc $printers --text again | cmp - "$root/host/pit.txt" || fail "the sheet of a text that was written"
    diff -r deep/texts again || fail "the texts of a text that was written"
    printf 'ncols 5 nrows 1 %s cellsize 1000 nodata_value 7 -0.05 0 -0 7 -500' "$corners" >bounds.asc
    "$lsmap" - $printers --text again --quiet <bounds.asc >out
    holds again/ground.asc 5 1 1000.00 '-0.05 0.00 0.00 -9999 -500.00'
    holds again/direction.asc 5 1 1000.00 '0 16 0 -9999 0'
    holds again/count.asc 5 1 1000.00 '2 1 1 -9999 1'
    holds again/ls.asc 5 1 1000.00 '0.00000 -9999 -9999 -9999 -9999'
    printf 'ncols 1 nrows 1 %s cellsize 0.05 9000' "$corners" >bounds.asc
    "$lsmap" bounds.asc --text again --quiet >>out
    holds again/filled.asc 1 1 0.05 9000.00
    [ ! -s out ] && [ "$(ls -A again | tr '\n' ' ')" = 'count.asc direction.asc filled.asc ground.asc ls.asc ' ] || fail "--quiet, or a text's part is left"
    ends 0 corners.asc $printers --text unread
    diff -r deep/texts unread || fail "the texts beside a broken pipe"
}

# None of the five texts where one can't be written.
no_texts() {
    stops 1 'refused 12 at 54' 'comma.asc: refused 12' comma.asc --text none.d --quiet
    stops 2 '' 'cannot make pit.asc' pit.asc --text pit.asc
    stops 2 '' 'cannot write /proc/self/ground.asc' pit.asc --text /proc/self
    stops 2 '' '--text: ./again/ls.asc is the field itself' again/ls.asc --text ./again
    rm again/ls.asc
    mkdir again/ls.asc
    stops 2 '' 'cannot write again/ls.asc: Is a directory' pit.asc --text again
    holds again/ground.asc 1 1 0.05 9000.00
    [ "$(ls -A again | wc -l)" -eq 5 ] || fail "a text's part is left"
}

# Without a sheet: nothing is said of a field that is accepted.
quiet() {
    "$lsmap" pit.asc --quiet >out 2>err
    "$lsmap" pit.asc --quiet --output - >>out 2>>err
    [ ! -s out ] && [ ! -s err ] || fail "--quiet prints"
    "$lsmap" pit.asc $printers --quiet --output quiet.txt
    cmp quiet.txt "$root/host/pit.txt" || fail "--quiet with --output"
    stops 1 'refused 12 at 54' 'comma.asc: refused 12' comma.asc --quiet
}

# Floats in octal bytes, the lowest first: 5, 2 and 4 m; 9000.01 m; a NaN and minus infinity.
five='\000\000\240\100' two='\000\000\000\100' four='\000\000\200\100'
high='\012\240\014\106' not='\001\000\300\177' infinite='\000\000\200\377'

# The pit as floats, with its header beside it: the sheet, the grids and the texts are those of the pit as a text.
floats() {
    printf "$five$five$five$five$two$four$five$five$five" >pit.flt
    printf '%s\n' "$head" >pit.hdr
    "$lsmap" --floats pit.flt pit.hdr $printers --grids as_floats >out
    cmp out "$root/host/pit.txt" || fail "the pit's sheet from floats"
    "$lsmap" pit.asc $printers --grids as_text --quiet
    diff -r as_text as_floats || fail "the pit's grids from floats"
    "$lsmap" $printers --floats - pit.hdr <pit.flt | cmp - "$root/host/pit.txt" || fail "floats from standard input"
    "$lsmap" $printers - --floats pit.flt <pit.hdr | cmp - "$root/host/pit.txt" || fail "a header from standard input"
    printf 'NCOLS 3 nrows 3\n%s cellsize 10\n' "$corners" >corners.hdr
    "$lsmap" --floats pit.flt corners.hdr $printers --text from_floats --quiet >out
    [ ! -s out ] && diff -r deep/texts from_floats || fail "the pit's texts from floats"
    printf 'ncols 3 nrows 1 %s cellsize 10 nodata_value 5' "$corners" >nodata.hdr
    printf "$five\000\000\000\076\000\000\000\200" | "$lsmap" --floats - nodata.hdr --text again_floats --quiet
    holds again_floats/ground.asc 3 1 10.00 '-9999 0.12 0.00'
}

# spoiled FLOAT: the pit with another float in the last cell of its second row.
spoiled() {
    printf "$five$five$five$five$two$1$five$five$not" >spoiled.flt
}

# Floats that are refused, in the order of the tests, and words that are no good beside them.
no_floats() {
    printf 'ncols 3 nrows 3 xllcorner 0 yllcorner 0 cellsize 0' >side.hdr
    stops 1 'refused 3 at 49' 'side.hdr: refused 3 at 49 (line 1, column 50, at `0`): the cell side is' --floats pit.flt side.hdr
    printf '%s\nnodata_value -9999,5' "$head" >comma.hdr
    stops 1 'refused 12 at 70' 'comma.hdr: refused 12 at 70 (line 2, column 19, at `-9999,5`): a comma stands' --floats pit.flt comma.hdr
    printf 'ncols 3\nnrows' >cut.hdr
    stops 1 'refused 9 at 13' 'cut.hdr: refused 9 at 13 (line 2, column 6, at the end of the text)' --floats pit.flt cut.hdr
    stops 1 'refused 10 at 52' 'pit.asc: refused 10 at 52 (line 2, column 1, at `5`): nothing may follow the header' --floats pit.flt pit.asc
    printf '%s\nnodata_value -9999\nbyteorder LSBFIRST\n' "$head" >order.hdr
    stops 1 'refused 10 at 71' 'order.hdr: refused 10 at 71 (line 3, column 1, at `byteorder`)' --floats pit.flt order.hdr
    stops 1 'refused 10 at 71' 'leave the line out: floats are little-endian here' --floats missing.hdr order.hdr --floats pit.flt
    head -c 35 pit.flt >short.flt
    stops 1 'refused 14 at 0' 'short.flt: refused 14 at 0: 35 bytes; 3 rows of 3 heights want 36, four each' --floats short.flt pit.hdr
    stops 1 'refused 14 at 0' 'pit.asc: refused 14 at 0: 70 bytes' --floats pit.asc pit.hdr
    spoiled "$not"
    stops 1 'refused 15 at 5' 'spoiled.flt: refused 15 at 5: row 1, column 2: NaN, by its bits 7fc00001, is no height' --floats spoiled.flt pit.hdr
    spoiled "$infinite"
    stops 1 'refused 15 at 5' 'standard input: refused 15 at 5: row 1, column 2: -inf is no height' --floats - pit.hdr <spoiled.flt
    spoiled "$high"
    stops 1 'refused 5 at 5' 'refused 5 at 5: row 1, column 2: 9000.01 is out of range: a height is from -500 to 9000 m' --floats spoiled.flt pit.hdr
    stops 1 'refused 5 at 5' 'the float nearest to the NoData number, -9999.00' --floats spoiled.flt pit.hdr
    stops 2 '' 'cannot read missing.flt: No such file or directory' --floats missing.flt pit.hdr
    stops 2 '' 'cannot read missing.hdr: No such file or directory' --floats pit.flt missing.hdr
    stops 2 '' '--floats: no FIELD.hdr is named beside it' --floats pit.flt
    stops 2 '' '--floats: standard input is the header or the heights, and not both' --floats - - <pit.flt
    stops 2 '' '--output: ./pit.flt is the field itself' --floats pit.flt pit.hdr --output ./pit.flt
    stops 2 '' '--output: ./pit.hdr is the field itself' --floats pit.flt pit.hdr --output ./pit.hdr
}

# A rough field of full size, on 64 KiB of stack; the library asks the system for no memory.
full_size() {
    awk 'BEGIN { srand(1); print "ncols 1024 nrows 1024 xllcorner 0 yllcorner 0 cellsize 5"
        for (r = 0; r < 1024; r++) { line = ""; for (c = 0; c < 1024; c++) line = line sprintf("%.2f ", 300 + r / 50 + 9 * sin(c / 60) + rand()); print line } }' >full.asc
    as_floats full.asc 1
    "$root/target/stack" full.asc as.flt as.hdr | grep -q '^accepted' || fail "the calls want more than 64 KiB of stack"
    "$lsmap" full.asc --grids grids >out
    "$lsmap" --floats as.flt as.hdr | cmp - out || fail "the sheet of full size from floats"
    [ "$(wc -l <out)" -eq 1048577 ] || fail "the sheet of full size"
    [ "$(wc -c <grids/length.bin)" -eq 8388608 ] || fail "the grids of full size"
    wanted=$(nm -u "$root/crates/fullsize/out/libfullsize.a" | grep ' U ' | grep -v ' mem[a-z]*$' || true)
    [ -z "$wanted" ] || fail "the library calls $wanted"
}

# ends STATUS WORDS...: lsmap says nothing and ends with the status where its reader has left before it writes.
ends() {
    status=$1
    shift
    { sleep 0.2; got=0; "$lsmap" "$@" 2>err || got=$?; echo "$got" >got; } | :
    [ "$(cat got)" -eq "$status" ] || fail "a broken pipe: $*: status $(cat got)"
}

# Standard output that takes no more, and a terminal as standard error.
pipes() {
    for words in --help --version 'pit.asc' 'full.asc' 'full.asc --output /dev/stdout'; do
        ends 0 $words
        [ ! -s err ] || fail "a broken pipe: $words: said $(cat err)"
    done
    ends 1 comma.asc
    got=0
    "$lsmap" full.asc >/dev/full 2>err || got=$?
    [ "$got" -eq 2 ] && grep -qx 'lsmap: cannot write standard output: No space left on device' err || fail "a full disk"
    before=$(ls -A)
    got=0
    (trap '' XFSZ; ulimit -f 64; "$lsmap" full.asc --output sheet.txt 2>err) || got=$?
    [ "$got" -eq 2 ] && grep -qx 'lsmap: cannot write sheet.txt: File too large' err || fail "a file that may not grow"
    [ "$(ls -A)" = "$before" ] && cmp sheet.txt before.txt || fail "half a sheet"
    command -v script >out || { echo "host/check: no script(1), the summary is skipped"; return; }
    script -qec "'$lsmap' $printers - <pit.asc >sheet.txt" /dev/null | tr -d '\r' >out
    grep -qxE 'lsmap: 9 cells, 9 valid, longest trail 2, greatest LS 0\.54379, [0-9]+\.[0-9]{2} s' out || fail "the summary: $(cat out)"
    script -qec "'$lsmap' pit.asc 2>err" /dev/null >out
    [ ! -s err ] || fail "a summary for no terminal"
    script -qec "'$lsmap' --quiet pit.asc" /dev/null >out
    [ ! -s out ] || fail "--quiet on a terminal: $(cat out)"
}

# As many blocks of 512 bytes as lsmap may write to a file: more than the ground's text has, fewer than that of LS.
limit() {
    ulimit -c 0
    ulimit -f $(($(wc -c <whole/ground.asc) / 512 + 1))
}

# unharmed WHAT: each text in the folder is the old one, or the new one where it had the time for all.
unharmed() {
    for name in ground filled direction count ls; do
        [ "$(cat "kept/$name.asc")" = old ] || { [ "$1" = killed ] && cmp -s "kept/$name.asc" "whole/$name.asc"; } || fail "$1: half a text $name"
    done
}

# A run that can't write its last text, or is ended while it writes, leaves no half text.
broken_texts() {
    mkdir kept
    for name in ground filled direction count ls; do echo old >"kept/$name.asc"; done
    "$lsmap" full.asc --text whole --quiet
    got=0
    (trap '' XFSZ; limit; "$lsmap" full.asc --text kept --quiet 2>err) || got=$?
    [ "$got" -eq 2 ] && grep -qx 'lsmap: cannot write kept/ls.asc: File too large' err || fail "a text that may not grow"
    [ "$(ls -A kept | wc -l)" -eq 5 ] || fail "a text's part is left"
    unharmed 'a text that may not grow'
    got=0
    { (limit; exec "$lsmap" full.asc --text kept --quiet) || got=$?; } 2>err
    [ "$got" -gt 128 ] || fail "lsmap goes on where a signal ends it"
    unharmed 'ended while writing'
    for seconds in 0.1 0.15 0.2 0.25 0.3 0.35 0.4; do
        "$lsmap" full.asc --text kept --quiet &
        sleep "$seconds"
        kill -9 $! 2>err || true
        wait $! 2>err || true
        unharmed killed
    done
}
