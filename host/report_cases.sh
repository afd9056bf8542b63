# The cases of reports for host/check, which reads this file after cases.sh: it has the fields that those make.

# A report in one line: its values in the order of the lines.
values() {
    "$lsmap" report "$@" | awk '{ printf "%s%s", (NR > 1 ? " " : ""), $2 }'
}

# no_report STATUS MESSAGE WORDS...: lsmap prints no report, ends with the status, says MESSAGE in one line on standard error
# and saves nothing.
no_report() {
    status=$1 message=$2
    shift 2
    got=0
    touch out err
    before=$(ls -A)
    "$lsmap" report --save none.txt "$@" >out 2>err || got=$?
    [ "$got" -eq "$status" ] || fail "report $*: status $got and not $status"
    [ ! -s out ] || fail "report $*: printed $(head -c 200 out)"
    grep -qF -- "$message" err || fail "report $*: said $(head -c 400 err)"
    [ "$(wc -l <err)" -eq 1 ] || fail "report $*: more than one message"
    [ "$(ls -A)" = "$before" ] || fail "report $*: left something behind"
}

# Reports that are known: of the pit, of a slope that is too long and of NoData alone; by each setting; of the real grids as
# the second program counts them.
reports() {
    printf 'ncols 2 nrows 1 xllcorner 0 yllcorner 0 cellsize 10\n-9999 -9999\n' >nodata.asc
    [ "$(values $printers pit.asc)" = '1 9 0 1 0 355553 9 0 0 0 54379 0 1' ] || fail "the pit's report"
    [ "$(values $printers pit.asc pit.asc)" = '2 18 0 2 0 711106 18 0 0 0 54379 0 1' ] || fail "a tie keeps the first"
    [ "$(values $printers nodata.asc long.asc pit.asc)" = '3 10 0 1 1 355553 9 0 0 0 54379 2 1' ] || fail "the greatest's map"
    [ "$(values $printers pit.asc long.asc nodata.asc)" = '3 10 0 1 1 355553 9 0 0 0 54379 0 1' ] || fail "the order of fields"
    [ "$(values $printers nodata.asc)" = '1 0 0 0 0 0 0 0 0 0 none none none' ] || fail "NoData alone"
    [ "$(values $printers long.asc -- - pit.asc <pit.asc)" = '3 19 0 2 1 711106 18 0 0 0 54379 1 1' ] || fail "a field from standard input"
    printf 'ncols 4 nrows 1 xllcorner 0 yllcorner 0 cellsize 10\n9 8 7 6\n' >falls.asc
    [ "$(values falls.asc --channel cells:2 | cut -d' ' -f2,3)" = '4 2' ] || fail "a report's channels by cells"
    [ "$(values falls.asc --channel percent:75.0 | cut -d' ' -f2,3)" = '4 1' ] || fail "a report's channels by a percentage"
    [ "$(values falls.asc | cut -d' ' -f2,3)" = '4 4' ] || fail "a report's channels by default"
    for flags in '--steepness newer' '--low 1.0 --high 1.0'; do
        sum=$("$lsmap" falls.asc --channel none $flags | awk 'NR > 1 { sum += $8 } END { print sum }')
        [ "$(values falls.asc --channel none $flags | cut -d' ' -f6)" = "$sum" ] || fail "a report with $flags"
        [ "$(values falls.asc --channel none | cut -d' ' -f6)" != "$sum" ] || fail "$flags tells nothing"
    done
    data=${DATA:-$root/../shared/data}
    [ -d "$data" ] || { echo "host/check: no $data, the real grids are skipped"; return; }
    "$lsmap" report "$data/satellite_marburg.asc" "$data/volcano.asc" | cmp - "$root/host/valley.txt" || fail "the report on the real grids"
}

# Any number of jobs gives the same report, and no line where standard error is no terminal.
jobs() {
    fields='pit.asc full.asc nodata.asc long.asc falls.asc pit.asc full.asc'
    "$lsmap" report --jobs 1 $fields >one.txt 2>err
    for number in 2 4 100; do
        "$lsmap" report --jobs "$number" $fields 2>>err | cmp - one.txt || fail "$number jobs"
    done
    "$lsmap" report $fields | cmp - one.txt || fail "as many jobs as there are processors"
    [ ! -s err ] || fail "a report says $(cat err)"
    "$lsmap" report --verbose pit.asc 2>&1 >out | grep -qx 'lsmap: low 0.7, high 0.5, channel percent:1, steepness older' || fail "a report's settings"
}

# What is saved is what is printed; parts that are joined in their order are the whole.
saved() {
    "$lsmap" report $printers nodata.asc pit.asc falls.asc pit.asc >whole.txt
    "$lsmap" report $printers nodata.asc pit.asc falls.asc pit.asc --save kept.txt | cmp - whole.txt || fail "a report that is saved too"
    cmp kept.txt whole.txt || fail "what is saved"
    "$lsmap" report $printers nodata.asc --quiet --save part-1.txt >out
    "$lsmap" report $printers pit.asc falls.asc --quiet --save part-2.txt >>out
    "$lsmap" report $printers --quiet pit.asc >>out
    [ ! -s out ] || fail "report --quiet prints"
    "$lsmap" report $printers --join part-1.txt --join part-2.txt pit.asc | cmp - whole.txt || fail "parts and a field"
    "$lsmap" report $printers pit.asc --join part-1.txt --join part-2.txt --save kept.txt | cmp - whole.txt || fail "fields come after what is joined"
    "$lsmap" report $printers --join - pit.asc --join part-2.txt <part-1.txt | cmp - whole.txt || fail "a report from standard input"
    "$lsmap" report --join whole.txt | cmp - whole.txt || fail "a report that is read again"
    [ "$(values --join part-2.txt --join part-1.txt | cut -d' ' -f12)" = 1 ] || fail "the order of what is joined"
    cp part-1.txt total.txt
    for field in pit.asc falls.asc pit.asc; do "$lsmap" report $printers --quiet --join total.txt --save total.txt "$field"; done
    cmp total.txt whole.txt || fail "a report that is saved over the one that it joins"
    { for name in maps valid channel zero long sum under_1 from_1 from_5 from_10; do echo "$name 0"; done
        for name in greatest greatest_map greatest_cell; do echo "$name none"; done; } >none
    "$lsmap" report --join none --join none | cmp - none || fail "the empty report"
    "$lsmap" report $printers --join none --join part-1.txt --join none --join part-2.txt --join none pit.asc | cmp - whole.txt || fail "empty parts"
    ! ls -A | grep '^\.lsmap' || fail "a report's part is left"
}

# Fields that are no good: the first of the command line decides, however long the others take.
no_reports() {
    no_report 1 'comma.asc: refused 12 at 54 (line 2, column 3, at `12,5`): a comma stands where a point belongs' pit.asc comma.asc
    no_report 1 'standard input: refused 12 at 54' --quiet pit.asc - <comma.asc
    no_report 2 'cannot read missing.asc: No such file or directory' pit.asc missing.asc comma.asc
    { cat full.asc; echo end; } >slow.asc
    for number in 1 2 4; do
        no_report 1 'slow.asc: refused 10 at ' --jobs "$number" pit.asc slow.asc comma.asc missing.asc pit.asc
        no_report 1 'comma.asc: refused 12 at 54' --jobs "$number" comma.asc slow.asc missing.asc
        no_report 2 'cannot read missing.asc' --jobs "$number" pit.asc missing.asc slow.asc comma.asc
    done
    rm slow.asc
    no_report 1 'pit.asc: refused 4 at 1: --low is a cutoff' pit.asc --low 0.505
    no_report 1 'pit.asc: refused 4 at 3: --channel percent:P takes' pit.asc --channel percent:100.1
    cp whole.txt before.txt
    no_report 1 'comma.asc: refused 12' comma.asc --save whole.txt
    no_report 2 'cannot read missing.txt: No such file or directory' pit.asc --join missing.txt --save whole.txt
    cmp whole.txt before.txt || fail "a report that failed changed what was saved"
    no_report 2 'cannot write gone/none.txt: No such file or directory' pit.asc --save gone/none.txt
    no_report 2 'cannot write /dev/full: No space left on device' pit.asc --save /dev/full
    no_report 2 '--save: ./pit.asc is a field itself' falls.asc pit.asc --save ./pit.asc
    ends 0 report pit.asc
    [ ! -s err ] || fail "a report and a broken pipe: said $(cat err)"
}

# Words that are no good for a report.
report_flags() {
    for flag in --output --grids --text; do
        no_report 2 "$flag: a report has neither a sheet nor grids to write; --save FILE writes the report" pit.asc "$flag" none
    done
    no_report 2 '--floats: a report takes texts alone' --floats pit.flt pit.hdr
    no_report 2 '--jobs: "0" is no number of threads from 1 on' pit.asc --jobs 0
    no_report 2 '--save wants a file: standard output gets the report without it' pit.asc --save -
    no_report 2 'standard input, `-`, can be read only once' - pit.asc - <pit.asc
    no_report 2 'no FIELD.asc is named, and no report with --join' --quiet
    no_report 2 '--deep: no such flag' pit.asc --deep
    stops 2 '' '--jobs: no such flag' pit.asc --jobs 2
    "$lsmap" --help | grep -q 'lsmap report \[flags\] FIELD.asc\.\.\.' || fail "reports in --help"
}

# record MAPS SUM GREATEST GREATEST_MAP: a saved report with these numbers.
record() {
    sed "s/^maps .*/maps $1/; s/^sum .*/sum $2/; s/^greatest .*/greatest $3/; s/^greatest_map .*/greatest_map $4/; s/^greatest_cell .*/greatest_cell 5/" none
}

# Numbers at the edge of 64 bits: what fits is taken as it is, one more is refused.
edges() {
    most=18446744073709551615
    full='refused 16 at 0: with it a total, the number of maps or the map of the greatest LS would no longer fit 64 bits'
    record $most 0 7 0 >maps.txt
    record 1 $most 7 $most >sum.txt
    [ "$(values --join maps.txt | cut -d' ' -f1)" = $most ] || fail "as many maps as fit"
    no_report 1 "pit.asc: $full" pit.asc --join maps.txt --join none
    no_report 1 "nodata.asc: $full" --join maps.txt nodata.asc pit.asc comma.asc
    no_report 1 "sum.txt: $full" --join maps.txt --join sum.txt comma.asc
    [ "$(values --join sum.txt nodata.asc | cut -d' ' -f6,11,12)" = "$most 7 $most" ] || fail "a full sum and a map without LS"
    no_report 1 "pit.asc: $full" $printers --join sum.txt nodata.asc pit.asc
    record 1 0 7 0 >earlier.txt
    record 1 0 7 $most >tie.txt
    record 1 0 8 $most >later.txt
    [ "$(values --join earlier.txt --join tie.txt | cut -d' ' -f1,11,12)" = '2 7 0' ] || fail "the map of a greatest that is not kept"
    no_report 1 "later.txt: $full" --join earlier.txt --join later.txt
}

# spoiled_report EDIT LINE WORDS: a saved report after an edit is refused, with its line and the reason.
spoiled_report() {
    sed "$1" whole.txt >spoiled.txt
    ! cmp -s spoiled.txt whole.txt || fail "the edit $1 changes nothing"
    no_report 2 "--join: spoiled.txt: line $2: $3" pit.asc --join spoiled.txt
}

# Saved reports that can't be read.
no_saved() {
    digits='is not a number in decimal digits below 2^64 without leading zeros'
    spoiled_report 's/^valid/Valid/' 2 'expected `valid` and its value, not `Valid '
    spoiled_report '3d' 3 'expected `channel` and its value, not `zero '
    spoiled_report '3{h;d};4G' 3 'expected `channel` and its value, not `zero '
    spoiled_report 's/^maps /maps 0/' 1 "\`04\` $digits"
    spoiled_report 's/^maps .*/maps 18446744073709551616/' 1 "\`18446744073709551616\` $digits"
    spoiled_report 's/^maps .*/maps -1/' 1 "\`-1\` $digits"
    spoiled_report 's/^maps .*/maps none/' 1 "\`none\` $digits"
    spoiled_report 's/$/\r/' 1 "\`4\\r\` $digits"
    spoiled_report 's/^greatest_cell .*/greatest_cell none/' 13 "\`none\` $digits"
    spoiled_report 's/^greatest .*/greatest none/' 12 '`greatest` is none, so `greatest_map` has to be none, not `2`'
    spoiled_report '13d' 13 'expected `greatest_cell` and its value, but the text ends here'
    spoiled_report '$p' 14 'nothing may follow `greatest_cell`, but there is `greatest_cell 2\n`'
    length=$(($(wc -c <whole.txt) - 1))
    while [ "$length" -ge 0 ]; do
        head -c "$length" whole.txt >spoiled.txt
        ! "$lsmap" report --join spoiled.txt >out 2>err || fail "a report cut to $length bytes is read"
        [ ! -s out ] || fail "a report cut to $length bytes is printed"
        length=$((length - 1))
    done
    no_report 2 '--join: pit.asc: line 1: expected `maps` and its value, not `ncols 3' pit.asc --join pit.asc
}

# A line for each field where standard error is a terminal, and none with --quiet.
progress() {
    command -v script >out || { echo "host/check: no script(1), the progress is skipped"; return; }
    script -qec "'$lsmap' report --jobs 1 $printers pit.asc nodata.asc >kept.txt" /dev/null | tr -d '\r' >out
    summary='lsmap: 1 of 2, pit\.asc: 9 cells, 9 valid, longest trail 2, greatest LS 0\.54379, [0-9]+\.[0-9]{2} s'
    [ "$(wc -l <out)" -eq 2 ] && head -n 1 out | grep -qxE "$summary" || fail "the progress: $(cat out)"
    tail -n 1 out | grep -qE '^lsmap: 2 of 2, nodata\.asc: 2 cells, 0 valid, longest trail 0, greatest LS none, ' || fail "the progress: $(cat out)"
    script -qec "'$lsmap' report --quiet pit.asc" /dev/null >out
    [ ! -s out ] || fail "report --quiet on a terminal: $(cat out)"
}
