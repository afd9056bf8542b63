# The cases of two farms for host/check, which reads this file after the others: it has the fields that those make.

# marked HEADER MARKS: the text of the farms' marks, marks.asc.
marked() {
    printf '%s\n%b\n' "$1" "$2" >marks.asc
}

# all_of MARK COLUMNS ROWS: the marks of a field that one farm has alone, marks.asc.
all_of() {
    awk -v head="$(shape "$2" "$3")" -v mark="$1" -v cells="$(($2 * $3))" \
        'BEGIN { print head; for (x = 0; x < cells; x++) print mark }' >marks.asc
}

# second FLAGS...: the flags of settings as those of farm 1.
second() {
    echo "$*" | sed 's/\(--[a-z]*\)/\11/g'
}

# Settings that differ from the printer's and from the defaults, each of them.
others='--low 0.1 --high 0.9 --channel cells:3 --steepness newer'

# alone COLUMNS ROWS WORDS...: a field that one farm has alone has the sheet and the texts of its settings as those of one farm,
# whatever the other's are.
alone() {
    columns=$1 rows=$2
    shift 2
    "$lsmap" "$@" $printers --text own >own.txt
    all_of 0 "$columns" "$rows"
    "$lsmap" "$@" --farms marks.asc $printers $(second $others) --text back | cmp - own.txt || fail "all of farm 0: $*"
    diff -r own back || fail "the texts, all of farm 0: $*"
    all_of 1 "$columns" "$rows"
    "$lsmap" "$@" --farms marks.asc $others $(second $printers) --text back | cmp - own.txt || fail "all of farm 1: $*"
    diff -r own back || fail "the texts, all of farm 1: $*"
    ! "$lsmap" "$@" --farms marks.asc $printers $(second $others) | cmp -s - own.txt || fail "the settings tell nothing: $*"
}

# Fields of one farm alone, by text, by floats and by given directions; two stripes, each with its own settings; on disk, and
# from standard input.
farms() {
    for field in pit hole; do alone 3 3 "$field.asc"; done
    alone 1024 1024 full.asc
    alone 3 3 --floats pit.flt pit.hdr
    drawn "$head" '2 4 4\n1 1 0\n1 64 64'
    alone 3 3 pit.asc --directions codes.asc
    alone 3 3 --floats pit.flt --directions codes.asc pit.hdr
    printf '%s\n9 8 7 5\n9 8 7 5\n' "$(shape 4 2)" >twin.asc
    "$lsmap" twin.asc $printers >first.txt
    "$lsmap" twin.asc $others --grids grids >second.txt
    ! cmp -s first.txt second.txt || fail "the settings of two stripes tell nothing"
    marked "$(shape 4 2)" '0 0.00 00 0\n1 1.0 01 1'
    { head -n 5 first.txt; tail -n 4 second.txt; } >wanted
    "$lsmap" twin.asc --farms marks.asc $printers $(second $others) | cmp - wanted || fail "two stripes"
    "$lsmap" twin.asc --farms marks.asc $printers $(second $others) --output sheet.txt --grids striped
    cmp sheet.txt wanted || fail "two stripes as a file"
    [ "$(od -An -tu8 -v striped/length.bin | tr -s ' \n' ' ')" = "$(awk 'NR > 1 { printf " %s", $7 } END { print " " }' wanted)" ] || fail "the lengths of two stripes on disk"
    for grid in ground filled direction count; do cmp "striped/$grid.bin" "grids/$grid.bin" || fail "$grid goes by settings"; done
    "$lsmap" twin.asc --farms - $printers $(second $others) <marks.asc | cmp - wanted || fail "marks from standard input"
    "$lsmap" - --farms marks.asc $printers $(second $others) <twin.asc | cmp - wanted || fail "a field from standard input beside marks"
    "$lsmap" twin.asc --farms missing.asc --farms marks.asc $printers $(second $others) | cmp - wanted || fail "of --farms given twice the last one"
    { head -n 1 first.txt; sed -n 2,5p second.txt; tail -n 4 first.txt; } >wanted
    "$lsmap" twin.asc --farms marks.asc $others $(second $printers) | cmp - wanted || fail "two stripes exchanged"
    marked "$(shape 4 2) nodata_value 7" '0 0 0 0\n1 1 1 1'
    "$lsmap" twin.asc --farms marks.asc $others $(second $printers) | cmp - wanted || fail "a NoData number that no mark has"
    marked "$head" '1 0 0\n0 0 0\n0 0 0'
    "$lsmap" hole.asc --farms marks.asc --quiet >out
    [ ! -s out ] || fail "--quiet prints the sheet of two farms"
}

# shared NUMBER HEIGHTS MARKS WORDS...: the Nth number of each cell of a strip of two farms.
shared() {
    number=$1 heights=$2
    marked "$(shape "$(echo "$3" | wc -w)" 1)" "$3"
    shift 3
    column "$number" "$heights" --farms marks.asc "$@"
}

# Strips that two farms share. The receiving cell's farm supplies the cutoffs, the channel rule and the formula; the percentage
# is of the largest count of both; a setting of farm 1 that no flag gives is the default, and not farm 0's.
shared_strips() {
    none='--channel none --channel1 none'
    [ "$(shared 7 '9 8 7 6' '0 0 1 1' --channel cells:1 --channel1 none --low1 1.0)" = ' 5000 0 10000 20000' ] || fail "a channel of farm 0 into farm 1"
    [ "$(shared 7 '9 8 7 6' '1 1 0 0' --channel1 cells:1 --channel none --low 1.0)" = ' 5000 0 10000 20000' ] || fail "a channel of farm 1 into farm 0"
    [ "$(shared 7 '9 8 7 6' '0 0 1 0' --channel cells:1 --channel1 none --low1 1.0)" = ' 5000 0 10000 0' ] || fail "a channel with a gap"
    [ "$(shared 7 '9 8 7 6' '1 0 1 1' --channel cells:1 --channel1 none --low1 1.0)" = ' 5000 0 10000 20000' ] || fail "a channel of one cell"
    [ "$(shared 7 '9 8 7 6' '0 0 1 1' --channel percent:50.0 --channel1 none --low1 1.0)" = ' 5000 15000 25000 35000' ] || fail "a percentage of farm 0's own largest count"
    [ "$(shared 7 '9 8 7 6' '0 1 1 0' --channel none --channel1 percent:50.0 --low 1.0)" = ' 5000 15000 0 10000' ] || fail "farm 1's percentage"
    [ "$(shared 7 '9 7 6' '0 1 1' $none --high1 0.51)" = ' 5000 15000 0' ] || fail "farm 1's high cutoff on its own cell"
    [ "$(shared 7 '9 7 6' '1 0 0' $none --high1 0.51)" = ' 5000 0 0' ] || fail "farm 1's high cutoff on a cell of farm 0"
    [ "$(shared 7 '9 7 6' '1 0 1' $none --high 0.51)" = ' 5000 15000 0' ] || fail "farm 0's high cutoff on its own cell"
    [ "$(shared 7 '9 7 6' '0 1 0' $none --high 0.51)" = ' 5000 0 0' ] || fail "farm 1's default high cutoff"
    [ "$(shared 7 '9 8.6 8.44 8.4' '1 0 0 0' $none --low1 0.5)" = ' 5000 15000 0 0' ] || fail "farm 1's low cutoff on a cell of farm 0"
    [ "$(shared 7 '9 8.6 8.44 8.4' '0 1 0 0' $none --low1 0.5)" = ' 5000 0 0 0' ] || fail "farm 1's low cutoff on its own cell"
    [ "$(shared 7 '9 8.6 8.44 8.4' '0 1 0 0' $none --low 0.5)" = ' 5000 15000 0 0' ] || fail "farm 1's default low cutoff"
    [ "$(shared 7 '9 8 7 6' '1 1 1 1' --channel none)" = ' 0 0 0 0' ] || fail "farm 1's default channel rule"
    [ "$(shared 8 '9 8.1' '0 1' $none --low 1.0 --low1 1.0 --steepness1 newer)" = ' 46436 3680' ] || fail "the newer formula in farm 1"
    [ "$(shared 8 '9 8.1' '1 0' $none --low 1.0 --low1 1.0 --steepness1 newer)" = ' 46765 5980' ] || fail "the newer formula in farm 1, upstream"
    [ "$(shared 8 '9 8.1' '0 1' $none --low 1.0 --low1 1.0 --steepness newer)" = ' 46765 5980' ] || fail "farm 1's default formula"
}

# The settings of both farms and the files, on standard error.
farms_told() {
    marked "$head" '0 0 0\n0 1 0\n0 0 0'
    printf 'lsmap: farm 0: %s\nlsmap: farm 1: %s\nlsmap: farms of pit.asc marked by marks.asc\n' \
        'low 0.7, high 0.4, channel percent:1, steepness older' 'low 0.1, high 0.5, channel cells:9, steepness newer' >wanted
    "$lsmap" pit.asc --farms marks.asc --high 0.4 --low1 0.1 --channel1 cells:9 --steepness1 newer --verbose 2>&1 >out | cmp - wanted || fail "--verbose of two farms"
    "$lsmap" report pit.asc --farms marks.asc --high 0.4 --low1 0.1 --channel1 cells:9 --steepness1 newer --verbose 2>&1 >out | cmp - wanted || fail "report --verbose of two farms"
    ! "$lsmap" pit.asc --verbose 2>&1 >out | grep -q farm || fail "--verbose tells of farms that are not there"
    "$lsmap" --help | grep -q 'lsmap \[flags\] --farms MARKS.asc FIELD.asc' || fail "farms in --help"
}

# unmarked FIELD PLACE WORDS MARKS: the mark at a place is none, and the message says where and which.
unmarked() {
    marked "$head" "$4"
    stops 1 "refused 19 at $2" "marks.asc: refused 19 at $2: $3: a mark is 0 or 1, in NoData cells too, and never the NoData number" "$1" --farms marks.asc
}

# Marks that are no farm; of several the first decides; on NoData too; after the settings and before given directions.
no_marks() {
    for mark in 2 255 256 300 1.5 0.01 1.99 -1 -0.5 -9999 -9999.00 002; do
        unmarked pit.asc 5 "row 1, column 2, \`$mark\`" "0 1 0\n1 1 $mark\n0 0 3"
    done
    unmarked hole.asc 0 'row 0, column 0, `2`' '2 0 0\n0 0 0\n0 0 0'
    unmarked hole.asc 0 'row 0, column 0, `-9999`' '-9999 0 0\n0 0 0\n0 0 0'
    unmarked pit.asc 8 'row 2, column 2, `7`' '0 0 0\n0 0 0\n0 0 7'
    marked "$head nodata_value 1" '0 0 0\n0 0 0\n0 0 1'
    stops 1 'refused 19 at 8' 'row 2, column 2, `1`: a mark is 0 or 1, in NoData cells too, and never the NoData number' pit.asc --farms marks.asc
    stops 1 'refused 19 at 8' 'standard input: refused 19 at 8: row 2, column 2, `1`' pit.asc --farms - <marks.asc
    stops 1 'refused 19 at 8' 'marks.asc: refused 19 at 8' --floats pit.flt pit.hdr --farms marks.asc
    drawn "$head" '64 4 4\n1 1 0\n128 64 64'
    stops 1 'refused 19 at 8' 'marks.asc: refused 19 at 8' pit.asc --farms marks.asc --directions codes.asc
    marked "$head" '0 0 0\n1 1 1\n0 0 0'
    stops 1 'refused 17 at 0' 'codes.asc: refused 17 at 0: row 0, column 0, `64`: points north, off the grid' pit.asc --farms marks.asc --directions codes.asc
    drawn "$head" '2 4 4\n1 1 64\n128 64 64'
    stops 1 'refused 17 at 5' 'points north and uphill: from a filled height of 4.00 m to 5.00 m at row 0, column 2' pit.asc --farms marks.asc --directions codes.asc $others
    drawn "$head" '2 4 4\n1 1 16\n128 64 64'
    stops 1 'refused 18 at 4' 'codes.asc: refused 18 at 4: a trail goes round: row 1, column 1; row 1, column 2; and back to the first' pit.asc --farms marks.asc --directions codes.asc
}

# refused_setting PLACE WORDS FLAGS...: the flags of two farms are refused at a place, before a mark that is no good.
refused_setting() {
    place=$1 words=$2
    shift 2
    stops 1 "refused 4 at $place" "pit.asc: refused 4 at $place: $words" pit.asc --farms marks.asc "$@"
}

# Settings that are refused, by their places, also of a farm that no cell names; farm 0's come before farm 1's.
no_farm_settings() {
    marked "$head" '0 0 0\n0 0 0\n0 0 2'
    refused_setting 1 "farm 0's --low is a cutoff: 0.00, 0.01 and so on up to 1.00" --low 0.505 --low1 2
    refused_setting 2 "farm 0's --high is a cutoff" --high 1.01 --low1 2
    refused_setting 3 "farm 0's --channel percent:P takes 0.0, 0.1 and so on up to 100.0" --channel percent:100.1 --low1 2
    refused_setting 4 "farm 1's --low1 is a cutoff: 0.00, 0.01 and so on up to 1.00" --low1 nan --high1 2
    refused_setting 5 "farm 1's --high1 is a cutoff" --high1 -0.01 --channel1 percent:-1
    refused_setting 6 "farm 1's --channel1 percent:P takes 0.0, 0.1 and so on up to 100.0" --channel1 percent:0.05
    all_of 0 3 3
    refused_setting 5 "farm 1's --high1 is a cutoff" --high1 2
    all_of 1 3 3
    refused_setting 2 "farm 0's --high is a cutoff" --high 2
    drawn "$head" '3 3 3\n3 3 3\n3 3 3'
    refused_setting 6 "farm 1's --channel1 percent:P" --channel1 percent:101 --directions codes.asc
    for flag in --low1 --high1 --channel1 --steepness1; do
        stops 2 '' "$flag wants a value" pit.asc --farms marks.asc "$flag"
    done
    for words in '--low1 0.5' '--high1 2' '--channel1 none' '--steepness1 newer'; do
        stops 2 '' "${words% *}: farm 1 has settings only beside --farms" pit.asc $words
    done
    stops 2 '' '--low1, --steepness1: farm 1 has settings only beside --farms' pit.asc --low1 0.5 --low 0.5 --steepness1 newer
    stops 2 '' '--low1: "half" is not a number' pit.asc --farms marks.asc --low1 half
    stops 2 '' '--channel1 cells:N: "1.5" is not a number' pit.asc --farms marks.asc --channel1 cells:1.5
    stops 2 '' '--channel1: "some" is none of none, cells:N, percent:P' pit.asc --farms marks.asc --channel1 some
    stops 2 '' '--steepness1: "new" is neither older nor newer' pit.asc --farms marks.asc --steepness1 new
    stops 2 '' '--low2: no such flag' pit.asc --farms marks.asc --low2 0.5
}

# Texts that are no marks, after the field, before given directions and the settings; files and words that are no good.
no_mark_texts() {
    marked "$(shape 9 1)" '0 0 0 0 0 0 0 0 2'
    stops 1 'refused 2 at 0' 'marks.asc: refused 2 at 0: 1 rows of 9 marks; the field has 3 rows of 3' pit.asc --farms marks.asc --low1 2
    stops 1 'refused 2 at 0' '1 rows of 9 marks; the field has 3 rows of 3' --floats pit.flt --farms marks.asc pit.hdr
    drawn "$(shape 2 1)" '1,5 0'
    stops 1 'refused 2 at 0' 'marks.asc: refused 2 at 0' pit.asc --directions codes.asc --farms marks.asc
    stops 1 'refused 12 at 54' 'comma.asc: refused 12 at 54 (line 2, column 3, at `12,5`)' comma.asc --farms marks.asc
    spoiled "$not"
    stops 1 'refused 15 at 5' 'spoiled.flt: refused 15 at 5' --floats spoiled.flt pit.hdr --farms marks.asc
    marked "$head" '0 0 0\n0,5 1 0\n0 0 0'
    stops 1 'refused 12 at 59' 'marks.asc: refused 12 at 59 (line 3, column 2, at `0,5`): a comma stands where a point belongs' pit.asc --farms marks.asc --directions codes.asc --low 2
    marked "$head" '0 0 0\n0 1 0\n0 0 0 0'
    stops 1 'refused 10 at 70' 'nothing may follow the last mark; the header asks for 3 rows of 3 marks' pit.asc --farms marks.asc
    marked "$head" '0 0 0\n0 1 0\n0 0'
    stops 1 'refused 9 at 68' 'marks.asc: refused 9 at 68 (line 5, column 1, at the end of the text)' pit.asc --farms marks.asc
    marked "$head" '0 0 65535\n0 1 0\n0 0 0'
    stops 1 'refused 5 at 56' '(line 2, column 5, at `65535`): a mark is 0 or 1' pit.asc --farms marks.asc
    marked "$head" '0 0 0.005\n0 1 0\n0 0 0'
    stops 1 'refused 8 at 56' 'marks.asc: refused 8 at 56 (line 2, column 5, at `0.005`): a digit after the second decimal has to be 0' pit.asc --farms marks.asc
    : >marks.asc
    stops 1 'refused 9 at 0' 'marks.asc: refused 9 at 0 (line 1, column 1, at the end of the text): the text ends too early' pit.asc --farms marks.asc
    stops 2 '' 'cannot read missing.asc: No such file or directory' pit.asc --farms missing.asc --directions folder.asc
    stops 2 '' 'cannot read folder.asc: Is a directory' pit.asc --farms folder.asc
    stops 2 '' 'cannot read missing.asc: No such file or directory' missing.asc --farms folder.asc
    stops 2 '' 'cannot read missing.flt: No such file or directory' --floats missing.flt pit.hdr --farms folder.asc
    stops 2 '' 'standard input, `-`, can be read only once' - --farms - <pit.asc
    stops 2 '' 'standard input, `-`, can be read only once' pit.asc --farms - --directions - <pit.asc
    stops 2 '' '--farms wants a value' pit.asc --farms --quiet
    stops 2 '' "--output: ./marks.asc is the farms' marks" pit.asc --farms marks.asc --output ./marks.asc
    all_of 0 3 3
    mv marks.asc own/count.asc
    stops 2 '' "--text: own/count.asc is the farms' marks" pit.asc --farms ./own/count.asc --text own
}

# Reports on maps of two farms: each field with its own marks, in order; a cell's channel rule is its farm's; whole, in parts and
# by any number of jobs.
farm_reports() {
    printf '%s\n9 8 7 6\n' "$(shape 4 1)" >falls.asc
    all_of 0 3 3 && mv marks.asc none.marks
    marked "$(shape 2 1)" '0 0' && mv marks.asc two.marks
    "$lsmap" report $printers pit.asc long.asc nodata.asc >wanted
    "$lsmap" report $printers $(second $others) --farms none.marks --farms two.marks --farms two.marks pit.asc long.asc nodata.asc | cmp - wanted || fail "a report, all of farm 0"
    marked "$(shape 4 1)" '0 0 0 1' && mv marks.asc lower.marks
    marked "$(shape 4 1)" '1 1 0 0' && mv marks.asc upper.marks
    rules='--channel cells:2 --channel1 none'
    [ "$(values falls.asc --farms lower.marks $rules | cut -d' ' -f1-3)" = '1 4 1' ] || fail "farm 0's channels in a report"
    [ "$(values falls.asc falls.asc --farms lower.marks --farms upper.marks $rules | cut -d' ' -f1-3)" = '2 8 3' ] || fail "two fields with their marks"
    [ "$(values falls.asc --farms lower.marks --channel none --channel1 cells:3 | cut -d' ' -f3)" = 1 ] || fail "farm 1's channels in a report"
    [ "$(values falls.asc --farms upper.marks --channel none --channel1 percent:25.0 | cut -d' ' -f3)" = 1 ] || fail "a percentage of the largest count of both"
    [ "$(values falls.asc --farms lower.marks --channel none | cut -d' ' -f3)" = 1 ] || fail "farm 1's default channel rule in a report"
    "$lsmap" report $others $(second $printers) --farms lower.marks --farms none.marks falls.asc pit.asc --save whole.txt >out
    cmp out whole.txt || fail "what is saved of two farms"
    sum=$({ "$lsmap" falls.asc --farms lower.marks $others $(second $printers)
        "$lsmap" pit.asc --farms none.marks $others $(second $printers); } | awk 'NF == 8 { sum += $8 } END { print sum }')
    [ "$(sed -n 's/^sum //p' whole.txt)" = "$sum" ] || fail "the sum of two farms"
    for number in 1 2 4; do
        "$lsmap" report --jobs "$number" falls.asc --farms lower.marks $others pit.asc --farms none.marks $(second $printers) | cmp - whole.txt || fail "two farms by $number jobs"
    done
    "$lsmap" report $others $(second $printers) --farms lower.marks falls.asc --save part-1.txt --quiet
    "$lsmap" report $others $(second $printers) --farms none.marks --join part-1.txt pit.asc | cmp - whole.txt || fail "parts of two farms"
    "$lsmap" report $others $(second $printers) --farms - --join part-1.txt pit.asc <none.marks | cmp - whole.txt || fail "a report's marks from standard input"
}

# Marks and words that are no good for a report.
no_farm_reports() {
    rule='--farms names one MARKS.asc for each field, in their order'
    no_report 2 "$rule; there are 1 for 2" --farms lower.marks falls.asc pit.asc
    no_report 2 "$rule; there are 2 for 1" --farms lower.marks --farms none.marks falls.asc
    no_report 2 "$rule; there are 1 for 0" --farms lower.marks --join whole.txt
    no_report 2 '--low1: farm 1 has settings only beside --farms' falls.asc --low1 0.5
    no_report 2 '--farms wants a value' falls.asc --farms
    no_report 2 'standard input, `-`, can be read only once' --farms - - <falls.asc
    no_report 2 '--save: ./lower.marks is the marks of a field' --farms lower.marks falls.asc --save ./lower.marks
    no_report 2 'cannot read missing.marks: No such file or directory' --farms missing.marks falls.asc
    no_report 1 'none.marks: refused 2 at 0: 3 rows of 3 marks; the field has 1 rows of 4' --farms none.marks --farms lower.marks falls.asc pit.asc
    no_report 1 "falls.asc: refused 4 at 5: farm 1's --high1 is a cutoff" --farms lower.marks falls.asc --high1 2
    no_report 1 "falls.asc: refused 4 at 1: farm 0's --low is a cutoff" --farms lower.marks falls.asc --low 2 --high1 2
    marked "$(shape 4 1)" '0 0 2 1'
    no_report 1 'marks.asc: refused 19 at 2: row 0, column 2, `2`: a mark is 0 or 1' --farms lower.marks --farms marks.asc falls.asc falls.asc
    for number in 1 2 4; do
        no_report 1 'marks.asc: refused 19 at 2' --jobs "$number" --farms lower.marks --farms marks.asc --farms missing.marks falls.asc falls.asc falls.asc
        no_report 1 'comma.asc: refused 12 at 54' --jobs "$number" --farms none.marks --farms marks.asc comma.asc falls.asc
    done
}
