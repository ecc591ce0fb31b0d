# asterix show SPEC... < BLOCKS | awk -v cols="048/140 048/240 048/040/RHO" -f show-to-csv.awk
# A line of CSV for each record that has one of the columns: the numbers of its block and record, and what each path has in it. A
# quantity is a decimal, a text stands in double quotes without blanks at its end, and anything else is the number.
BEGIN {
    many = split(cols, path, " ")
    printf "block,record"
    for (i = 1; i <= many; i++) {
        wanted[path[i]]
        printf ",%s", path[i]
    }
    print ""
}
function end_of_record(  i) {
    if (found) {
        printf "%s,%s", block, record
        for (i = 1; i <= many; i++) printf ",%s", value[path[i]]
        print ""
    }
    found = 0
    delete value
}
/^block / { end_of_record(); block = $2; next }
/^record / { end_of_record(); record = $2; next }
$1 in wanted {
    found = 1
    value[$1] = $3
    if ($4 ~ /^-?[0-9]+\/[0-9]+$/) {
        split($4, part, "/")
        value[$1] = sprintf("%.10g", part[1] / part[2])
    } else if (match($0, /".*"$/)) {
        value[$1] = substr($0, RSTART, RLENGTH)
        sub(/ +"$/, "\"", value[$1])
    } else if (NF == 4) {
        value[$1] = $4
    }
}
END { end_of_record() }
