# The figures as a table: call, what it is given, operations that the rule needs, instructions of ours, of plain C and of the text, and
# ratios.
BEGIN {
    FS = "\t"
    print "| call | given | floor | ours | plain C | ours / C | the Rust | ours / the Rust |"
    print "|---|---|---|---|---|---|---|---|"
}

{ printf "| %s | %s | %s | %s | %s | %.2f | %s | %s |\n", $1, $2, grouped($3), grouped($4), grouped($6), $4 / $6, $5 == "-" ? "" : grouped($5), $5 == "-" ? "" : sprintf("%.2f", $4 / $5) }

# A whole number with commas between groups of three digits.
function grouped(n) {
    while (match(n, /^[0-9][0-9][0-9][0-9]+/)) n = substr(n, 1, RLENGTH - 3) "," substr(n, RLENGTH - 2)
    return n
}
