# Of what `./bench instructions` prints, and of the table in docs/SPEED.md with rows `| NAME, SIZE UNIT | INSTRUCTIONS |`: the rows whose figure
# is off by more than a fifth, and a line where less than ten were compared.
FILENAME == ARGV[1] {
    name = substr($0, 1, 35)
    sub(/^Space::apply, /, "", name)
    sub(/ +$/, "", name)
    split(substr($0, 36), column, " ")
    counted[name ", " column[1] " " column[2]] = column[3]
    next
}

/^\| .* \| [0-9,]+ \|$/ {
    split($0, cell, " *\\| *")
    if (!(cell[2] in counted)) next
    told = cell[3]
    gsub(/,/, "", told)
    told += 0
    compared++
    if (told > counted[cell[2]] * 1.2 || told < counted[cell[2]] * 0.8) print cell[2] ": " told " told, " counted[cell[2]] " counted"
}

END { if (compared < 10) print compared + 0 " figures compared" }
