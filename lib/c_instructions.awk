# Of what `./bench c` prints, and of the table in docs/C.md with rows `| NAME | FROM C | IN RATTLE |`: the rows of which a figure is off by more
# than a fifth, and a line where less than five were compared.
FILENAME == ARGV[1] {
    name = substr($0, 1, 35)
    sub(/ +$/, "", name)
    split(substr($0, 36), column, " ")
    from_c[name] = column[1]
    in_rattle[name] = column[2]
    next
}

/^\| .* \| [0-9,]+ \| [0-9,]+ \|$/ {
    split($0, cell, " *\\| *")
    if (!(cell[2] in from_c)) next
    compared++
    differs(cell[2] " from C", cell[3], from_c[cell[2]])
    differs(cell[2] " in Rattle", cell[4], in_rattle[cell[2]])
}

END { if (compared < 5) print compared + 0 " rows compared" }

function differs(name, told, counted) {
    gsub(/,/, "", told)
    told += 0
    if (told > counted * 1.2 || told < counted * 0.8) print name ": " told " told, " counted " counted"
}
