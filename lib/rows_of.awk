# Prints the rows of a client out of what ipcsh prints, without place and turn: awk -v client=NAME -f rows_of.awk.
# Lines that begin with a blank go with the row above them, and those that begin with `pair` are printed as they stand.
/^pair / { print; next }
/^[^ ]/ { mine = $2 == client; sub(/^[^ ]* /, "") }
mine
