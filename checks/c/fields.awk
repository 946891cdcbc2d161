# The structs that go to the library and back, as include/ipcsh.h, crates/ipc_abi or rust/ has them: of each a line with the types of its
# fields, in their order. Where these are the same, so is the layout, since each is laid out as C does it.
function told(type) {
    if (type == "SemFlags") return "u16" # #[repr(transparent)]
    if (type ~ /^u?int[0-9]+_t$/) return (type ~ /^u/ ? "u" : "i") substr(type, match(type, /[0-9]/), match(type, /_/) - match(type, /[0-9]/))
    return type
}

# What follows a type in C: names, and lengths of arrays.
function add_names(type, names, count, i, parts) {
    count = split(names, parts, ",")
    for (i = 1; i <= count; i++) line = line " " (parts[i] ~ /\[/ ? "[" type ";" substr(parts[i], index(parts[i], "[") + 1) : type)
}

/^struct ipcsh_(limits|client|semop|request|reply|object) \{$/ { line = substr($2, 7); is_c = 1; next }
/^#\[repr\(C\)\]$/ { is_laid_out = 1 }
/^pub(\(crate\))? struct / {
    name = tolower($(NF - 1))
    sub(/^raw/, "", name)
    sub(/oper$/, "op", name)
    if (is_laid_out && name ~ /^(limits|client|semop|request|reply|object)$/) line = name
    is_laid_out = is_c = 0
    next
}
/^}/ { if (line != "") print line; line = ""; next }
line != "" && is_c {
    gsub(/\/\*.*\*\//, "")
    type = $1
    $1 = ""
    gsub(/[ ;]/, "")
    if (type != "") add_names(told(type), $0)
}
line != "" && !is_c && /^ *pub(\(crate\))? [a-z_]+: / {
    sub(/.*: /, "")
    gsub(/[ ,]/, "")
    line = line " " told($0)
}
