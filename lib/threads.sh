# The pictures and tables of `./bench threads`. ./bench and ./check read it, with `top` set to the folder of the repository.

# draw_threads ROWS FOLDER: the pictures of the documents.
draw_threads() {
    drawn threads_picture "$1" -v objects=own >"$2/threads.svg"
    drawn threads_picture "$1" -v objects=one >"$2/one-object.svg"
    drawn one_client_picture "$1" >"$2/one-client.svg"
    drawn hand_over_picture "$1" >"$2/hand-over.svg"
}

# drawn NAME ROWS FLAG..: what lib/NAME.awk draws of the rows.
drawn() (
    name=$1
    rows=$2
    shift 2
    awk "$@" -f "$top/lib/svg.awk" -f "$top/lib/threads_words.awk" -f "$top/lib/$name.awk" "$rows"
)

# table_of_threads ROWS OBJECTS: the table of the documents, of clients at objects of their own (own) or all at the same (one).
table_of_threads() {
    awk -v objects="$2" -f "$top/lib/threads_words.awk" -f "$top/lib/threads_markdown.awk" "$1"
}
