# Sourced by variants, from the repository's root: how the text of an edit is replaced.
#
# An edit is a file of lines. A line `file: PATH` holds for the pairs after it; a pair is a line `old: TEXT` and a line `new: TEXT`,
# and means that TEXT, which stands in the file once, is replaced. All other lines are words for the reader: the first says what is
# wrong with the program that comes out.

# Replaces the text $2, which must stand once in the file $1, by $3.
replace_once() {
    [ -f "$1" ] || {
        echo "there is no file $1"
        return 1
    }
    OLD=$2 NEW=$3 awk '
        { text = text $0 "\n" }
        END {
            old = ENVIRON["OLD"]
            at = old == "" ? 0 : index(text, old)
            rest = substr(text, at + length(old))
            if (!at || index(rest, old)) exit 1
            printf "%s%s%s", substr(text, 1, at - 1), ENVIRON["NEW"], rest
        }' "$1" >"$1.edited" && mv "$1.edited" "$1" && return
    rm -f "$1.edited"
    echo "the text '$2' does not stand once in $1"
    return 1
}
