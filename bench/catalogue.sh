#!/bin/bash
# Makes each table of catalogue.txt and of the folder tables/ anew, compares it and the books in that folder, and has each
# book checked by the program and by the second checker. The gate does not run it.
#
# usage: bench/catalogue.sh ./factex [PART]     with PART only the tables whose command has it, as '2 4 ' or 'tables '
set -euo pipefail
program=$(realpath "$1")
part=${2:-}
top=$(dirname "$(dirname "$(realpath "$0")")")
folder=$(mktemp -d)
trap 'rm -r "$folder"' EXIT

# A table is a command, and the lines that it prints.
awk -v folder="$folder" '
    /^\.\/factex / { n++; sub(/^\.\/factex /, ""); print > (folder "/" n ".words"); next }
    NF { print > (folder "/" n ".lines") }
' "$top/bench/catalogue.txt" "$top"/tables/*.txt

for table in $(ls "$folder" | sed -n 's/\.words$//p' | sort -n); do
    read -ra words < "$folder/$table.words"
    [[ "${words[*]} " == *"$part"* ]] || continue
    mkdir "$folder/run"
    start=$SECONDS
    (cd "$folder/run" && "$program" "${words[@]}" > "$folder/listing") && status=0 || status=$?
    if [ "$status" -gt 1 ] || ! diff "$folder/$table.lines" "$folder/listing"; then
        echo "${words[*]}: status $status, or not its lines"
        exit 1
    fi
    made=$((SECONDS - start))
    count=0
    for book in "$folder"/run/*.book; do
        "$program" check < "$book" > "$folder/ours"
        python3 "$top/check/check_book.py" < "$book" > "$folder/theirs"
        cmp "$folder/ours" "$folder/theirs"
        if [ "${words[0]}" = tables ]; then cmp "$book" "$top/tables/books/$(basename "$book")"; fi
        count=$((count + 1))
    done
    echo "${words[*]}: the same, in $made s; $count books of $(du -bc "$folder"/run/*.book | tail -1 | cut -f1) bytes accepted by both"
    rm -r "$folder/run"
done
