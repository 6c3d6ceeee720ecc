#!/bin/bash
# Runs the program and the second checker on books of the program, of both versions and of tables, and on thousands of
# changed ones, and prints the first on which they differ.
#
# usage: check/compare.sh PROGRAM
set -euo pipefail
program=$(realpath "$1")
check=$(dirname "$(realpath "$0")")
folder=$(mktemp -d)
trap 'rm -r "$folder"' EXIT
mkdir "$folder/made" "$folder/changed"

# Books of tables, ordinary ones, in blocks and in split plots.
make_tables() {
    local words
    for words in "2 3 8" "2 4 6" "3 2 5" "3 3 5" "4 2 6" "9 2 4" "2 3 6 --blocks=2" "2 4 5 --blocks=4 --order=W1" \
        "2 4 6 --order=CLEAR" "3 2 4 --blocks=3 --order=SCF" "2 4 4 --whole-plots=4 --inside=2 --order=W2"; do
        (cd "$folder/made" && "$program" tables $words > "$folder/listing" || true)
    done
}

# The books of the examples, and small ones: of a resolution, a pattern, effects, blocks, words of many letters.
make_books() {
    for example in "$check"/../crates/examples/data/*.sas; do
        (mkdir "$folder/run" && cd "$folder/run" && "$program" run < "$example" > "$folder/listing" || true)
        for book in "$folder"/run/*.book; do
            [ -e "$book" ] && mv "$book" "$folder/made/$(basename "$example" .sas)-$(basename "$book")"
        done
        rm -r "$folder/run"
    done
    (
        cd "$folder/made"
        "$program" run > "$folder/listing" <<'PROGRAM' || true
proc factex; factors A B C D E; size design=8; model resolution=4; run;
proc factex; factors A B C D; size design=8; model resolution=3 / minabs; run;
proc factex; factors A B C D / nlev=3; size design=9; model estimate=(A B C D A*B); run;
proc factex; factors A B C D; size design=8; model resolution=4; blocks nblocks=4; run;
proc factex; factors A B C / nlev=4; size design=16; model resolution=4; run;
proc factex; factors F1-F12; size design=16; model resolution=10; run;
PROGRAM
    )
}

make_books
make_tables
for book in "$folder"/made/*.book; do
    # Books of more lines are compared as they are.
    if [ "$(wc -l < "$book")" -le 30 ]; then small+=("$book"); else cp "$book" "$folder/changed/$(basename "$book")"; fi
done
python3 "$check/changed_books.py" "$folder/changed" "${small[@]}"

count=0
for book in "$folder"/changed/*; do
    ours=$("$program" check < "$book") && status=0 || status=$?
    theirs=$(python3 "$check/check_book.py" < "$book") && other=0 || other=$?
    if [ "$ours$status" != "$theirs$other" ]; then
        printf 'they differ on this book:\n'
        cat "$book"
        printf 'the program, with status %s:\n%s\nthe second checker, with status %s:\n%s\n' \
            "$status" "$ours" "$other" "$theirs"
        exit 1
    fi
    count=$((count + 1))
done
echo "they agree on $count books"
