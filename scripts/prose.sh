#!/bin/sh
# Checks the English of the documents by what docs/STYLE.md asks and a machine can see: README.md, docs/*.md, the README of each crate, and
# the doc comments of crates/store/src. It prints `FILE:LINE: what` for each of these, and ends with status 1 if there is any:
#   a sentence of more than 30 words;
#   "behind", for which "after" is meant ("left behind" and "lags behind" are let through);
#   "where" for "if" or "when" (after a word of place, as in "the place where", it is let through);
#   a cell of a table with more than 200 characters;
#   a line of more than 160 columns, outside of tables.
# Code, in blocks or between backticks, is not read; a piece between backticks counts as one word.
# With --count it prints how many of them each file has, most first. With names of files it reads these alone.
set -eu
count=
if [ "${1-}" = --count ]; then
    count=yes
    shift
fi
if [ $# = 0 ]; then
    cd "$(dirname "$(dirname "$(readlink -f "$0")")")"
    set -- README.md docs/*.md crates/*/README.md crates/store/src/*.rt
fi
for file; do
    [ -r "$file" ] || { echo "prose: cannot read $file" >&2; exit 2; }
done
LC_ALL=C awk -v count="$count" '
function hit(line, what) {
    hits[name]++
    all++
    if (count == "") print name ":" line ": " what
}
# How many characters a text has, whose bytes awk sees.
function characters(text) {
    gsub(/[\200-\277]/, "", text)
    return length(text)
}
# The text as it is read: code is one word, and a link its text.
function shown(text,    ends, lines, word) {
    while (match(text, /`[^`]*`/)) {
        word = substr(text, RSTART, RLENGTH)
        lines = gsub(/\n/, "", word)
        ends = substr(text, RSTART + RLENGTH)
        text = substr(text, 1, RSTART - 1) "CODE"
        # Words that follow at once, as a stop, belong to the code.
        if (lines && match(ends, /^[^ \n]+/)) {
            text = text substr(ends, 1, RLENGTH)
            ends = substr(ends, RLENGTH + 1)
        }
        for (; lines > 0; lines--) text = text "\n"
        text = text ends
    }
    gsub(/\]\([^)]*\)/, "]", text)
    return text
}
# Whether a word before it makes a "where" one of place.
function is_place(word) {
    gsub(/[^a-z]/, "", word)
    return word ~ /^(places?|points?|pages?|folders?|files?|lines?|columns?|offsets?|says?|tells?|shows?|knows?|finds?|sees?|from|of|asks?|is|are|to)$/
}
function sentence_ends(word, next_word) {
    if (word !~ /[.!?][])"*_\047]*$/ || word ~ /\.\.[])"*_\047]*$/) return 0
    if (word ~ /^[(]?(e\.g|i\.e|al|vs|cf|etc)\.$/) return 0
    sub(/^[("*_\047]+/, "", next_word)
    return next_word !~ /^[a-z]/
}
# Reads a paragraph, a heading, a piece of a list or a cell, which begins at a line.
function read(text, line,    words, w, i, n, c, bare, begins, first, before, length_of, parts, p, at) {
    text = shown(text)
    parts = split(text, part, "\n")
    n = 0
    for (p = 1; p <= parts; p++) {
        words = split(part[p], w, /[ \t]+/)
        for (i = 1; i <= words; i++)
            if (w[i] != "") { said[++n] = w[i]; stands[n] = line + p - 1 }
    }
    length_of = 0
    before = ""
    for (i = 1; i <= n; i++) {
        bare = tolower(said[i])
        if (length_of == 0) { begins = stands[i]; first = ""; at = 0 }
        if (bare ~ /[a-z0-9]/) length_of++
        if (at++ < 6) first = first (first == "" ? "" : " ") said[i]
        gsub(/[^a-z-]/, "", bare)
        if (bare == "behind" && before !~ /^(left|leaves?|leaving|lags?|lagging|falls?|fell|fallen)$/)
            hit(stands[i], "behind: " before " " said[i] " " (i < n ? said[i + 1] : ""))
        if (bare == "where" && said[i] ~ /[eE]$/ && (i == 1 || previous ~ /[,;:]$/ || length_of == 1 || !is_place(before)))
            hit(stands[i], "where: " before " " said[i] " " (i < n ? said[i + 1] : ""))
        previous = said[i]
        before = bare
        if (i == n || sentence_ends(said[i], said[i + 1])) {
            if (length_of > 30) hit(begins, length_of " words: " first " ..")
            length_of = 0
            before = ""
        }
    }
}
function end_of_text() {
    if (held != "") read(held, held_at)
    held = ""
}
function read_row(row, line,    cells, i, cell) {
    gsub(/\\\|/, "/", row)
    cells = split(row, cell, "|")
    for (i = 2; i < cells; i++) {
        gsub(/^ +| +$/, "", cell[i])
        if (cell[i] ~ /^:?-+:?$/) continue
        long = cell[i]
        gsub(/\]\([^)]*\)/, "", long)
        gsub(/[][`]/, "", long)
        if (characters(long) > 200) hit(line, "a cell of " characters(long) " characters")
        read(cell[i], line)
    }
}
FNR == 1 {
    end_of_text()
    name = FILENAME
    fenced = in_code = in_list = 0
    blank = 1
    is_source = name ~ /\.rt$/
}
{
    text = $0
    if (is_source) {
        if (!sub(/^ *\/\/[\/!] ?/, "", text)) { end_of_text(); fenced = in_code = in_list = 0; blank = 1; next }
    }
    if (text !~ /^ *\|/ && characters($0) > 160) hit(FNR, "a line of " characters($0) " columns")
    if (text ~ /^ *```/) { end_of_text(); fenced = !fenced; next }
    if (fenced) next
    if (text ~ /^ *$/) { end_of_text(); blank = 1; next }
    match(text, /^ */)
    indent = RLENGTH
    if (indent >= (in_list ? 6 : 4) && (blank && held == "" || in_code)) { in_code = 1; blank = 0; next }
    in_code = 0
    if (blank && indent == 0 && text !~ /^([-*]|[0-9]+\.) /) in_list = 0
    blank = 0
    if (text ~ /^ *\|/) { end_of_text(); read_row(text, FNR); next }
    if (text ~ /^ *([-*]|[0-9]+\.) /) { end_of_text(); in_list = 1; sub(/^ *([-*]|[0-9]+\.) +/, "", text) }
    if (text ~ /^#+ /) { end_of_text(); sub(/^#+ +/, "", text); read(text, FNR); next }
    if (text ~ /^<.*>$/) { end_of_text(); next }
    if (held == "") { held = text; held_at = FNR } else held = held "\n" text
}
END {
    end_of_text()
    if (count != "") {
        order = "sort -k1,1nr -k2"
        for (file in hits) printf "%5d %s\n", hits[file], file | order
        close(order)
        if (all) printf "%5d in all\n", all
    }
    exit all > 0
}' "$@"
