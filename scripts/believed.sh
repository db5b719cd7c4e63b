#!/bin/sh
# Lists what a reader must believe for the law of the store: the definitions that it reaches by imports, each behind those
# that it uses, with its lines without imports, blank lines and comments, and their sum; then the sources of the types that
# they match. The table of docs/DEFINITIONS.md has to say the same, in that order, and the sum may not be above 1,700:
# what a turnover of a log writes, and which ids are retired, are part of what a run is.
# With files, as `scripts/believed.sh crates/world/specs/Lawful.antt`, it lists what those reach, and compares nothing.
set -eu
cd "$(dirname "$(dirname "$(readlink -f "$0")")")"
law=crates/world/specs/Headline.antt
limit=1700
found=$(mktemp)
told=$(mktemp)
trap 'rm -f "$found" "$told"' EXIT

# Lines `LINES crate: File`, in the order of crates.txt, then `types crates/NAME/src/FILE.rt`.
reached() {
    awk -v files="$*" '
    function is_file(path,    line, got) {
        got = (getline line < path) >= 0
        close(path)
        return got
    }
    # The file of a path of modules, of which the last may be names within it.
    function file_of(folder, path, ending) {
        gsub(/\./, "/", path)
        while (path != "" && !is_file(folder path ending))
            if (!sub(/\/[^\/]*$/, "", path)) path = ""
        return path == "" ? "" : folder path ending
    }
    function keep_source(file) {
        if (!(file in kept)) sources[++held] = file
        kept[file] = 1
    }
    function visit(file,    line, word, crate, path, next_file) {
        if (file in seen) return
        seen[file] = 1
        while ((getline line < file) > 0) {
            if (line ~ /^(pub )?use /) {
                split(line, word, "use ")
                path = word[2]
                sub(/[ {].*/, "", path)
                sub(/\.$/, "", path)
                if (path !~ /^Rattle\.[a-z0-9_]+\.specs\./) continue
                crate = path
                sub(/^Rattle\./, "", crate)
                sub(/\..*/, "", crate)
                if (!is_file("crates/" crate "/specs/Lib.antt")) continue
                sub(/^Rattle\.[a-z0-9_]+\.specs\./, "", path)
                if (sub(/^declared\./, "", path))
                    keep_source(file_of("crates/" crate "/src/", path, ".rt"))
                else {
                    next_file = file_of("crates/" crate "/specs/", path, ".antt")
                    if (next_file == "") { print "believed: " file ": " line > "/dev/stderr"; exit 2 }
                    visit(next_file)
                }
            } else if (line !~ /^ *$/ && line !~ /^ *--/) lines[file]++
        }
        close(file)
        order[++count] = file
    }
    { sub(/#.*/, ""); if (/:/) { name = $1; sub(/:$/, "", name); crates[++listed] = name } }
    END {
        wanted = split(files, file, " ")
        for (i = 1; i <= wanted; i++) visit(file[i])
        for (c = 1; c <= listed; c++)
            for (i = 1; i <= count; i++) {
                split(order[i], part, "/")
                sub(/\.antt$/, "", part[4])
                if (part[2] == crates[c]) print lines[order[i]], part[2] ": " part[4]
            }
        for (i = 1; i <= held; i++) print "types", sources[i]
    }' crates.txt
}

if [ $# -gt 0 ]; then
    reached "$@"
    exit
fi
reached "$law" | tee "$found"
sum=$(awk '$1 != "types" { sum += $1 } END { print sum }' "$found")
echo "$sum lines in all"

# The rows of the table, `| `crate: File` | LINES | ..`, as lines `LINES crate: File`.
sed -n 's/^| `\([a-z_]*: [A-Za-z]*\)` | \([0-9]*\) |.*/\2 \1/p' docs/DEFINITIONS.md >"$told"
if ! grep -v '^types' "$found" | diff - "$told" >&2; then
    echo "believed: the table of docs/DEFINITIONS.md says otherwise" >&2
    exit 1
fi
if [ "$sum" -gt "$limit" ]; then
    echo "believed: that is more than $limit" >&2
    exit 1
fi
