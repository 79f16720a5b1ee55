#!/bin/sh
# Checks the table of crates in docs/ARCHITECTURE.md against the crates: the purpose and the dependencies of each.
#
#     scripts/architecture.sh [--write]
#
# Dependencies come from crates.txt. The purpose of a crate is its line in docs/purposes.txt (CRATE: PURPOSE). A crate without such a
# line takes the first sentence of the `//!` comment in its src/lib.rt or src/main.rt. A crate is listed after its dependencies. With
# `--write` the script replaces the table in place. Without it, the script prints any difference and then exits with status 1.
set -u
LC_ALL=C
export LC_ALL
cd "$(dirname "$0")/.."
page=docs/ARCHITECTURE.md
first='<!-- crates: written by scripts/architecture.sh --write -->'
last='<!-- end of the crates -->'

copy=$(mktemp -d)
trap 'rm -rf "$copy"' EXIT INT TERM

fail() {
    echo "architecture: $1" >&2
    exit 1
}

# Prints the first sentence of a file's `//!` comment. Links to code names are removed, and a bar, which would end a table cell, becomes
# a slash.
sentence() {
    awk '
        /^\/\/!/ { sub(/^\/\/! ?/, ""); text = text (text == "" ? "" : " ") $0; next }
        text != "" { exit }
        END {
            gsub(/ ?\(\[`[^`]*`\]\)/, "", text)
            gsub(/\[`/, "`", text)
            gsub(/`\]/, "`", text)
            gsub(/\|/, "/", text)
            end = match(text, /\.( |$)/)
            if (end) text = substr(text, 1, end - 1)
            print text
        }' "$1"
}

sed 's/:.*//' crates.txt | sort > "$copy/listed"
ls crates | sort > "$copy/there"
cmp -s "$copy/listed" "$copy/there" || fail "crates.txt and crates/ have different crates: $(comm -3 "$copy/listed" "$copy/there" | tr -s '\t\n' ' ')"
[ -f docs/purposes.txt ] || fail 'docs/purposes.txt is missing'
sed 's/:.*//' docs/purposes.txt | sort > "$copy/described"
unknown=$(comm -23 "$copy/described" "$copy/there" | tr '\n' ' ')
[ -z "$unknown" ] || fail "docs/purposes.txt describes no crate of this repository: $unknown"

while read -r crate; do
    purpose=$(sed -n "s/^$crate: *//p" docs/purposes.txt)
    root="crates/$crate/src/lib.rt"
    [ -f "$root" ] || root="crates/$crate/src/main.rt"
    [ -n "$purpose" ] || purpose=$(sentence "$root")
    [ -n "$purpose" ] || fail "$crate says nowhere what it is for: begin $root with //!, or give it a line in docs/purposes.txt"
    printf '%s\t%s\n' "$crate" "$purpose"
done < "$copy/there" > "$copy/purposes"

# The level of a crate is the length of the longest dependency chain of this repository's crates that ends at it.
awk -v purposes="$copy/purposes" '
    BEGIN {
        FS = "\t"
        while ((getline < purposes) > 0) purpose[$1] = $2
        FS = " "
    }
    {
        name = $1
        sub(/:$/, "", name)
        for (i = 2; i <= NF; i++) needs[name] = needs[name] " " $i
        level[name] = 1
    }
    END {
        do {
            changed = 0
            for (name in level) {
                count = split(needs[name], others, " ")
                for (i = 1; i <= count; i++)
                    if (others[i] in level && level[name] <= level[others[i]]) { level[name] = level[others[i]] + 1; changed = 1 }
                if (level[name] > 1000) { print "a cycle\t" name; exit }
            }
        } while (changed)
        for (name in level) {
            count = split(needs[name], others, " ")
            own = ""
            kit = ""
            for (i = 1; i <= count; i++) {
                if (others[i] in level) { sub(/^unl_/, "", others[i]); own = own (own == "" ? "" : ", ") others[i] }
                else kit = kit (kit == "" ? "" : ", ") "*" others[i] "*"
            }
            print level[name] "\t" name "\t| " name " | " purpose[name] " | " own (own != "" && kit != "" ? "; " : "") kit " |"
        }
    }' crates.txt | sort -t "$(printf '\t')" -k1,1n -k2,2 > "$copy/rows"
grep -q '^a cycle' "$copy/rows" && fail 'the crates of crates.txt depend on one another in a circle'

{
    echo "$first"
    echo
    echo "| crate | what it is for | depends on |"
    echo "|---|---|---|"
    cut -f 3 "$copy/rows"
    echo
    echo "The longest chain has $(tail -n 1 "$copy/rows" | cut -f 1) crates."
    echo
    echo "$last"
} > "$copy/block"

grep -qxF "$first" "$page" && grep -qxF "$last" "$page" || fail "$page lacks one of the lines '$first' and '$last'"
awk -v first="$first" -v last="$last" -v block="$copy/block" '
    $0 == first { while ((getline line < block) > 0) print line; skipping = 1 }
    !skipping { print }
    $0 == last { skipping = 0 }' "$page" > "$copy/page"

if [ "${1-}" = --write ]; then
    cmp -s "$copy/page" "$page" || cp "$copy/page" "$page"
elif ! cmp -s "$copy/page" "$page"; then
    diff "$page" "$copy/page"
    fail "the table of $page is not that of the crates: run scripts/architecture.sh --write"
fi
