#!/usr/bin/env bash
# Every relative link in a Markdown file of the repository leads to a file that is there and, where it names an anchor, to one that the file
# has: <a id="..">, or a heading by the rule of the usual viewers. Each link that does not is said, and the code is 1.
set -euo pipefail
cd "$(dirname "$0")/../.."

# The text of a file without its code: neither links nor headings are looked for there.
prose() {
    awk '/^ *```/ { code = !code; next } !code && !/^(    |\t)/ { gsub(/`[^`]*`/, "`"); print }' "$1"
}

# The targets of a file's links, one a line.
targets() {
    prose "$1" | grep -oE '\]\([^)]+\)' | sed -E 's/^\]\(//; s/\)$//; s/ +".*"$//' || true
}

# A heading's anchor: small letters, no punctuation, hyphens for blanks; the second of two alike ends in -1.
heading_anchors() {
    awk '/^ *```/ { code = !code; next }
         !code && /^#+ / {
             gsub(/<[^>]*>/, ""); sub(/^#+ +/, ""); sub(/ +$/, "")
             text = tolower($0); gsub(/[^a-z0-9 _-]/, "", text); gsub(/ /, "-", text)
             print seen[text]++ ? text "-" (seen[text] - 1) : text
         }' "$1"
}

anchors() {
    prose "$1" | grep -oE '<a id="[^"]+">' | sed -E 's/^<a id="//; s/">$//' || true
    heading_anchors "$1"
}

# Does a link of this file lead anywhere? Links to other sites are not looked at.
leads() {
    local from=$1 path=${2%%#*} anchor=''
    case $2 in
    *://* | mailto:*) return 0 ;;
    *'#'*) anchor=${2#*#} ;;
    esac
    local to=$from
    [ -z "$path" ] || to=$(dirname "$from")/$path
    [ -e "$to" ] || return 1
    # grep reads to the end, so that pipefail sees no broken pipe.
    [ -z "$anchor" ] || anchors "$to" | grep -xF -- "$anchor" >/dev/null
}

links=0
lost=0
while IFS= read -r file; do
    while IFS= read -r target; do
        links=$((links + 1))
        if ! leads "$file" "$target"; then
            echo "$file: no such place: $target"
            lost=$((lost + 1))
        fi
    done < <(targets "$file")
done < <(find . \( -name target -o -name out -o -name .git \) -prune -o -name '*.md' -print | sort)
echo "links: $links, lost: $lost"
[ "$lost" -eq 0 ]
