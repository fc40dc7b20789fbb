#!/usr/bin/env bash
# Lists the words that are defined in more than one spec file, each with its files. One word should have one meaning.
#
#   tools/spec_words.sh          all of them
#   tools/spec_words.sh --count  how many there are
#   tools/spec_words.sh --check  lists them, and fails where there are more than there were
set -eu
cd "$(dirname "${BASH_SOURCE[0]}")/.."

# How many there were last. Whoever makes them fewer writes the new number here.
most=19

# A definition is `abbrev pub WORD :`, `pub WORD :` or `pub record WORD` at the beginning of a line.
words() {
    git ls-files 'crates/*/specs/*.antt' | grep -v '/Lib.antt$' | while IFS= read -r file; do
        sed -nE 's/^(abbrev |unfoldable )?pub (record |data )?([A-Za-z_][A-Za-z_0-9]*) .*/\3/p' "$file" | sort -u | sed "s|\$| ${file#crates/}|"
    done
}

doubled=$(words | sort | awk '
    { files[$1] = files[$1] " " $2; count[$1]++ }
    END { for (word in count) if (count[word] > 1) print word ":" files[word] }' | sort)
count=0
[ -z "$doubled" ] || count=$(printf '%s\n' "$doubled" | wc -l)

case "${1:-}" in
--count) echo "$count" ;;
--check)
    if [ "$count" -gt "$most" ]; then
        printf '%s\n' "$doubled"
        echo "$count words are defined in several spec files; there were $most"
        exit 1
    fi
    echo "$count words are defined in several spec files, at most $most may be"
    ;;
*) [ -z "$doubled" ] || printf '%s\n' "$doubled" ;;
esac
