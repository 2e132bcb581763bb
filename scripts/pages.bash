#!/usr/bin/env bash
# shellcheck disable=SC2016,SC2317 # backticks are those of the pages, and count calls its checks by their names
# Checks what the pages name: other pages and their sections, files, the functions that the ways through the code lead to, and the
# crates with their levels. ./test sources this file; run by itself, it checks the pages.

: "${work:=$(mktemp -d)}"

PAGES=(README.md CHANGES.md docs/*.md sessions/README.md sessions/*/README.md examples/archive/README.md)

# The anchors of a page's headings.
anchors_of() {
    sed -n -E 's/^#+ +//p' "$1" | tr '[:upper:]' '[:lower:]' | sed -E 's/[^a-z0-9 _-]//g; s/ /-/g'
}

# The links of a page to pages and sections.
links_of() {
    grep -o -E '\]\([^) ]+\)' "$1" | sed -E 's/^..//; s/.$//' | sort -u
}

# Whether a link of a page leads to a file, and to a section where it names one.
leads() {
    local file=$1
    [[ $2 == '#'* ]] || file=$(dirname -- "$1")/${2%%#*}
    [[ -e $file ]] && { [[ $2 != *'#'* ]] || anchors_of "$file" | grep -q -x -F -e "${2#*#}"; }
}

# The paths of files and scripts that a page names, from the top of the repository.
paths_of() {
    grep -o -E '`(\./[a-z-]+|(scripts|docs|crates|trials|examples|man|dist)/[A-Za-z0-9_./-]+)' "$1" | sed -E 's/^`(\.\/)?//' | sort -u
}

# The steps in a part of docs/ARCHITECTURE.md, a line each. The part is given by the beginnings of its first line and of the line after it.
steps() {
    sed -n "/^$1/,/^$2/p" docs/ARCHITECTURE.md | awk '
        /^[0-9]+\. / { if (step) print step; step = $0; next }
        /^    *[^ ]/ && step { sub(/^ +/, " "); step = step $0; next }
        { if (step) print step; step = "" }'
}

# Whether a file has a definition or an implementation of that name.
defines() {
    grep -q -w -E "^ *(pub(\(crate\))? )?(fn|struct|enum|trait|const) ${2##*::}|^impl.* ${2#impl }" "$1"
}

# Checks a step: its file, and the functions that it names up to its first full stop.
check_step() {
    local file name
    file=crates/$(cut -d '`' -f 2 <<< "$1")
    count "step ${1%%.*}: $file" test -f "$file"
    [[ -f $file ]] || return
    for name in $(sed -E 's/^[^:]*: *//; s/\. .*//' <<< "$1" | grep -o '`[^`]*`' | tr -d '`' | sed 's/impl //'); do
        count "step ${1%%.*}: $name in $file" defines "$file" "$name"
    done
}

# The way of a capture from BEGIN to the due list, with the session around it, and that of a delivery, which takes its middle.
way_of_capture() {
    steps '## The way of one capture' '## '
}
way_of_delivery() {
    steps '## The way of a delivery' '## '
    steps '\*\*BEGIN\*\*' '\*\*DUE\*\*'
}

# Whether a way opens at most that many files of at most that many crates, and comes back to one at most that many times.
is_short() {
    local opened files crates
    opened=$("$1" | cut -d '`' -f 2)
    files=$(sort -u <<< "$opened")
    crates=$(cut -d / -f 1 <<< "$files" | sort -u)
    (($(wc -l <<< "$files") <= $2 && $(wc -l <<< "$crates") <= $3 && $(wc -l <<< "$opened") - $(wc -l <<< "$files") <= $4))
}

# The crates with their levels, by crates.txt, and by the table of docs/ARCHITECTURE.md.
levels() {
    awk -F ': *' '/^[a-z]/ {
        split($2, uses, " ")
        level[$1] = 0
        for (i in uses) if (uses[i] in level && level[uses[i]] >= level[$1]) level[$1] = level[uses[i]] + 1
        print level[$1], $1
    }' crates.txt | sort
}
levels_shown() {
    sed -n -E 's/^\| ([0-9]+) \| `([a-z_]+)` \|.*/\1 \2/p' docs/ARCHITECTURE.md | sort
}
has_all_levels() {
    diff <(levels) <(levels_shown)
}

pages() {
    local page link path step
    for page in "${PAGES[@]}"; do
        for link in $(links_of "$page"); do
            count "the link $link in $page" leads "$page" "$link"
        done
        for path in $(paths_of "$page"); do
            count "the path $path in $page" test -e "$path"
        done
    done
    while IFS= read -r step; do
        check_step "$step"
    done < <(steps '## The way of one capture' '## Crates')
    count "the way of a capture: at most 40 files, 15 crates, and five returns" is_short way_of_capture 40 15 5
    count "the way of a delivery: at most 40 files, 15 crates, and five returns" is_short way_of_delivery 40 15 5
    count "the crates and their levels in docs/ARCHITECTURE.md" has_all_levels
    group "what the pages name"
}

if [[ ${BASH_SOURCE[0]} == "$0" ]]; then
    cd -- "$(dirname -- "$(dirname -- "$(readlink -f -- "$0")")")" || exit 125
    trap 'rm -rf -- "$work"' EXIT
    # shellcheck source=scripts/counts.bash
    . scripts/counts.bash || exit 125
    pages
    finish
fi
