# shellcheck shell=bash
# Has the programs of trials/ built, which try and measure what the gate does not. The folder of a program has the line that is its own
# in crates.txt (`uses`) and its files, each with `.txt` after its name. A script that sources this file has sourced scripts/build.bash.

: "${root:?}"

# A sum of the sources of a program, with those of all crates below it.
trial_sources() {
    local crates
    # shellcheck disable=SC2046 # names of crates are words
    mapfile -t crates < <(crates_below $(cut -d : -f 2 -- "$root/trials/$1/uses"))
    (
        cd -- "$root" || exit
        find "trials/$1" "${crates[@]/#/crates/}" '(' -name out -o -name 'must-fail*' ')' -prune -o -type f -print0 |
            LC_ALL=C sort -z | xargs -0 sha256sum -- crates.txt | sha256sum
    )
}

trial_program() {
    echo "$root/trials/$1/out/$1"
}

# Makes sure that a program is there, and was built from the present sources.
ensure_trial() {
    local sources program
    program=$(trial_program "$1")
    sources=$(trial_sources "$1") || give_up "the sources of $1 cannot be read"
    if ! [[ -x $program && -r $program.sources && $(< "$program.sources") == "$sources" ]]; then
        build "$1"
        echo "$sources" > "$program.sources"
    fi
}
