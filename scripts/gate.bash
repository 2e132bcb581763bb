# shellcheck shell=bash
# shellcheck disable=SC2317 # count calls its checks by their names
# What ./prove checks with the kit: the gate `rt ci`, group by group, and the must-fail edits that the gate does not try. ./prove
# sources this file.

: "${work:?}" "${self:?}" "${failed:?}"

# The crates that crates.txt lists.
crates() {
    sed -n 's/^\([a-z][a-z0-9_]*\)[^:#]*:.*/\1/p' crates.txt
}

# The number of edits in the folders.
edits_in() {
    find "$@" -name '*.edit' -type f 2> "$work/error" | wc -l
}

# Makes a copy of the tree in which the finer edits of some crates are with the others.
copy_tree() {
    local name folder
    copy_sources "$work/tree" || exit 125
    for name in "$@"; do
        folder=$work/tree/crates/$name
        if [[ -d $folder/must-fail-finer ]]; then
            mkdir -p -- "$folder/must-fail"
            mv -- "$folder/must-fail-finer"/* "$folder/must-fail/" || exit 125
        fi
    done
}

# Gives the copy the libraries that earlier checks built here; rt takes one only if it was made from the same sources.
copy_libraries() {
    local library
    for library in crates/*/out/rlib; do
        if [[ -f $library/stamp ]]; then
            mkdir -p -- "$work/tree/$library" && cp -a -- "$library/." "$work/tree/$library" || exit 125
        fi
    done
}

# Tries the must-fail edits of some crates, the finer ones too.
try_edits() {
    local name
    for name in "$@"; do
        if ! crates | grep -q -x -F -e "$name"; then
            echo "$self: crates.txt lists no crate '$name'" >&2
            exit 2
        fi
    done
    copy_tree "$@"
    copy_libraries
    for name in "$@"; do
        (cd -- "$work/tree" && exec rt must-fail "$name") > "$work/said" 2>&1 &
        wait "$!" || tail -n 20 "$work/said"
        reported "must-fail edits of $name" "$(edits_in "crates/$name/must-fail" "crates/$name/must-fail-finer")" "$work/said" \
            '^rt: must-fail .*: refused, as it must be' '^rt: .*: (NOT REFUSED|BAD EDIT)'
    done
}

# Has rt report each edit in the must-fail/ of a crate that can't be applied, as it does when it formats the crate's files. One
# edit that can never be applied is added, so that a silent rt doesn't pass.
says_what_applies() {
    printf 'file: src/nowhere.rt\nold: a\nnew: b\n' > "$1/must-fail/0-nowhere.edit"
    (cd -- "$1" && rt fmt) > "$work/said" 2>&1
    rm -- "$1/must-fail/0-nowhere.edit"
    grep -q 'must-fail/0-nowhere.edit cannot be applied' "$work/said"
}

# Checks that each finer edit can be applied.
finer_edits_apply() {
    local name bad
    # shellcheck disable=SC2046 # a crate's name is one word
    copy_tree $(crates)
    for name in $(crates); do
        if [[ -d crates/$name/must-fail-finer ]]; then
            count "$name" says_what_applies "$work/tree/crates/$name"
            bad=$(grep 'must-fail/.* cannot be applied' "$work/said" | grep -v -F 0-nowhere.edit | tee -a /dev/stderr | wc -l)
            group_failed=$((group_failed + bad))
            group_passed=$((group_passed + $(edits_in "crates/$name/must-fail-finer") - bad - 1))
        fi
    done
    rm -r -- "$work/tree"
    count "only edits in must-fail-finer" test -z "$(find crates -path 'crates/*/must-fail-finer/*' ! -name '*.edit')"
    group "finer must-fail edits that can be applied"
}

# Whether a must-fail edit has that name.
is_edit() {
    compgen -G "crates/*/must-fail*/$1.edit" > "$work/said"
}

# The last column of those tables of docs/PROMISES.md that have one of must-fail edits.
columns_of_edits() {
    awk -F '|' '
        !/^\|/ { within = 0; next }
        !within { within = 1; has_edits = $(NF - 1) ~ /must-fail edits/ }
        has_edits { print $(NF - 1) }
    ' docs/PROMISES.md
}

# Checks that the edits that docs/PROMISES.md names exist.
promised_edits() {
    local name
    # shellcheck disable=SC2013 # a name is one word
    for name in $(columns_of_edits | grep -o '[a-z0-9]*_[a-z0-9_]*' | sort -u); do
        [[ -d crates/$name ]] || count "$name" is_edit "$name"
    done
    group "must-fail edits that docs/PROMISES.md names"
}

# Whether each line of code has at most 100 characters; imports, attributes and texts may have more. So each line of a clause fits
# a screen. One clause of row.rt has 101, until its crate is proved again.
lines_fit() {
    LC_ALL=C.UTF-8 grep -r -n -E --include='*.rt' '^.{101}' crates/*/src > "$work/said"
    ! grep -v -E "^[^:]*:[0-9]+: *(//|ghost use|use |#\[)|\"|^crates/(cli_page/src/style.rt|cli_volumes/src/row.rt:105):" "$work/said"
}

# Whether each line of a proof has at most 150 characters; one with a text of SQL in quotation marks may have more. Three imports have
# more, until their crates are proved again.
proofs_fit() {
    LC_ALL=C.UTF-8 grep -r -n -E --include='*.antt' '^.{151}' crates/*/proofs > "$work/said"
    ! grep -v -E '"|^crates/(cli_volumes/proofs/RowLaws|command_lines/proofs/TableLemmas).antt:[0-9]+:use ' "$work/said"
}

# Whether the edits that the gate tries change code alone.
gate_edits_are_of_code() {
    ! grep -r -E '^file: (specs|proofs)/' crates/*/must-fail
}

layout() {
    count "must-fail edits of the gate that change code alone" gate_edits_are_of_code
    count "lines of code of at most 100 characters" lines_fit
    count "lines of proofs of at most 150 characters" proofs_fit
    group layout
}

# The number of crates that have files of that path, or that have tests.
with_file() {
    find crates -mindepth 3 -maxdepth 3 -path "crates/*/$1" | wc -l
}
with_tests() {
    grep -l -r -F '#[test]' crates/*/src | cut -d / -f 2 | sort -u | wc -l
}

# The memory counted for each check of the gate, in megabytes: the four largest take some 20,000 together. Left to itself, rt counts more
# than a check takes, and a fourth processor is idle half of the time.
readonly CHECK_MEMORY=5000

# Runs the gate, with a group for each thing that it does. A failure that no group counts is a group of its own. The gate keeps on
# this machine what it has proved, and says of a crate that it "is kept" where nothing that its proof reads has changed since. Tests
# whose own proof fails do not run, so their group counts that too.
gate() {
    local status=0 before=$failed
    RT_JOBS=${RT_JOBS:-$(side_by_side "$CHECK_MEMORY" "$CHECK_MEMORY")} rt ci > "$work/gate" 2>&1 &
    wait "$!" || status=$?
    reported proofs "$(crates | wc -l)" "$work/gate" '^rt: [a-z0-9_]+ (proved$|is kept: )' '^rt: .* NOT PROVED'
    reported "must-fail edits" "$(edits_in crates/*/must-fail)" "$work/gate" \
        '^rt: must-fail .*: refused, as it must be' '^rt: .*: (NOT REFUSED|BAD EDIT)'
    reported tests "$(with_tests)" "$work/gate" '^rt: .*: its tests passed$' '^rt: .*: its tests FAILED$'
    reported "programs, each built by two compilers" $((2 * $(with_file src/main.rt))) "$work/gate" \
        '^rt: .* ran( \(.*\))?, and wrote' '^rt: [a-z_]+( \(.*\))?: (the program|what the program)'
    if ((status != 0)); then
        if ((failed == before)); then
            group_failed=1
            group gate
        fi
        tail -n 60 "$work/gate"
    fi
}

# Proves everything by the gate, and notes the programs that it built, with the sums of their sources before.
prove() {
    local name
    local -A sums=()
    begin_lanes
    for name in "${PROGRAMS[@]}"; do
        sums[$name]=$(sum_of "$name")
    done
    gate
    for name in "${PROGRAMS[@]}"; do
        [[ ! -x crates/$name/out/$name ]] || note_built "$name" "${sums[$name]}"
    done
}
