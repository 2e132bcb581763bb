# shellcheck shell=bash
# shellcheck disable=SC2317,SC2034,SC2016 # count calls checks by names, variables are for what is sourced, and `$` is for inner shells
# Tests what the scripts do around the programs, in a small tree with a substitute for rt. ./test sources this file.

: "${work:?}"

# Makes the tree. Its path has what means something to a shell, and to sed and awk.
make_stage() {
    stage=$work/$'a|b&c \'d\' "e" $(f) \\1\n#g' && path=$stage/kit/bin:/usr/bin:/bin
    mkdir -p -- "$stage"/kit/bin "$stage"/tree/{docs,man,trials/measures/src,crates/{low,one,two,middle,mailfile,mailfile_tool,apart}/src}
    cp -r -- mailfile test prove install scripts completions "$stage/tree/"
    printf '%s\n' '# crates' low: one: two: 'middle: low thiserror' 'mailfile: one two middle clap' 'mailfile_tool: low' 'apart: low' \
        > "$stage/tree/crates.txt"
    echo 'measures: low' > "$stage/tree/trials/measures/uses"
    echo low > "$stage/tree/crates/low/src/lib.rt"
    touch "$stage/tree/crates/"{mailfile,mailfile_tool}/src/main.rt "$stage/tree/trials/measures/src/main.rt.txt"
    touch "$stage/tree/man/"{mailfile,mailfile-tool}.1
    sed -i 's/^PROGRAMS=.*/PROGRAMS=(mailfile mailfile_tool)/' "$stage/tree/scripts/programs.bash"
    sed -i 's/^readonly PROVER_MEMORY=.*/readonly PROVER_MEMORY=(1 1)/' "$stage/tree/scripts/build.bash"
}

# Makes the substitute for rt, and one for nproc: builds go side by side on a machine with one processor too.
make_kit() {
    echo 'kit-1 logic 1' > "$stage/kit/KIT-ID"
    printf '#!/bin/sh\necho 4\n' > "$stage/kit/bin/nproc"
    cat > "$stage/kit/bin/rt" <<'RT'
#!/usr/bin/env bash
# Builds libraries, and programs that print their arguments and end with status 7, as the files of the stage ask. A program answers
# --version unless the file `foreign` is there.
stage=$(cd "$(dirname "$0")/../.." && pwd)
name=${PWD##*/}
[[ $1 != version ]] || exec cat "$stage/kit/KIT-ID"
[[ ! -f $stage/edit ]] || mv "$stage/edit" "$stage/tree/crates/low/src/lib.rt"
if [[ -f $stage/slow ]]; then
    echo $$ >> "$stage/rt"
    exec sleep 60
fi
mkdir -p out
if [[ $1 == run ]]; then
    printf '#!/bin/sh\n[ "$1" != --version ] || exec test ! -e ../foreign\necho ran "$@"\nexit 7\n' > "out/$name"
    chmod +x "out/$name"
    exit
fi
if [[ -f $stage/meets && $name == @(one|two) ]]; then
    touch "$stage/met-$name"
    timeout 10 bash -c 'until [[ -f $1/met-one && -f $1/met-two ]]; do sleep 0.02; done' - "$stage" || exit 1
fi
if [[ $name == middle && ! -f ../low/out/rlib/stamp || -f $stage/fails ]]; then
    echo "the reason"
    exit 1
fi
mkdir -p out/rlib
touch out/rlib/stamp
RT
    chmod +x "$stage/kit/bin/"{rt,nproc}
}

# Starts a script of the stage with arguments, and keeps its output.
start() {
    (cd -- "$stage/tree/docs" && PATH=$path exec "../$1" "${@:2}") > "$work/answer" 2> "$work/error" < /dev/null
}

# Whether a start runs the program.
serves() {
    start mailfile "$@"
    [[ $? -eq 7 && $(< "$work/answer") == "ran${1+ $1}" && ! -s $work/error ]]
}

# Whether a start of a script ends with a status and one line on standard error, and writes nothing to standard output.
gives_up() {
    start "${@:3}"
    [[ $? -eq $1 && ! -s $work/answer && $(wc -l < "$work/error") -eq 1 ]] && grep -q -e "$2" "$work/error"
}

# Whether a start finds no program of the present sources, and says what makes it.
needs_a_build() {
    gives_up 125 "^mailfile: $1; prove and build it from the sources: ./prove --build mailfile$" mailfile a
}

# Whether the programs are built, with a line for each crate that is proved.
builds() {
    start prove --build && [[ ! -s $work/answer && ! -e $stage/tree/out/lanes ]] &&
        [[ $(grep -c "^prove: proved" "$work/error") -eq $(sed -n 's/.*and building \([0-9]*\) crates.*/\1/p' "$work/error") ]]
}

edit_low() {
    echo edited >> "$stage/tree/crates/low/src/lib.rt"
}

# Starts as in a fresh clone: nothing is built, unpacked or noted.
fresh() {
    rm -rf -- "$stage/tree/crates/"*/out "$stage/tree/out"
}

# ---- builds

# Two libraries that don't use each other are built at the same time, and the one above them after them.
builds_side_by_side() {
    touch "$stage/meets"
    builds && rm -- "$stage/meets" && [[ $(grep -c "proved [1-6] of 6: " "$work/error") -eq 6 ]] && serves && serves a
}

# A source is edited while the program is built from its earlier text; the next start sees that.
sees_an_edit_while_building() {
    edit_low && echo meanwhile > "$stage/edit" && builds && needs_a_build "there is no dist/" && builds && serves
}

# The next start sees a program that another one replaced.
sees_another_program() {
    echo other >> "$stage/tree/crates/mailfile/out/mailfile"
    needs_a_build "there is no dist/" && builds && serves
}

goes_on_after_a_failure() {
    edit_low && touch "$stage/fails"
    ! start prove --build && grep -q "^the reason" "$work/error" && grep -q "^prove: [a-z]* was not built" "$work/error" &&
        [[ -f $stage/tree/crates/low/out/rlib/stamp && ! -e $stage/tree/out/lanes ]] && rm -- "$stage/fails" && builds
}

# A build that was killed leaves its work in a lane, and the next one keeps it.
goes_on_after_a_kill() {
    local left=$stage/tree/out/lanes/low/crates/low/out
    edit_low && mkdir -p -- "$left" && touch "$left/kept" && builds && [[ -f $stage/tree/crates/low/out/kept ]]
}

gives_up_beside_another() {
    local lock status=0
    exec {lock}< "$stage/tree/crates"
    edit_low && flock -n "$lock" && gives_up 125 "^prove: another build is at work" prove --build || status=1
    exec {lock}<&-
    return "$status"
}

# Whether a build that is ended by a signal ends each rt too, and leaves what was built before.
ends_what_it_started() {
    local script process status=0
    edit_low && touch "$stage/slow"
    PATH=$path "$stage/tree/prove" --build > "$work/answer" 2> "$work/error" &
    script=$!
    timeout 20 bash -c 'until [[ -s $1 ]]; do sleep 0.02; done' - "$stage/rt"
    kill "$script"
    wait "$script" || status=$?
    rm -- "$stage/slow"
    while read -r process; do
        ! kill -0 "$process" 2> "$work/said" || status=1
    done < "$stage/rt"
    [[ $status -eq 143 && ! -e $stage/tree/out/lanes && -f $stage/tree/crates/low/out/rlib/stamp ]] && builds
}

# Whether a table that is not made leaves the page, here since the program of measures ends with a fault.
leaves_the_page() {
    echo old > "$stage/tree/docs/PERFORMANCE.md"
    ! start test speed --write && grep -q "the program ended with a fault" "$work/error" &&
        [[ -x $stage/tree/trials/measures/out/measures && $(< "$stage/tree/docs/PERFORMANCE.md") == old ]]
}

# ---- dist/

# Makes the dist/ of the stage, by the programs that the substitute builds.
makes_dist() {
    fresh && start prove --dist && [[ -s $stage/tree/dist/mailfile-tool.gz ]] &&
        grep -q -x 'kit kit-1 logic 1' "$stage/tree/dist/MANIFEST" &&
        [[ $(grep -c -E '^mailfile(_tool)? ' "$stage/tree/dist/MANIFEST") -eq 2 ]]
}

# What ./prove, by a kit, says of the programs and those of dist/.
compared() (
    root=$stage/tree PROGRAMS=(mailfile mailfile_tool) group_passed=0 group_failed=0
    echo "$1" > "$stage/kit/KIT-ID"
    PATH=$path compare_dist 2>&1
)

# Whether it counts so many programs that are those of dist/, and so many that are not.
compares() {
    compared "$1" | grep -q ": $2 passed, $3 failed$"
}

# Whether it tells that of so many programs, which another kit has made, and counts none.
tells_of_another_kit() {
    [[ $(compared "$1" | grep -c "$3") -eq $2 ]] && compares "$1" 0 0
}

compares_with_dist() {
    local program=$stage/tree/crates/mailfile/out/mailfile
    compares 'kit-1 logic 1' 2 0 && tells_of_another_kit 'kit-2 logic 1' 2 'is that of dist/' &&
        tells_of_another_kit 'kit-3 logic 3' 2 'is not compared' && echo >> "$program" && compares 'kit-1 logic 1' 1 1 &&
        tells_of_another_kit 'kit-2 logic 1' 1 'is another by kit-2'
}

serves_from_dist() {
    fresh && serves a && mv -- "$stage/tree/dist" "$stage/dist" && serves b
    local status=$?
    mv -- "$stage/dist" "$stage/tree/dist"
    return "$status"
}

# A start after the first takes no command of the system but `stat`.
serves_by_stat_alone() {
    mkdir -- "$stage/few" && ln -s -- "$(command -v stat)" "$stage/few/stat" && path=$stage/few serves a
}

# Four starts at the same time, of which each finds nothing unpacked.
serves_at_once() {
    local start starts=()
    fresh
    for start in {1..4}; do
        PATH=$path "$stage/tree/mailfile" "$start" > "$work/answer.$start" 2>> "$work/error.all" < /dev/null &
        starts+=("$!")
    done
    for start in {1..4}; do
        wait "${starts[start - 1]}"
        [[ $? -eq 7 && $(< "$work/answer.$start") == "ran $start" ]] || return
    done
    [[ ! -s $work/error.all && $(find "$stage/tree/out" -type f -printf .) == .. ]]
}

serves_from_anywhere() (
    ln -s -- "$stage/tree/mailfile" "$stage/link"
    cd / && [[ $(CDPATH=$stage PATH=$path TMPDIR=/nowhere "$stage/link" a 2> "$work/error") == "ran a" ]] && cd -- "$stage" &&
        [[ $(CDPATH=/ PATH=$path tree/mailfile a 2> "$work/error") == "ran a" ]]
)

serves_as_posix_asks() {
    fresh && POSIXLY_CORRECT=1 serves a && POSIXLY_CORRECT=1 serves b
}

serves_after_other_edits() {
    echo edited > "$stage/tree/crates/apart/src/main.rt" && echo 'other: low' >> "$stage/tree/crates.txt" && serves c && fresh && serves d
}

# An edit that leaves the size and the time of its file, a new file, and then the sources of dist/ again.
sees_edits() {
    local file=$stage/tree/crates/low/src/lib.rt none="dist/ has mailfile from other sources" status=0
    cp -p -- "$file" "$stage/kept" && tr l m < "$stage/kept" > "$file" && touch -r "$stage/kept" "$file" &&
        needs_a_build "$none" || status=1
    cp -p -- "$stage/kept" "$file" && serves a && touch "${file%.rt}s.rt" && needs_a_build "$none" &&
        rm -- "${file%.rt}s.rt" && serves b || status=1
    return "$status"
}

# A program in out/ that is not that of dist/ is not started.
unpacks_again() {
    printf '#!/bin/sh\necho another\n' > "$stage/tree/out/mailfile" && serves a && chmod a-x "$stage/tree/out/mailfile" && serves b
}

# A file in dist/ that is cut off, or is another program: it is reported, and not run.
refuses_a_damaged_file() {
    local file=$stage/tree/dist/mailfile.gz status=0
    cp -- "$file" "$stage/whole.gz"
    truncate -s 50 "$file" && fresh && gives_up 125 "dist/mailfile.gz is damaged" mailfile a || status=1
    printf '#!/bin/sh\necho another\n' | gzip > "$file" && fresh && gives_up 125 "dist/mailfile.gz is damaged" mailfile a || status=1
    rm -- "$file" && fresh && gives_up 125 "dist/mailfile.gz is missing" mailfile a || status=1
    mv -- "$stage/whole.gz" "$file"
    return "$status"
}

refuses_a_damaged_list() {
    local list=$stage/tree/dist/MANIFEST status=0
    cp -- "$list" "$stage/whole"
    sed -i 's/^mailfile ./mailfile x/' "$list" && fresh && gives_up 125 "dist/MANIFEST is missing or damaged" mailfile a || status=1
    : > "$list" && fresh && gives_up 125 "dist/MANIFEST is missing or damaged" mailfile a || status=1
    mv -- "$stage/whole" "$list"
    return "$status"
}

refuses_another_system() {
    mkdir -- "$stage/other" && printf '#!/bin/sh\necho Plan9 mips\n' > "$stage/other/uname" && chmod +x "$stage/other/uname"
    fresh && path=$stage/other:$path needs_a_build "dist/ has programs for Linux.*, and this is Plan9 mips.*"
}

refuses_a_foreign_program() {
    touch "$stage/tree/foreign"
    fresh && needs_a_build "the program in dist/ does not start here (.*)" && [[ ! -e $stage/tree/out/mailfile ]]
    local status=$?
    rm -- "$stage/tree/foreign"
    return "$status"
}

refuses_without_gzip() {
    mkdir -- "$stage/without" && cp -s -- /usr/bin/* /bin/* "$stage/without" 2> "$work/said"
    rm -f -- "$stage/without/gzip"
    fresh && path=$stage/without gives_up 125 "no gzip " mailfile a
}

# Starts in a checkout that cannot be written keep what they unpack in the user's folder, or for one start alone.
serves_from_a_fixed_checkout() {
    fresh && touch "$stage/tree/out" || return
    XDG_CACHE_HOME=$stage/cache serves a && XDG_CACHE_HOME=$stage/cache path=$stage/few serves b &&
        mkdir -- "$stage/temporary" && XDG_CACHE_HOME=/dev/null TMPDIR=$stage/temporary serves c && rmdir -- "$stage/temporary"
    local status=$?
    rm -f -- "$stage/tree/out"
    return "$status"
}

# What is installed works without the checkout, and replaces what was there.
installs() {
    fresh && start install "$stage/prefix" && start install "$stage/prefix" && [[ -f $stage/prefix/share/man/man1/mailfile-tool.1 ]] &&
        grep -q "/prefix/bin is not on the path" <(tr '\n' ' ' < "$work/answer") && mv -- "$stage/tree" "$stage/moved" || return
    [[ $("$stage/prefix/bin/mailfile" a) == "ran a" ]]
    local status=$?
    mv -- "$stage/moved" "$stage/tree"
    return "$status"
}

# What is removed is what was installed, of an earlier tree too, and no file or folder of others.
removes() {
    local prefix=$stage/prefix2 before
    mkdir -p -- "$prefix/bin" "$prefix/share" && touch "$prefix/bin/other" && before=$(cd -- "$prefix" && find . | sort) || return
    start install "$prefix" && mv -- "$stage/tree/man/mailfile.1" "$stage/page" || return
    sed -i 's/^PROGRAMS=.*/PROGRAMS=(mailfile_tool)/' "$stage/tree/scripts/programs.bash"
    start install "$prefix" && [[ ! -e $prefix/bin/mailfile && -x $prefix/bin/mailfile-tool ]] &&
        (cd -- "$prefix" && sha256sum --quiet -c share/mailfile/SHA256SUMS) && start install --remove "$prefix" &&
        [[ $(cd -- "$prefix" && find . | sort) == "$before" ]]
    local status=$?
    mv -- "$stage/page" "$stage/tree/man/mailfile.1"
    sed -i 's/^PROGRAMS=.*/PROGRAMS=(mailfile mailfile_tool)/' "$stage/tree/scripts/programs.bash"
    sed -i 's/^readonly PROVER_MEMORY=.*/readonly PROVER_MEMORY=(1 1)/' "$stage/tree/scripts/build.bash"
    return "$status"
}

# A file that was changed since it was installed is named, and stays.
leaves_what_was_changed() {
    local prefix=$stage/prefix3
    start install "$prefix" && echo other > "$prefix/bin/mailfile" || return
    ! start install --remove ../../prefix3 && grep -q "^install: ../../prefix3/bin/mailfile stays: " "$work/error" &&
        [[ $(cd -- "$prefix" && find . -type f) == ./bin/mailfile ]] && gives_up 125 "install once more" install --remove ../../prefix3
}

# Copies the whole checkout, with the programs that were built here.
copies_the_checkout() {
    local built
    copy_sources "$stage/checkout" || return
    for built in crates/*/out/*.built; do
        [[ ! -f $built ]] || { mkdir -p -- "$stage/checkout/${built%/*}" && cp -- "${built%.built}" "$built" "$stage/checkout/${built%/*}/"; } ||
            return
    done
}

# What the programs do in a whole checkout with such a path.
types_in_a_checkout() {
    copies_the_checkout || return
    "$stage/checkout/scripts/transcripts.bash" files/names intake/names files/limited > "$work/said" 2>&1 && return
    cat -- "$work/said"
    return 1
}

# Whether no two of the files that a script sources have a function of one name.
has_no_namesakes() {
    local parts
    read -r -a parts < <(sed -n 's/^ *for part in \(.*\); do$/\1/p' "$1")
    ((${#parts[@]} > 1)) && parts+=(build programs trials) &&
        [[ -z $(cd -- scripts && grep -o -h -E '^[a-z_0-9]+\(\)' "${parts[@]/%/.bash}" | sort | uniq -d | tee -a /dev/stderr) ]]
}

# Whether each help has the words of its script, and none that are for shellcheck.
helps_in_words() {
    local words
    for words in test "test hostile" "test failing" "test million" "test speed" prove; do
        # shellcheck disable=SC2086 # a script and its word
        start $words --help && grep -q -F "    ./$words " "$work/answer" && ! grep -q shellcheck "$work/answer" || return
    done
}

# ---- all of these

builds_of_programs() {
    count "a start before anything is built" needs_a_build "there is no dist/"
    count "a build of all programs" builds_side_by_side
    count "an edit while the program is built" sees_an_edit_while_building
    count "a start after the program was changed" sees_another_program
    count "a build that fails" goes_on_after_a_failure
    count "a build after one that was killed" goes_on_after_a_kill
    count "a build beside another" gives_up_beside_another
    count "a build that is ended" ends_what_it_started
    count "a page that is not measured" leaves_the_page
}

# What starts do with dist/, in the end without a kit.
starts_from_dist() {
    count "dist/ is made" makes_dist
    count "programs are compared with dist/" compares_with_dist
    mv -- "$stage/kit" "$stage/away"
    count "a build without a kit" gives_up 125 "no command rt" prove --build
    count "a first start from dist/" serves_from_dist
    count "a start at once" serves_by_stat_alone
    count "first starts at the same time" serves_at_once
    count "a start from another folder, by a link" serves_from_anywhere
    count "a start under POSIXLY_CORRECT" serves_as_posix_asks
    count "an edit of a crate that is not below the program" serves_after_other_edits
    count "edits of the sources" sees_edits
    count "another program in out/" unpacks_again
    count "a damaged file in dist/" refuses_a_damaged_file
    count "a damaged list of dist/" refuses_a_damaged_list
    count "another system" refuses_another_system
    count "a program that does not start here" refuses_a_foreign_program
    count "a system without gzip" refuses_without_gzip
    count "a checkout that cannot be written" serves_from_a_fixed_checkout
    count "what is installed" installs
    count "what is removed again" removes
    count "what was changed since it was installed" leaves_what_was_changed
}

scripts() {
    local script
    make_stage && make_kit
    builds_of_programs
    starts_from_dist
    count "the help of each script" helps_in_words
    count "an unknown word for ./test" gives_up 2 "^usage:" test --nothing
    count "an unknown word for ./test speed" gives_up 2 "^usage:" test speed --nothing
    count "a seed that is no number" gives_up 2 "^usage:" test hostile one
    count "messages whose number is none" gives_up 2 "^usage:" test million one
    count "an unknown word for ./test failing" gives_up 2 "^usage:" test failing memory some
    count "an unknown word for ./install" gives_up 2 "^usage:" install --nothing
    count "transcripts in a whole checkout" types_in_a_checkout
    for script in test scripts/failing.bash scripts/hostile.bash prove; do
        count "functions of $script" has_no_namesakes "$script"
    done
    if command -v shellcheck > "$work/said"; then
        count "shellcheck" shellcheck -x mailfile* test prove install .ci/run scripts/*.sh scripts/*.bash completions/*.bash sessions/*.bash sessions/*/*.bash
    fi
    group scripts
}
