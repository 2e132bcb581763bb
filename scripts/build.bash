# shellcheck shell=bash
# Proves and builds crates from the sources, several side by side. A script that sources this file sets `root` and `self`, as for
# scripts/programs.bash.
#
# rt locks the folders of all crates below the one that it builds, so in one tree no two over a third are built at once. Each is built in
# a lane: a folder with the sources of the crate and of those below it, and with the libraries of these.

: "${root:?}" "${self:?}"

# shellcheck source=scripts/programs.bash
declare -F ensure_program > /dev/null || . "$root/scripts/programs.bash" || exit 125

# Who changes archives, as their histories note it.
export LOGNAME=tess

# The memory counted for a prover, and for each further one, in megabytes.
readonly PROVER_MEMORY=(1500 3000)

# The folder of the lanes.
lanes=

# The identity of the kit; fails if rt is not on the path.
kit() {
    rt version
} 2> /dev/null

# Notes that a program was built, and the sum of its sources, so that starts take it.
note_built() {
    local file=$root/crates/$1/out/$1
    printf '%s\n' "$2" "$(sha256_of "$file")" > "$file.new" && mv -f -- "$file.new" "$file.built" && rm -f -- "$root/out/$1.note"
}

# The free memory in megabytes, also within the limit of the control group.
free_memory() {
    local limit=/sys/fs/cgroup/memory.max
    {
        awk '/^MemAvailable:/ { print int($2 / 1024) }' /proc/meminfo
        if [[ -r $limit && $(< "$limit") != max ]]; then
            awk -v limit="$(< "$limit")" '$1 == "anon" { print int((limit - $2) / 1048576) }' "${limit%/*}/memory.stat"
        fi
    } | sort -n | head -n 1
}

# How many processes run side by side, of which the first takes so many megabytes, and each further one so many: at most one for each
# processor, and as many as memory holds.
side_by_side() {
    local free fit processors
    free=$(free_memory)
    fit=$((free < $1 ? 1 : 1 + (free - $1) / $2))
    processors=$(nproc)
    echo $((fit < processors ? fit : processors))
}

# Copies the tree to a folder, without what is built.
copy_sources() {
    mkdir -p -- "$1" || return
    (cd -- "$root" && exec tar -c --exclude=./.git --exclude=./out --exclude='./crates/*/out' --exclude='./trials/*/out' .) |
        (cd -- "$1" && exec tar -x)
}

# The folder of a crate, or of a program of trials/.
home_of() {
    local home=$root/trials/$1
    [[ -d $home ]] || home=$root/crates/$1
    echo "$home"
}

# The crates below some, and these, in the copy of the tree that is built.
below() {
    root=$lanes/tree crates_below "$@"
}

# Lays a program of trials/ into that copy, as a crate.
lay_trial() {
    local file crate=$lanes/tree/crates/$1
    (
        cd -- "$root/trials/$1" || exit
        find . -path ./out -prune -o -name '*.txt' -print | while IFS= read -r file; do
            mkdir -p -- "$crate/${file%/*}" && cp -- "$file" "$crate/${file%.txt}" || exit
        done
    ) && cat -- "$root/trials/$1/uses" >> "$lanes/tree/crates.txt"
}

# The crates to build, those first that most is left to build above: the octets of code and proofs on the longest path.
longest_first() {
    local name other
    local -A way=()
    for name in $(below "$@" | tac); do
        way[$name]=$((${way[$name]:-0} + $(find "$lanes/tree/crates/$name"/{src,proofs} -type f -exec cat {} + 2> /dev/null | wc -c)))
        for other in $(below "$name"); do
            ((${way[$other]:-0} >= way[$name])) || [[ $other == "$name" ]] || way[$other]=${way[$name]}
        done
        echo "${way[$name]} $name"
    done | sort -n -r | cut -d ' ' -f 2
}

# Prepares the lane of a crate, and moves there what earlier builds of it have left.
open_lane() {
    local name names crates=$lanes/$1/crates home
    home=$(home_of "$1")
    mapfile -t names < <(below "$1")
    mkdir -p -- "$crates" && (IFS='|' && grep -E "^(${names[*]})[ :]" "$lanes/tree/crates.txt" > "$lanes/$1/crates.txt") || return
    for name in "${names[@]}"; do
        cp -a -l -- "$lanes/tree/crates/$name" "$crates/" || return
        if [[ $name != "$1" ]]; then
            mkdir -- "$crates/$name/out" && cp -a -l -- "$root/crates/$name/out/rlib" "$crates/$name/out/" || return
        fi
    done
    [[ ! -d $home/out ]] || flock -- "$home" mv -- "$home/out" "$crates/$1/"
}

# Moves what was made in the lane of a crate to its folder, once no other rt works there.
close_lane() {
    local made=$lanes/$1/crates/$1/out
    # shellcheck disable=SC2016 # the variables are those of the inner shell
    [[ ! -d $made ]] || flock -- "$(home_of "$1")" sh -c 'rm -rf -- "$1/out" && mv -- "$2" "$1/"' sh "$(home_of "$1")" "$made"
    rm -rf -- "${lanes:?}/$1"
}

# Ends what is being built, and closes all lanes. When rt ends, it ends the provers that it started.
end_lanes() {
    local lane
    [[ -d $lanes ]] || return 0
    # shellcheck disable=SC2046 # these are numbers
    kill $(jobs -p) 2> /dev/null
    wait
    rm -rf -- "$lanes/tree" "$lanes"/*.log
    for lane in "$lanes"/*/; do
        [[ ! -d $lane ]] || close_lane "$(basename -- "$lane")"
    done
    rm -rf -- "$lanes"
}

# Keeps other builds out until this shell ends, and puts back what one that was killed has left.
begin_lanes() {
    local lock
    exec {lock}< "$root/crates"
    flock -n "$lock" || give_up "another build is at work; start again when it is done"
    lanes=$root/out/lanes
    end_lanes
}

# Starts building a crate with a number of provers. rt also runs a program that it has built.
start_builder() {
    local words=(lib --jobs "$2")
    open_lane "$1" || give_up "there is no place to build $1 in"
    [[ ! -f $lanes/tree/crates/$1/src/main.rt ]] || words[0]=run
    [[ " ${PROGRAMS[*]} " != *" $1 "* ]] || words+=(-- --version)
    (cd -- "$lanes/$1/crates/$1" && exec rt "${words[@]}") > "$lanes/$1.log" 2>&1 < /dev/null &
    builders[$1]=$! provers[$1]=$2
}

# Whether a crate can be built now: it is not begun, and all that is below it is built.
is_ready() {
    local name
    [[ -z ${provers[$1]-} ]] || return
    for name in $(below "$1"); do
        [[ $name == "$1" || -n ${built[$name]-} ]] || return
    done
}

# Starts building what can be built with the provers that are idle. Each crate gets one, and the first those that are left over, up to
# four.
start_builders() {
    local name jobs ready=()
    for name in "${order[@]}"; do
        ! is_ready "$name" || ready+=("$name")
    done
    while ((idle > 0 && ${#ready[@]} > 0)); do
        jobs=$((idle - ${#ready[@]} + 1))
        jobs=$((jobs < 1 ? 1 : jobs < 4 ? jobs : 4))
        idle=$((idle - jobs))
        start_builder "${ready[0]}" "$jobs"
        ready=("${ready[@]:1}")
    done
}

# Takes what a builder that has ended made.
end_builder() {
    local status=0
    wait "${builders[$1]}" || status=$?
    unset "builders[$1]"
    close_lane "$1"
    if ((status != 0)); then
        tail -n 40 -- "$lanes/$1.log" >&2
        give_up "$1 was not built"
    fi
    idle=$((idle + provers[$1]))
    built[$1]=yes
    echo "$self: proved ${#built[@]} of ${#order[@]}: $1" >&2
}

# Waits until a builder has ended, and takes what those made that have. It looks, since `wait -n` misses builders that end at the same
# time.
await_builders() {
    local name before=${#built[@]}
    while ((${#built[@]} == before)); do
        sleep 0.1
        for name in "${!builders[@]}"; do
            kill -0 "${builders[$name]}" 2> /dev/null || end_builder "$name"
        done
    done
}

# Builds programs and all that is below them, from the sources that are there when it begins, and notes them. A script that calls it has
# `end_lanes` called when it ends.
build() {
    local name idle order began=$SECONDS
    local -A builders=() provers=() built=()
    [[ -n $(kit) ]] || give_up "there is no command rt of a Rattle kit on the path, to prove and build with"
    begin_lanes
    copy_sources "$lanes/tree" || give_up "there is no place for a copy of the sources"
    for name in "$@"; do
        [[ ! -d $root/trials/$name ]] || lay_trial "$name" || give_up "there is no place for the sources of $name"
    done
    mapfile -t order < <(longest_first "$@")
    idle=$(side_by_side "${PROVER_MEMORY[@]}")
    echo "$self: proving and building ${#order[@]} crates, which from nothing may take hours (provers at once: $idle)" >&2
    while ((${#built[@]} < ${#order[@]})); do
        start_builders
        await_builders
    done
    for name in "$@"; do
        [[ -d $root/trials/$name ]] || note_built "$name" "$(root=$lanes/tree sum_of "$name")"
    done
    end_lanes
    echo "$self: built in $(((SECONDS - began) / 60)) minutes and $(((SECONDS - began) % 60)) seconds" >&2
}
