# shellcheck shell=bash
# Finds proved programs. A program is started only where it was proved from the present sources: it was built here, or it is the one in
# dist/. A script that sources this file sets `root`, the folder of the repository, and `self`, the name in its messages. Where there is
# no program, it ends with the status 125.
#
# dist/MANIFEST says of each program in dist/ from which sources it was made, and its sha256 and size; dist/COMMAND.gz has it. The first
# start unpacks it, and notes the program that it found with the times and sizes of the sources. While these stay the same, later starts
# take that program at once (scripts/start.sh).

: "${root:?}" "${self:?}"

# The crates of the programs. Each is started by a script whose name has `-` for each `_`.
# shellcheck disable=SC2034 # for the scripts that source this file
PROGRAMS=(mailfile mailfile_tool mailfile_store)

# The folder of programs that nothing can keep. Who starts one removes it.
private=

# What dist/ says of a program: see read_manifest.
dist_system='' dist_kit='' dist_sum='' dist_sha256='' dist_octets=''

# The programs that were found.
declare -A found=()

give_up() {
    echo "$self: $1" >&2
    exit 125
}

# Ends with what the comment at the head of the script says, but for what it says to shellcheck.
print_help() {
    sed -n -e '/^# shellcheck /d' -e '2,/^[^#]/ s/^# \{0,1\}//p' "$0"
    exit
}

# Ends a script that was given other words than it takes.
usage() {
    echo "usage: $1" >&2
    exit 2
}

# Gives up on a program that is to be built first.
give_up_unbuilt() {
    give_up "$2; prove and build it from the sources: ./prove --build ${1//_/-}"
}

give_up_on_dist() {
    give_up "$1; get dist/ again (git checkout -- dist), or prove and build from the sources (./prove --build)"
}

# The libraries of the repository below some crates, each after those that it uses, and then these crates.
crates_below() {
    awk -v tops="$*" '
        function visit(name, words, count, i) {
            if (name in needs && !(name in seen)) {
                seen[name] = 1
                count = split(needs[name], words)
                for (i = 1; i <= count; i++) visit(words[i])
                print name
            }
        }
        { sub(/#.*/, "") }
        /:/ { needs[$1 ~ /:$/ ? substr($1, 1, length($1) - 1) : $1] = substr($0, index($0, ":") + 1) }
        END { count = split(tops, top); for (i = 1; i <= count; i++) visit(top[i]) }
    ' "$root/crates.txt"
}

# The folders with the sources of a program, below the folder of the repository. Proofs are none of them: they decide whether a program
# is built, and not what is in it.
source_folders() {
    local name part
    for name in $(crates_below "$1"); do
        for part in src specs; do
            [[ ! -d $root/crates/$name/$part ]] || echo "crates/$name/$part"
        done
    done
}

# A sum of the sources of a program. An edit of a crate that is not below the program leaves it as it is.
sum_of() {
    local names parts
    mapfile -t names < <(crates_below "$1")
    mapfile -t parts < <(source_folders "$1")
    ((${#parts[@]} > 0)) || return
    (
        cd -- "$root" || exit
        IFS='|'
        grep -E "^(${names[*]})[ :]" crates.txt || exit
        find "${parts[@]}" -type f -print0 | LC_ALL=C sort -z | xargs -0 sha256sum --
    ) | sha256sum | cut -d ' ' -f 1
}

sha256_of() {
    sha256sum < "$1" | cut -d ' ' -f 1
} 2> /dev/null

# What `stat` says of paths, which are absolute or below the folder of the repository: as in scripts/start.sh.
states_of() (
    cd -- "$root" && LC_ALL=C exec stat -c '%.9Z %s' -- "$@"
) 2> /dev/null

# Reads the sources of a program: sets `paths` to all of its files and folders, and `sum` to the sum of the files. It first sets `states`,
# so that an edit during a start is seen by the next one. A folder's state changes when a file comes or goes.
read_sources() {
    local names parts
    mapfile -t names < <(crates_below "$1")
    mapfile -t parts < <(source_folders "$1")
    mapfile -d '' paths < <(cd -- "$root" && find "${parts[@]}" -print0)
    paths+=(crates.txt "${names[@]/#/crates/}")
    states=$(states_of "${paths[@]}") || states=
    sum=$(sum_of "$1")
}

# A text as one word of a shell.
quoted() {
    printf "'%s'" "${1//\'/\'\\\'\'}"
}

# Writes a note of the program that was found: see scripts/start.sh. Nothing is noted where `stat` doesn't tell times in full, or a path
# of a source has more than one line.
note_program() {
    local state lines time='^[0-9]+\.[0-9]{9} [0-9]+$'
    state=$(states_of "$program")
    lines=$(printf '%s\n' "${paths[@]}")
    [[ $state =~ $time && -n $states && $(wc -l <<< "$lines") -eq ${#paths[@]} ]] || return 0
    printf '%s=%s\n' program "$(quoted "$program")" paths "$(quoted "$lines")" states "$(quoted "$state"$'\n'"$states")" > "$1.$$" &&
        mv -f -- "$1.$$" "$1"
} 2> /dev/null

# Whether a program was built here from the present sources.
is_built() {
    local file=$root/crates/$1/out/$1 built
    [[ -x $file && -r $file.built ]] && mapfile -t built < "$file.built" &&
        [[ ${built[0]-} == "$sum" && ${built[1]-} == "$(sha256_of "$file")" ]]
}

# Reads what dist/ says of a program: sets `dist_system` and `dist_kit`, and `dist_sum`, `dist_sha256` and `dist_octets`, which are
# empty where it has no such program. Fails where that cannot be read.
read_manifest() {
    local word rest sums='^[0-9a-f]{64} [0-9a-f]{64} [1-9][0-9]{0,8}$'
    dist_system='' dist_kit='' dist_sum='' dist_sha256='' dist_octets=''
    while read -r word rest; do
        case $word in
            system) dist_system=$rest ;;
            kit) dist_kit=$rest ;;
            "$1") [[ $rest =~ $sums ]] && read -r dist_sum dist_sha256 dist_octets <<< "$rest" || return ;;
        esac
    done < "$root/dist/MANIFEST"
    [[ -n $dist_system && -n $dist_kit ]]
} 2> /dev/null

# Gives up where dist/ does not have the program from the present sources, for this system.
require_in_dist() {
    local system command=${1//_/-}
    system="$(uname -s) $(uname -m)"
    if [[ ! -e $root/dist ]]; then
        give_up_unbuilt "$1" "there is no dist/"
    elif ! read_manifest "$1"; then
        give_up_on_dist "dist/MANIFEST is missing or damaged"
    elif [[ -z $dist_sum ]]; then
        give_up_unbuilt "$1" "dist/ has no $command"
    elif [[ $dist_sum != "$sum" ]]; then
        give_up_unbuilt "$1" "dist/ has $command from other sources"
    elif [[ $dist_system != "$system" ]]; then
        give_up_unbuilt "$1" "dist/ has programs for $dist_system, and this is $system"
    fi
}

# Unpacks a program of dist/ into a file. A program other than the one in MANIFEST is reported, and never started.
unpack_to() {
    local gz=dist/${1//_/-}.gz piped
    [[ -f $root/$gz ]] || give_up_on_dist "$gz is missing"
    gzip -d -c < "$root/$gz" 2> /dev/null | head -c $((dist_octets + 1)) > "$2"
    piped=("${PIPESTATUS[@]}")
    ((piped[1] == 0)) || give_up "$2 cannot be written"
    if [[ $(sha256_of "$2") != "$dist_sha256" ]]; then
        rm -f -- "$2"
        give_up_on_dist "$gz is damaged, or is another file than dist/MANIFEST says"
    fi
    chmod -- +x "$2"
}

# Sets `kept` to the first folder that can keep what is unpacked and noted: one in the checkout, or one of the user's for a checkout that
# cannot be written.
find_folder() {
    local folder own=${XDG_CACHE_HOME:-${HOME:+$HOME/.cache}}
    for folder in "$root/out" ${own:+"$own/mailfile$root/out"}; do
        if mkdir -p -- "$folder" 2> /dev/null && [[ -w $folder ]]; then
            kept=$folder
            return
        fi
    done
}

# Takes a program from dist/, where it is the one from the present sources and starts on this system. Sets `program`. Starts at the same
# time each unpack a file of their own, and the last one stays.
take_from_dist() {
    local said new
    require_in_dist "$1"
    if [[ -z $kept$private ]]; then
        private=$(mktemp -d) || give_up "there is no folder to unpack the program into"
    fi
    program=${kept:-$private}/$1
    if [[ ! -x $program || $(sha256_of "$program") != "$dist_sha256" ]]; then
        new=$program.$$
        unpack_to "$1" "$new"
        if ! said=$("$new" --version 2>&1 < /dev/null); then
            rm -rf -- "$new" ${private:+"$private"}
            give_up_unbuilt "$1" "the program in dist/ does not start here (${said##*: })"
        fi
        mv -f -- "$new" "$program" || give_up "$program cannot be written"
    fi
    program=${program#"$root/"}
}

# Makes sure that a program is there that was proved from the present sources, and notes it; otherwise gives up.
ensure_program() {
    local program paths states sum kept=
    for program in awk find gzip sha256sum sort xargs; do
        command -v "$program" > /dev/null || give_up "there is no $program on the path, which a start takes"
    done
    read_sources "$1" || give_up "the sources of $1 cannot be read"
    find_folder
    if is_built "$1"; then
        program=crates/$1/out/$1
    else
        take_from_dist "$1"
    fi
    [[ -z $kept ]] || note_program "$kept/$1.note"
    [[ $program == /* ]] || program=$root/$program
    found[$1]=$program
}

# The path of a program that was found.
program_of() {
    echo "${found[$1]}"
}
