# shellcheck shell=bash
# Makes an archive of volumes of 1,000,000 records by intakes, and measures what ./mailfile-store takes over its first volume, over the
# first 10 and 100, and over all. scripts/speed.bash sources this file after store_figures.bash.
#
# Volumes are filled in memory, where there is room for files, so that no capture waits for a disk. One that is full goes to the disk, and
# a link to it stands in its place.

: "${folder:?}" "${here:?}" "${root:?}" "${SMALL:?}" "${RUNS:?}"

# The records of the archive, how many are captured at once, and the size of a volume.
readonly ALL=${ALL:-1000000} BATCH=2500 VOLUME=${VOLUME:-32M}

# Over how many of the first volumes it is measured.
readonly FIRST=(1 10 100)

# A day by which some records of each volume are due, and the record that is shown and held.
readonly BY=2025-12-31 ONE=1/17

# Lays the plan, the rules and the mail of the archive.
lay_archive() {
    mkdir -p -- "$folder/volumes" "$here/rules/ann" "$here/box/new" "$here/box/cur" || return
    printf 'root = "10 years destroy"\n\n[[class]]\npath = "finance"\nschedule = "7 years destroy"\n' > "$here/plan.toml"
    printf 'require "fileinto";\nif header :matches "subject" ["*3", "*6", "*9"] { fileinto "finance"; }\n' > "$here/rules/ann/main.sieve"
    printf 'Subject: mail 3\n\nHello.\n' > "$here/letter"
    "$keeper" create --store "$here/archive" --plan "$here/plan.toml" --roll "$VOLUME" --by bench
}

# The number of the last volume of an archive.
last_of() {
    sed -n 's/^begun //p' "$1/volumes"
}

# The name of the file of a volume.
name_of() {
    printf '%04d.db' "$1"
}

# Moves the volumes of the archive that are full, before one, to the disk.
move_full_volumes() {
    local volume name
    for ((volume = $1 - 1; volume > 0; volume--)); do
        name=$(name_of "$volume")
        [[ ! -h $here/archive/$name ]] || return 0
        mv -- "$here/archive/$name" "$here/archive/$name-wal" "$folder/volumes/" && ln -s -- "$folder/volumes/$name" "$here/archive/$name" ||
            return
    done
}

# Captures all records. Each intake has a later day, from 2016 on.
fill_archive() {
    local first day
    for ((first = 1; first <= ALL; first += BATCH)); do
        write_messages "$BATCH" "$SMALL" "$here/box/new" "$first" || return
        day=$(date -u -d "2016-01-01 + $(((first - 1) * 3600 / ALL)) days" +%F)
        "$keeper" intake --store "$here/archive" --rules "$here/rules" --at "$day" --by bench --quiet ann "$here/box" > "$here/said" || return
        find "$here/box/cur" -type f -delete
        move_full_volumes "$(last_of "$here/archive")" || return
    done
}

# Makes an archive of the first volumes in `first`. The last one is a copy, and takes mail although it is over its size.
take_first() {
    local volume name
    rm -rf -- "${here:?}/first" && mkdir -- "$here/first" || return
    for ((volume = 1; volume < $1; volume++)); do
        name=$(name_of "$volume")
        ln -s -- "$(readlink -f -- "$here/archive/$name")" "$here/first/$name" || return
    done
    name=$(name_of "$1")
    cp -- "$here/archive/$name" "$here/first/$name" && set_size 1G "$1" && : > "$here/first/volumes.lock"
}

# Says of how many octets a volume of these may be.
set_size() {
    printf 'mailfile volumes 1\nsize %d\nbegun %d\n' "$(numfmt --from=iec "$1")" "$2" > "$here/first/volumes"
}

# The least seconds of the processor that a command takes in `runs` runs, and the greatest size that it has in kilobytes.
spent_by() {
    local turn TIMEFORMAT='%U %S'
    for ((turn = 0; turn < runs; turn++)); do
        if ! { time "$(type -P time)" -o "$here/size" -f %M "$@" < "$here/letter" > "$here/said" 2> "$here/told"; } 2> "$here/spent"; then
            cat -- "$here/told" >&2
            return 1
        fi
        awk 'NR == FNR { kilobytes = $1; next } { printf "%.3f %d\n", $1 + $2, kilobytes }' "$here/size" "$here/spent"
    done | sort -n | head -n 1
}

# The seconds of the openings of the first volumes, one after another, and the greatest size of these.
spent_by_openings() {
    local volume
    for ((volume = 1; volume <= $1; volume++)); do
        "$mailfile" --store "$here/first/$(name_of "$volume")" < /dev/null > "$here/said" || return
        spent_by "$mailfile" --store "$here/first/$(name_of "$volume")"
    done | awk '{ seconds += $1; if ($2 > most) most = $2 } END { print seconds, most }'
}


# A row: what was measured, and for each number of volumes the seconds and megabytes that were noted.
volume_row() {
    awk -v what="$1" '
        { cells = cells sprintf(" %s s, %d MB |", $1 < 10 ? sprintf("%.2f", $1) : sprintf("%.0f", $1), $2 / 1024) }
        END { printf "| %s |%s\n", what, cells }' "$here/row-$2"
}

# Notes what a subcommand takes over the first volumes.
note_spent() {
    spent_by "$keeper" "$2" --store "$here/first" "${@:3}" >> "$here/row-$1"
}

# What is measured over a number of volumes: three times, but once what takes long, and what a second run would not do again. The `deliver`
# that begins a volume comes last.
note_first() {
    local runs=$RUNS
    (($1 < 10)) || runs=1
    take_first "$1" && spent_by_openings "$1" >> "$here/row-openings" && note_spent due list --due "$BY" &&
        note_spent class list --class finance --count && note_spent check check && note_spent report report || return
    runs=$RUNS
    note_spent show show "$ONE" && note_spent deliver deliver --rules "$here/rules" --by bench ann || return
    runs=1
    note_spent hold hold --by bench bench "$ONE" && note_spent release release --by bench bench "$ONE" && set_size "$VOLUME" "$1" &&
        note_spent begin deliver --rules "$here/rules" --by bench ann
}

# The table of volumes.
volume_figures() {
    local keeper mailfile count last counts=()
    [[ -n $(type -P time) ]] || give_up "there is no program time on the path, which tells the memory of another"
    ensure_program mailfile
    ensure_program mailfile_store
    mailfile=$(program_of mailfile) keeper=$(program_of mailfile_store)
    lay_archive && fill_archive || return
    last=$(last_of "$here/archive")
    for count in "${FIRST[@]}"; do
        ((count >= last)) || counts+=("$count")
    done
    counts+=("$last")
    for count in "${counts[@]}"; do
        note_first "$count" || return
    done
    echo "| of $ALL records of $((SMALL / 1024)) KB, over so many volumes of $VOLUME |$(printf ' %d |' "${counts[@]}")"
    echo "|---|$(printf -- '---|%.0s' "${counts[@]}")"
    volume_row "the openings, one after another" openings
    volume_row "\`list --due $BY\`" due
    volume_row "\`list --class finance --count\`" class
    volume_row "\`check\`" check
    volume_row "\`report\`" report
    volume_row "\`hold\` of $ONE" hold
    volume_row "\`release\` of it" release
    volume_row "\`show $ONE\`" show
    volume_row "\`deliver\` into a last volume that is full" deliver
    volume_row "\`deliver\` that begins the next volume" begin
}
