# shellcheck shell=bash
# Makes dist/, compares programs with it, and checks that it is whole. A script that sources this file has sourced
# scripts/build.bash.

: "${root:?}" "${PROGRAMS:?}" "${dist_sum?}" "${dist_kit?}" "${dist_sha256?}" "${dist_octets?}"

# Writes the programs that are built to a folder, compressed, and what MANIFEST says of them.
fill_dist() {
    local name program
    {
        echo "# The proved programs, by ./prove --dist: the crate of each, a sum of its sources, and the sha256 and size of the program."
        echo "system $(uname -s) $(uname -m)"
        echo "kit $(kit)"
        for name in "${PROGRAMS[@]}"; do
            program=$root/crates/$name/out/$name
            gzip -9 -n -c < "$program" > "$1/${name//_/-}.gz" || return
            echo "$name $(sum_of "$name") $(sha256_of "$program") $(stat -c %s -- "$program")"
        done
    } > "$1/MANIFEST"
}

# Replaces dist/ by the programs that are built.
write_dist() {
    local new=$root/out/dist.new
    rm -rf -- "$new"
    if ! { mkdir -p -- "$new" && fill_dist "$new" && rm -rf -- "$root/dist" && mv -- "$new" "$root/dist"; }; then
        give_up "dist/ was not written"
    fi
    (cd -- "$root" && wc -c -- dist/*)
}

# Whether a program that is built is the one of dist/, octet for octet.
is_dist_program() {
    gzip -d -c < "$root/dist/${1//_/-}.gz" | cmp - "$root/crates/$1/out/$1"
}

# Compares the programs that were built with those of dist/, where these are from the same sources, by a kit of the same logic. A
# difference is a failure where it is the same kit, and is told where it is another.
compare_dist() {
    local name sum kit
    kit=$(kit)
    for name in "${PROGRAMS[@]}"; do
        if ! { read_manifest "$name" && [[ -n $dist_sum ]]; }; then
            echo "$name is not compared: dist/ has none"
        elif [[ ${dist_kit#* } != "${kit#* }" ]]; then
            echo "$name is not compared: dist/ has it by $dist_kit, and this is $kit"
        elif ! sum=$(sum_of "$name") || [[ $dist_sum != "$sum" ]]; then
            echo "$name is not compared: dist/ has it from other sources"
        elif [[ $dist_kit == "$kit" ]]; then
            count "$name is not that of dist/, from the same sources and by the same kit" is_dist_program "$name"
        elif is_dist_program "$name" &> /dev/null; then
            echo "$name is that of dist/, where it is by $dist_kit"
        else
            echo "$name is another by $kit than in dist/, where it is by $dist_kit, from the same sources"
        fi
    done
    group "programs that are those of dist/"
}

# Whether a program of dist/ is what MANIFEST says, and nothing else.
is_whole() {
    local file=$root/dist/${1//_/-}.gz
    read_manifest "$1" && gzip -t "$file" && [[ -n $dist_sum && $(gzip -d -c < "$file" | sha256sum) == "$dist_sha256 "* ]] &&
        [[ $(gzip -d -c < "$file" | wc -c) -eq $dist_octets ]]
}

# Whether dist/ has no file but MANIFEST and those of the programs.
has_no_other() {
    [[ $(cd -- "$root/dist" && find . -mindepth 1 | wc -l) -eq $((1 + ${#PROGRAMS[@]})) ]]
}

# Checks that dist/ is whole, if it is there.
check_dist() {
    local name sum
    if [[ ! -e $root/dist ]]; then
        echo "there is no dist/ to check"
        return
    fi
    for name in "${PROGRAMS[@]}"; do
        count "$name in dist/" is_whole "$name"
        sum=$(sum_of "$name")
        [[ ${dist_sum-} == "$sum" ]] || echo "dist/ has $name from other sources than these"
    done
    count "no other file in dist/" has_no_other
    group dist
}
