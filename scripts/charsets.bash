# shellcheck shell=bash
# Compares the tables of charsets with the system's iconv. A script that sources this file sets `root`, and has scripts/counts.bash.
: "${root:?}"

# The name that iconv has for a table.
charset_of_table() {
    local name=${1//_/-}
    echo "${name/WINDOWS-/CP}"
}

# The names of the tables.
charset_tables() {
    sed -n 's/^pub static \([A-Z0-9_]*\): .*/\1/p' "$root/crates/mail_charsets/src/tables.rt"
}

# The code points of a table, one a line, in order.
table_code_points() {
    sed -n "/^pub static $1: /,/^];/p" "$root/crates/mail_charsets/src/tables.rt" | grep -o '{[0-9A-F]*}' | tr -d '{}'
}

# The code points that iconv has for the octets 128 to 255 of a charset, one a line: FFFD where it has none.
iconv_code_points() {
    local octet
    for ((octet = 128; octet < 256; octet++)); do
        # shellcheck disable=SC2059
        printf "\\x$(printf '%x' "$octet")\n"
    done | iconv -c -f "$1" -t UTF-16BE | od -An -v -tx1 -w2 | tr -d ' ' | tr a-f A-F | awk '
        $1 == "000A" { print last == "" ? "FFFD" : last; last = ""; next }
        { last = $1 }'
}

# Whether a table is what iconv has.
is_as_iconv() {
    local table
    table=$(table_code_points "$1")
    [[ $(wc -l <<< "$table") == 128 && $table == "$(iconv_code_points "$(charset_of_table "$1")")" ]]
}

charsets() {
    local table
    for table in $(charset_tables); do
        count "the table $table is as iconv has it" is_as_iconv "$table"
    done
    group 'tables of charsets beside iconv'
}
