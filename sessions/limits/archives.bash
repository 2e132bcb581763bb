# shellcheck shell=bash
# shellcheck disable=SC2154 # sessions/limits.bash, which sources this file, sets `folder`
# Cases of many records, late days, many holds and the last numbers.

readonly RECORDS=300000

# The schedules of the archive's five classes `c0` to `c4`. A second plan moves each one class on.
readonly SCHEDULES=(permanent '366000 days review' '1 years destroy year-end' '12000 months transfer' '30 days destroy')

# shellcheck disable=SC2016 # these are variables of awk
# The records of the archive, in awk: record i is in class i modulo 5, on one of the 84,006 days up to 2199-12-31, and one in seven is
# held. The first file has the dates of days.
readonly RECORD='
    NR == FNR { date[NR - 1] = $1; next }
    function kind(i, plan) { return (i % 5 + 4 * (plan - 1)) % 5 }
    function day(i) { return i * 7919 % 84006 }
    function is_held(i) { return i % 7 == 0 }
    function years_later(text, years,   part) {
        split(text, part, "-")
        part[1] += years
        if (part[2] part[3] == "0229" && (part[1] % 4 > 0 || part[1] % 100 == 0 && part[1] % 400 > 0)) part[3] = "28"
        return part[1] "-" part[2] "-" part[3]
    }
    function due(i, plan,   which) {
        which = kind(i, plan)
        if (which == 0) return "never"
        if (which == 1) return date[day(i) + 366000]
        if (which == 2) return substr(date[day(i)], 1, 4) + 1 "-12-31"
        return which == 3 ? years_later(date[day(i)], 1000) : date[day(i) + 30]
    }
    function line(i, plan) { return "record " i " class c" i % 5 " due " due(i, plan) }
    function destroyed(i, by) {
        if (is_held(i)) return "refused 81"
        if (kind(i, 2) != 2 && kind(i, 2) != 4) return "refused 83"
        return due(i, 2) > by ? "refused 82" : "ok"
    }'

# What awk prints for each record.
each_record() {
    echo | awk -v records=$RECORDS "$RECORD { for (i = 1; i <= records; i++) $1 }" "$folder/dates" -
}

# Asks for what is due by a day, which under a plan are the records for which a condition holds.
ask_due() {
    ask "DUE $2"
    each_record "{ if (due(i, $1) <= \"$2\" && $3) print line(i, $1) }" | in_due_order >&4
}

# Replaces the plan by one of the two.
ask_plan() {
    local class
    {
        echo 'root = "permanent"'
        for class in 0 1 2 3 4; do
            printf '[[class]]\npath = "c%d"\nschedule = "%s"\n' "$class" "${SCHEDULES[(class + 4 * ($1 - 1)) % 5]}"
        done
    } | ask_with 'PLAN @' ok
}

# Captures all records.
ask_records() {
    local class
    ask_plan 1
    for class in 0 1 2 3 4; do
        octets 'print "SFI1" four(2) two(1) two(0) two(0) two(2) text("c'$class'") code(17, 0, 0) code(20, 0, 0)' |
            ask_with "IMAGE o$class @" ok
    done
    each_record 'printf "BEGIN o%d %.0f 6\nhello\nTURN %d 2\nFINISH %d\n", i % 5, 86400 * day(i), i, i' >&3
    each_record 'print "ticket " i " budget 2\nended 2\n" line(i, 1)' >&4
}

# Places the holds.
ask_holds() {
    each_record 'if (is_held(i)) print "HOLD audit " i' >&3
    each_record 'if (is_held(i)) print "ok"' >&4
}

# Destroys each record that may be destroyed by a day under the second plan, and asks that of all others.
ask_destructions() {
    each_record "print \"DESTROY \" i \" $1\"" >&3
    each_record "print destroyed(i, \"$1\")" >&4
}

# 300,000 records, listed, held, revised and destroyed by sessions of which each finds what the ones before have left.
archive() {
    local by=2100-06-30
    dates 450005 > "$folder/dates"
    part 1
    ask_records
    part 2
    ask_due 1 9999-12-31 1
    ask_holds
    ask_due 1 2100-12-31 '! is_held(i)'
    part 3
    ask_plan 2
    ask_due 2 9999-12-31 '! is_held(i)'
    part 4
    ask_due 2 2199-12-31 '! is_held(i)'
    ask_destructions "$by"
    part 5
    ask_due 2 9999-12-31 "! is_held(i) && destroyed(i, \"$by\") != \"ok\""
    ask "DESTROY 7 $by" 'refused 81'
    ask "DESTROY $((RECORDS + 1)) $by" 'refused 80'
    ask "HOLD audit $((RECORDS + 1))" 'refused 80'
    ask_capture ann 0 1 1 1 "record $((RECORDS + 1)) class unfiled due never" < /dev/null
}

# SQL that makes the tables of version 1, with the rows of a plan that has `unfiled` alone.
tables_of_version_1() {
    cat << 'SQL'
CREATE TABLE message (number INTEGER PRIMARY KEY, body BLOB NOT NULL) STRICT;
CREATE TABLE record (number INTEGER PRIMARY KEY, message INTEGER NOT NULL, path TEXT NOT NULL, day INTEGER NOT NULL, destroyed INTEGER NOT NULL) STRICT;
CREATE TABLE hold (name TEXT NOT NULL, record INTEGER NOT NULL, PRIMARY KEY (name, record)) STRICT;
CREATE TABLE meta (key TEXT NOT NULL PRIMARY KEY, value TEXT NOT NULL) STRICT;
CREATE TABLE class (path TEXT NOT NULL PRIMARY KEY, is_open INTEGER NOT NULL, schedule TEXT) STRICT;
INSERT INTO meta VALUES ('version', '1'), ('root', 'permanent');
INSERT INTO class VALUES ('unfiled', 1, NULL);
SQL
}

# The records of such an archive in tables of version 1.
version_1() {
    local class
    dates 450005 > "$folder/dates"
    {
        tables_of_version_1
        for class in 0 1 2 3 4; do
            echo "INSERT INTO class VALUES ('c$class', 1, '${SCHEDULES[class]}');"
        done
        echo "BEGIN; CREATE TEMP TABLE numbers (i); WITH RECURSIVE n (i) AS (SELECT 1 UNION ALL SELECT i + 1 FROM n WHERE i < $RECORDS)
            INSERT INTO numbers SELECT i FROM n; INSERT INTO message SELECT i, x'6869' FROM numbers;
            INSERT INTO record SELECT i, i, 'c' || (i % 5), i * 7919 % 84006, 0 FROM numbers; COMMIT;"
    } > "$folder/0.sql"
    part 1
    ask_due 1 9999-12-31 1
    ask_plan 2
    ask_due 2 2100-12-31 1
    part 2
    ask_due 2 9999-12-31 1
}

# Captures of 2150 to 2199 under the longest schedules, of which the last one is due on 3202-12-31.
late_days() {
    part 1
    ask_root '1 years destroy'
    echo a | ask_capture ann 5680281600 1 1 1 'record 1 class unfiled due 2151-01-01'
    echo b | ask_capture ann 5694537600 2 1 1 'record 2 class unfiled due 2151-06-15'
    echo c | ask_capture ann 5711817599 3 1 1 'record 3 class unfiled due 2151-12-31'
    echo d | ask_capture ann 7136985600 4 1 1 'record 4 class unfiled due 2197-02-28'
    echo e | ask_capture ann 7258118399 5 1 1 'record 5 class unfiled due 2200-12-31'
    ask 'BEGIN ann 7258118400 0' 'refused 94'
    ask 'DUE 2150-12-31' ok
    part 2
    ask 'DUE 2151-06-15' 'record 1 class unfiled due 2151-01-01' 'record 2 class unfiled due 2151-06-15' ok
    ask 'DESTROY 2 2151-06-14' 'refused 82'
    ask 'DESTROY 2 2151-06-15' ok
    ask 'DUE 9999-12-31' 'record 1 class unfiled due 2151-01-01' 'record 3 class unfiled due 2151-12-31' \
        'record 4 class unfiled due 2197-02-28' 'record 5 class unfiled due 2200-12-31' ok
    ask_root '366000 days destroy'
    part 3
    ask 'DUE 9999-12-31' 'record 1 class unfiled due 3152-01-29' 'record 3 class unfiled due 3153-01-27' \
        'record 4 class unfiled due 3198-03-28' 'record 5 class unfiled due 3202-01-27' ok
    ask 'DESTROY 1 3152-01-28' 'refused 82'
    ask 'DESTROY 1 3152-01-29' ok
    ask_root '366000 days destroy year-end'
    part 4
    ask 'DUE 3202-12-30' 'record 3 class unfiled due 3153-12-31' 'record 4 class unfiled due 3198-12-31' ok
    ask 'DESTROY 5 3202-12-30' 'refused 82'
    ask 'DESTROY 5 3202-12-31' ok
    ask 'HOLD audit 3' ok
    ask_root '12000 months destroy'
    part 5
    ask 'DUE 9999-12-31' 'record 4 class unfiled due 3196-02-29' ok
    ask 'DESTROY 3 9999-12-31' 'refused 81'
    ask 'RELEASE audit 3' ok
    ask_root '1000 years destroy'
    ask 'DUE 3150-12-31' 'record 3 class unfiled due 3150-12-31' ok
    ask 'DESTROY 3 9999-12-31' ok
    ask 'DESTROY 4 9999-12-31' ok
    ask 'DUE 9999-12-31' ok
    ask 'DESTROY 4 9999-12-31' 'refused 84'
    ask 'DUE 1970-01-01' ok
    echo 'SELECT number, destroyed FROM record; SELECT count(*) FROM message; SELECT count(*) FROM due_day;' > "$folder/5.sql"
    answers '1|1' '2|1' '3|1' '4|1' '5|1' 0 0 > "$folder/5.rows"
}

# A record with 200,000 holds, of which each even one is released.
holds() {
    part 1
    ask_root '1 days destroy'
    ask_capture ann 0 1 1 1 'record 1 class unfiled due 1970-01-02' < /dev/null
    seq -f 'HOLD h%.0f 1' 200000 >&3
    lines 200000 ok >&4
    part 2
    seq -f 'RELEASE h%.0f 1' 2 2 200000 >&3
    lines 100000 ok >&4
    seq -f 'HOLD h%.0f 1' 200000 >&3
    lines 200000 $'refused 86\nok' >&4
    ask 'DESTROY 1 9999-12-31' 'refused 81'
    part 3
    seq -f 'RELEASE h%.0f 1' 200000 >&3
    lines 200000 ok >&4
    ask 'RELEASE h1 1' 'refused 85'
    ask 'DESTROY 1 9999-12-31' ok
    ask 'HOLD h1 1' 'refused 84'
}

# The last record numbers, in a store of version 1 that sqlite3 made.
numbers() {
    {
        tables_of_version_1
        echo "INSERT INTO class VALUES ('tax', 1, '1 days destroy');
            INSERT INTO message VALUES (4294967293, x'61'); INSERT INTO record VALUES (4294967293, 4294967293, 'tax', 84005, 0);"
    } > "$folder/0.sql"
    part 1
    octets 'print "SFI1" four(3) two(1) two(0) two(0) two(3) text("tax") code(17, 0, 0) code(18, 0, 0) code(20, 0, 0)' |
        ask_with 'IMAGE ann @' ok
    echo b | ask_with 'BEGIN ann 0 @' 'ticket 1 budget 3'
    echo c | ask_with 'BEGIN ann 0 @' 'ticket 2 budget 3'
    ask 'TURN 1 3' 'ended 3'
    ask 'TURN 2 3' 'ended 3'
    ask 'FINISH 2' 'record 4294967294 class tax due 1970-01-02' 'record 4294967295 class unfiled due never'
    ask 'FINISH 1' 'refused 87'
    ask 'DUE 9999-12-31' 'record 4294967294 class tax due 1970-01-02' 'record 4294967293 class tax due 2200-01-01' ok
    part 2
    ask 'DESTROY 4294967295 9999-12-31' 'refused 83'
    ask 'DESTROY 4294967294 9999-12-31' ok
    ask 'HOLD audit 4294967295' ok
    echo d | ask_with 'BEGIN ann 0 @' 'ticket 1 budget 1'
    ask 'TURN 1 1' 'ended 1'
    ask 'FINISH 1' 'refused 87'
    ask 'HOLD audit 4294967296' 'refused 80'
}
