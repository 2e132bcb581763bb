# shellcheck shell=bash
# Runs the statements of the store's calls in the system's sqlite3, on a database that `measures store` has left. A script that
# sources this file sets `folder`, in which files are made.

: "${folder:?}"

# The number of runs of a call.
readonly SQLITE3_RUNS=10

# The number of calls in a run, the same as in `measures store`.
calls_of() {
    case $1 in
        due | revise | adopt) echo 1 ;;
        *) echo 100 ;;
    esac
}

# The statements for a run of a call, on the records from a given number on.
statements_of() {
    local call=$1 database=$2 first=$3 numbers
    numbers=$(seq "$first" "$((first + $(calls_of "$call") - 1))")
    echo '.dbconfig no_ckpt_on_close on'
    echo 'PRAGMA synchronous = FULL;'
    # shellcheck disable=SC2086 # numbers are words
    case $call in
        due)
            echo "SELECT due_day.record, due_day.day, record.path FROM due_day JOIN record ON record.number = due_day.record WHERE due_day.day <= (SELECT day FROM due_day ORDER BY day LIMIT 1 OFFSET (SELECT count(*) / 10 - 2 FROM due_day) + (SELECT count(*) / 9 FROM hold)) ORDER BY due_day.day, due_day.record;"
            ;;
        message) printf 'SELECT body FROM message WHERE number = %d;\n' $numbers ;;
        hold) printf "BEGIN; INSERT INTO hold (name, record) VALUES ('bench', %d); COMMIT;\n" $numbers ;;
        release) printf "BEGIN; DELETE FROM hold WHERE name = 'bench' AND record = %d; COMMIT;\n" $numbers ;;
        capture)
            for number in $numbers; do
                echo "BEGIN; INSERT INTO message (number, body) VALUES ($number, zeroblob(2048)); INSERT INTO record (number, message, path, day, destroyed) VALUES ($number, $number, 'tax', 30000, 0); INSERT INTO due_day (record, day) VALUES ($number, 31000); COMMIT;"
            done
            ;;
        destroy)
            for number in $numbers; do
                echo "BEGIN; DELETE FROM due_day WHERE record = $number; UPDATE record SET destroyed = 1 WHERE number = $number; DELETE FROM message WHERE number = $number; COMMIT;"
            done
            ;;
        revise)
            echo "BEGIN; DELETE FROM class; INSERT INTO class (path, is_open, schedule) VALUES ('tax', 1, NULL), ('unfiled', 1, NULL); DELETE FROM schedule; INSERT INTO schedule (path, count, unit, action, year_end) VALUES ('', 0, 0, 0, 0), ('tax', 1000, 1, 3, 0);"
            echo 'DROP TABLE due_day; CREATE TABLE due_day (record INTEGER PRIMARY KEY, day INTEGER NOT NULL) STRICT; CREATE INDEX due_by_day ON due_day (day, record);'
            sqlite3 -batch "$database" "SELECT 'INSERT INTO due_day (record, day) VALUES (' || record || ', ' || (day + 1) || ');' FROM due_day ORDER BY record"
            echo 'COMMIT;'
            ;;
        adopt)
            echo 'SELECT key, value FROM meta ORDER BY key; SELECT path, count, unit, action, year_end FROM schedule ORDER BY path; SELECT path, is_open, schedule FROM class ORDER BY path;'
            echo 'SELECT number, message, path, day, destroyed FROM record ORDER BY number; SELECT number FROM message ORDER BY number; SELECT name, record FROM hold ORDER BY record, name; SELECT record, day FROM due_day ORDER BY record;'
            ;;
    esac
}

# The nanoseconds in which sqlite3 runs the statements of a file.
nanoseconds_of() {
    local start
    start=$(date +%s%N)
    sqlite3 -batch "$1" < "$2" > "$folder/answers" || return
    echo $(($(date +%s%N) - start))
}

# The least nanoseconds of a call, without the start of the program.
sqlite3_time() {
    local call=$1 database=$2 first=$3 run spent least=0 start
    statements_of none "$database" 1 > "$folder/none"
    start=$(for ((run = 0; run < SQLITE3_RUNS; run++)); do nanoseconds_of "$database" "$folder/none" || return; done | sort -n | head -n 1)
    for ((run = 0; run < SQLITE3_RUNS; run++)); do
        statements_of "$call" "$database" $((first + run * 100)) > "$folder/statements" || return
        spent=$(nanoseconds_of "$database" "$folder/statements") || return
        if ((least == 0 || spent < least)); then
            least=$spent
        fi
    done
    ((least > start)) || least=$((start + 1))
    echo $(((least - start) / $(calls_of "$call")))
}

# The first record of a run: a new one where one is captured, or destroyed after that.
first_of() {
    case $1 in
        capture | destroy) echo "$2" ;;
        *) echo 1 ;;
    esac
}

# Adds a row for sqlite3 to each row that `measures store` has printed for a database: the call, and a capture's share of its rate.
sqlite3_rows() {
    local database=$1 over=$2 next title word number size spent rest call plain asked
    if command -v sqlite3 > /dev/null; then
        sqlite3 -batch "$database" 'PRAGMA journal_mode = WAL' > "$folder/answers" || return
        next=$(sqlite3 -batch "$database" 'SELECT max(number) + 1 FROM record') || return
    fi
    while IFS=$'\t' read -r title word number size spent rest; do
        [[ $title == *", $over" && $word != growth && $word != same ]] || continue
        call=${title#\`}
        call=${call%%\`*}
        asked=$'nothing\t0'
        if [[ $call == capture ]]; then
            asked=$'share\t8'
        fi
        if [[ -z ${next-} ]]; then
            printf '%s\tnothing\t0\t%s\t%s\t%s\t%s\tsqlite3, not installed\t0\t0\t0\n' "$title" "$size" "$spent" "$size" "$spent"
            continue
        fi
        plain=$(sqlite3_time "$call" "$database" "$(first_of "$call" "$next")") || return
        printf '%s\t%s\t%s\t%s\t%s\t%s\tsqlite3\t%s\t0\t0\n' "$title" "$asked" "$size" "$spent" "$size" "$spent" "$plain"
    done
}
