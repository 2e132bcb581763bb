#!/usr/bin/env bash
# shellcheck disable=SC2317 # count calls its checks by their names
# Writes docs/report.svg, the picture in README.md: the head, the classes and the columns of a page that `mailfile-store report` prints. The
# archive of that page is made of examples/start: its invoice comes several times a year, from 2013 to 2023. ./test sources this file, and
# checks that the picture in docs/ is that one; run by itself, it writes the picture anew.

: "${work:=$(mktemp -d)}"

# The day of the report.
readonly REPORT_DAY=2023-11-28

# What is captured: the days, and on each how many messages of which file.
readonly CAPTURES='2013-05-02 2 invoice
2014-05-02 4 invoice
2015-05-02 3 invoice
2016-05-02 5 invoice
2016-12-02 3 invoice
2017-05-04 7 invoice
2018-05-03 4 invoice
2019-05-02 6 invoice
2020-05-02 5 invoice
2021-05-02 8 invoice
2022-05-02 6 invoice
2023-02-09 4 letter
2023-05-04 3 invoice
2023-09-01 2 lunch
2023-09-02 5 letter'

# Captures a message on a day, so many times.
capture() {
    local moment copy mail=$work/pictured/mail
    moment=$(date -u -d "$1" +%s) || return
    for ((copy = 0; copy < $2; copy++)); do
        cp -- "$work/pictured/$3.eml" "$mail/new/$1-$copy.eml" || return
    done
    ./mailfile-store intake --store "$work/pictured/records.db" --rules examples/start/rules --at "$moment" ann "$mail"
}

# Makes that archive, and the page of the report on it. What is due by the end of 2020 is destroyed, and three records are on hold.
make_pictured() {
    local store=$work/pictured/records.db day number message
    mkdir -p -- "$work/pictured/mail"/{new,cur,tmp} && cp -- examples/start/invoice.eml "$work/pictured" &&
        printf 'List-Id: <all@example.org>\n\n' > "$work/pictured/letter.eml" && printf 'Subject: Lunch\n\n' > "$work/pictured/lunch.eml" &&
        ./mailfile-store create --store "$store" --plan examples/start/plan.toml || return
    while read -r day number message; do
        capture "$day" "$number" "$message" || return
    done <<< "$CAPTURES"
    ./mailfile-store dispose --store "$store" --day 2020-12-31 --yes && ./mailfile-store hold --store "$store" lawsuit 7 8 9 &&
        ./mailfile-store report --store "$store" --day "$REPORT_DAY" > "$work/pictured/report.html"
}

# The picture of a page: its heading, some of its facts, the rows of its classes, and its columns as they are in the page.
drawn() {
    awk '
        function plain(s) { gsub(/<[^>]*>/, "", s); return s }
        function words(s) { gsub(/<\/(th|td|dt|dd)>/, "\t", s); s = plain(s); sub(/\t$/, "", s); return s }
        function put(x, y, style, s) { if (s != "") printf "<text x=\"%d\" y=\"%d\" class=\"%s\">%s</text>\n", x, y, style, s }
        function rule(y) { printf "<line class=\"grid\" x1=\"24\" y1=\"%d\" x2=\"776\" y2=\"%d\"/>\n", y, y }
        function row(s, style, cells, number, i) {
            number = split(words(s), cells, "\t")
            for (i = 1; i <= number; i++) put(X[i], y, style (i > 3 ? " n" : ""), cells[i])
            rule(y + 8)
            y += 25
        }
        BEGIN {
            split("32 180 300 400 460 520 615 768", X, " ")
            print "<svg xmlns=\"http://www.w3.org/2000/svg\" viewBox=\"0 0 800 570\" role=\"img\" aria-label=\"A disposal report\">"
            print "<style>text { font: 13px Arial, \"Liberation Sans\", sans-serif; fill: #16191d }"
            print ".b { font-weight: bold } .h { font-size: 22px }"
            print ".n { text-anchor: end } .f { fill: #59616b } .axis { stroke: #16191d } .grid { stroke: #b9c0c9 } .c-due { fill: #a3261f }"
            print ".day { stroke: #16191d; stroke-dasharray: 5 3 } .c-later { fill: #3c6fa6 }</style>"
            print "<rect width=\"800\" height=\"570\" rx=\"6\" fill=\"#fff\" stroke=\"#b9c0c9\"/>"
        }
        /^<h1>/ { put(24, 40, "b h", plain($0)) }
        /^<dt>(Records|On hold|Due by)/ {
            split(words($0), fact, "\t")
            put(24, 66 + 20 * facts, "f", fact[1]); put(150, 66 + 20 * facts, "", fact[2])
            facts++
        }
        /<h2 id="classes">/ { within = 1; y = 150; print "<rect x=\"24\" y=\"132\" width=\"752\" height=\"26\" fill=\"#f1f4f7\"/>" }
        /<h2 id="when">/ { within = 0 }
        within && /^<thead>/ { row($0, "b") }
        within && /^<tr><th scope="row"/ { row($0, "") }
        # The last row has one cell in place of the first three.
        within && /^<tfoot>/ { sub("</th>", "</th></td></td>"); row($0, "b") }
        /^<svg viewBox/ { drawing = 1; print "<g transform=\"translate(24 290)\">"; next }
        /^<\/svg>/ && drawing { drawing = 0; print "</g>" }
        drawing { print }
        END { print "</svg>" }
    ' "$1"
}

# Whether the picture in docs/ is that of the page which the program prints.
is_pictured() {
    make_pictured > "$work/said" 2>&1 && drawn "$work/pictured/report.html" | cmp - docs/report.svg
}

picture() {
    count "docs/report.svg is what scripts/picture.bash writes" is_pictured
    group "the picture in README.md"
}

if [[ ${BASH_SOURCE[0]} == "$0" ]]; then
    cd -- "$(dirname -- "$(dirname -- "$(readlink -f -- "$0")")")" || exit 125
    trap 'rm -rf -- "$work"' EXIT
    make_pictured > "$work/said" 2>&1 || { cat -- "$work/said" && exit 1; }
    drawn "$work/pictured/report.html" > docs/report.svg
fi
