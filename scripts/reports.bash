# shellcheck shell=bash
# shellcheck disable=SC2317 # count calls its checks by name
# Reports in a browser: whether a name of an archive, or that of its file, becomes anything but text. scripts/failing.bash sources this file. The
# browser is Chromium, from the packages of the system; where it is not installed, this is said and nothing is tried.

: "${root:?}" "${work:?}"

# The elements that a page has.
readonly ELEMENTS='body caption dd div dl dt figure footer h1 h2 head header html li line main meta p rect section strong style svg table tbody td text tfoot th thead time title tr ul'

# Names that would be markup, attributes or scripts where they were not text. A hold is named by 1 to 64 octets from 33 to 126.
# shellcheck disable=SC2016 # nothing is expanded
readonly HOSTILE=('<script>document.title=1</script>' '<img/src=x/onerror=alert(1)>' '"onmouseover="alert(1)' "'onfocus='alert(1)"
    '</td></tr></table><b>out</b>' '</style><style>*{display:none}' '<!--' '-->' '&lt;b&gt;&#60;b>' ']]>' '<svg/onload=alert(1)>'
    '</title><script>1</script>' 'javascript:alert(1)' '<a/href=//example.org>' '</section></main></body></html><b>' '`${1}`')

# As many names that are only letters.
readonly HARMLESS=(a b c d e f g h i j k l m n o p)

browser() {
    command -v chromium || command -v chromium-browser || command -v google-chrome
}

# Runs the browser over a page, as its user would have it but for the window.
browse() {
    HOME=$work/browser timeout 120 "$(browser)" --headless --no-sandbox --disable-gpu --no-first-run --user-data-dir="$work/browser/data" "$@" \
        2> "$work/error"
}

# A store at a path, with a record of the class of each hold, and these holds.
make_held() {
    local store=$1 folder=$work/rules/ann name number
    mkdir -p -- "$folder" "$work/browser" && : > "$folder/main.sieve" || return
    printf 'root = "1 years destroy"\n\n[[class]]\npath = "script-alert-1--script"\n\n[[class]]\npath = "script-alert-1--script/onload-1"\n' > "$work/plan.toml"
    ./mailfile-store create --store "$store" --plan "$work/plan.toml" || return
    for number in "${!HOSTILE[@]}"; do
        printf 'Subject: <b>%s</b>\n\n' "$number" | ./mailfile-store deliver --store "$store" --rules "$work/rules" --at $((86400 * (number + 1) * 200)) ann \
            > "$work/said" 2> "$work/error" || return
    done
    shift
    number=0
    for name in "$@"; do
        number=$((number + 1))
        ./mailfile-store hold --store "$store" -- "$name" "$number" > "$work/said" || return
    done
}

# The tags of a page as the browser has read it.
tags_of() {
    browse --dump-dom "file://$1" | grep -o -E '<[^>]*>'
}

# A page of hostile names, and one of harmless ones, at the paths `hostile.html` and `harmless.html`.
make_pages() {
    local name=$'<img src=x onerror=alert(1)> "\' &amp;\e[31m\u202e\u0085.db'
    make_held "$work/$name" "${HOSTILE[@]}" && make_held "$work/plain.db" "${HARMLESS[@]}" &&
        ./mailfile-store report --store "$work/$name" --day 2030-01-01 > "$work/hostile.html" &&
        ./mailfile-store report --store "$work/plain.db" --day 2030-01-01 > "$work/harmless.html"
}

# The browser finds the elements of a page, and no others.
has_its_elements() {
    local found
    found=$(tags_of "$work/hostile.html" | sed -n 's/^<\([a-zA-Z][a-zA-Z0-9]*\).*/\1/p' | sort -u | tr '\n' ' ')
    [[ -n $found ]] || return
    for element in $found; do
        [[ " $ELEMENTS " == *" $element "* ]] || { echo "an element $element"; return 1; }
    done
}

# The browser finds the same tags in both pages, one after the other, whatever the names are.
has_the_same_tags() {
    tags_of "$work/hostile.html" > "$work/hostile.tags" && tags_of "$work/harmless.html" > "$work/harmless.tags" &&
        [[ -s $work/hostile.tags ]] && cmp -- "$work/hostile.tags" "$work/harmless.tags"
}

# Each name is text, to the letter.
shows_each_name() {
    local name
    browse --dump-dom "file://$work/hostile.html" | sed 's/<[^>]*>/\n/g; s/&lt;/</g; s/&gt;/>/g; s/&nbsp;/ /g; s/&amp;/\&/g' > "$work/said"
    for name in "${HOSTILE[@]}"; do
        grep -q -x -F -- "$name" "$work/said" || { echo "no text $name"; return 1; }
    done
    grep -q -F -- "$work/<img src=x onerror=alert(1)> \"' &amp;⟨U+00001B⟩[31m⟨U+00202E⟩⟨U+000085⟩.db" "$work/said"
}

# It is drawn and printed; the title is the page's own.
draws_and_prints() {
    browse --window-size=1000,1400 --screenshot="$work/page.png" "file://$work/hostile.html" > /dev/null && [[ -s $work/page.png ]] &&
        browse --print-to-pdf="$work/page.pdf" "file://$work/hostile.html" > /dev/null && [[ $(head -c 5 -- "$work/page.pdf") == %PDF- ]] &&
        [[ $(browse --dump-dom "file://$work/hostile.html" | grep -c '<title>Disposal report by 2030-01-01: ') == 1 ]]
}

# What the browser has to say of a page.
told_of() {
    browse --enable-logging=stderr --dump-dom "file://$1" > "$work/said" && grep ':CONSOLE' "$work/error"
}

# The policy of a page lets its style in, and shuts out another style, a script and a picture.
lets_in_its_style_alone() {
    [[ -z $(told_of "$work/hostile.html") ]] || return
    sed 's:^body {:body { color\: red; :' "$work/hostile.html" > "$work/style.html"
    sed 's:^<main>:<main><script>document.title = 1</script><img src="data\:,">:' "$work/hostile.html" > "$work/script.html"
    [[ $(told_of "$work/style.html") == *'inline style violates'* && $(told_of "$work/script.html" | grep -c violates) == 2 ]]
}

reports() {
    if [[ -z $(browser) ]]; then
        echo "reports in a browser: not tried, since chromium is not installed"
        return
    fi
    count "pages of two archives" make_pages
    count "elements of a page" has_its_elements
    count "tags of pages" has_the_same_tags
    count "names in a page" shows_each_name
    count "a drawing and a print" draws_and_prints
    count "what a page lets in" lets_in_its_style_alone
    group "reports in a browser"
}
