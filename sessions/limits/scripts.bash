# shellcheck shell=bash
# shellcheck disable=SC2154 # sessions/limits.bash, which sources this file, sets `folder`
# Cases of scripts and of what they test.

# A list of so many strings, which are the numbers from 1 on.
numbers_to() {
    echo "[$(seq -s , -f '"%.0f"' "$1")]"
}

# Tests of messages of 200,000 fields, and of as many as a message can have; and tests of as many names and keys as a script can have.
fields() {
    local all='if header :is "a" "" { discard; }'
    { seq -f 's: %.0f' 200000 && echo; } > "$folder/fields"
    { awk 'BEGIN { for (i = 1; i <= 2796202; i++) print "a:" }' && echo; } | head -c "$MESSAGE" > "$folder/most"
    part 1
    ask_file 'if header :is "s" "200000" { discard; }' "$folder/fields" discarded
    ask_file 'if header :is "s" "200001" { discard; }' "$folder/fields" 'class unfiled'
    ask_file 'if header :contains ["r", "S"] ["x", "9998"] { discard; }' "$folder/fields" discarded
    ask_file 'if header :matches "s" "?*00000" { discard; }' "$folder/fields" discarded
    ask_file 'if header :matches "s" "*x" { discard; }' "$folder/fields" 'class unfiled'
    ask_file 'if exists ["s", "t"] { discard; }' "$folder/fields" 'class unfiled'
    ask_file "if header [$(seq -s , -f '"r%.0f"' 999), \"s\"] \"200001\" { discard; }" "$folder/fields" 'class unfiled'
    ask_file "if header [$(seq -s , -f '"r%.0f"' 999), \"s\"] \"200000\" { discard; }" "$folder/fields" discarded
    ask_file "if header [\"s\"$(times 99 ', "s"')] \"200001\" { discard; }" "$folder/fields" 'class unfiled'
    ask_file "$all" "$folder/most" discarded
    ask_file "${all/\"\"/\"x\"}" "$folder/most" 'class unfiled'
    # The weight is 13, and 2 for each name and 3 for each key; 60,000 is the greatest.
    printf '29992: 19995\n' > "$folder/one"
    ask_file "if header $(numbers_to 29992) \"19995\" { discard; }" "$folder/one" discarded
    ask_file "if header $(numbers_to 29993) \"19995\" { discard; }" "$folder/one" 'fault 5' 'class unfiled'
    ask_file "if header \"29992\" $(numbers_to 19995) { discard; }" "$folder/one" discarded
    ask_file "if header \"29992\" $(numbers_to 19996) { discard; }" "$folder/one" 'fault 5' 'class unfiled'
    rm -- "$folder/one"
    # An image, whose steps are its instructions up to STOP: all of them, or all but DISCARD.
    octets 'print "SFI1" four(5) two(2) two(0) two(0) two(5) text("s") text("200000")
        print code(4, 0, 0) code(6, 0, 1) code(14, 0, 4) code(19, 0, 0) code(20, 0, 0)' | ask_with 'IMAGE ann @' ok
    ask_capture ann 0 1 5 5 discarded < "$folder/fields"
    ask_capture ann 0 2 5 4 'record 1 class unfiled due never' < "$folder/most"
    ask_octets 1 1 "$folder/most"
    rm -- "$folder/fields" "$folder/most"
}

# A chain of 39 scripts, each of which includes the next one twice in a branch that never runs, as the scripts of an officer up to the
# 31st and as global ones after it; and a number of empty global scripts.
chain() {
    local script location
    for ((script = 1; script <= 38; script++)); do
        location=$( ((script < 31)) && echo personal || echo global)
        echo "require \"include\"; if false { include :$location \"c$((script + 1))\"; include :$location \"c$((script + 1))\"; }" |
            ask_with "$( ((script < 32)) && echo SCRIPT ann || echo GLOBAL) c$script @" ok
    done
    ask 'GLOBAL c39 0' ok
    for ((script = 1; script <= $1; script++)); do
        ask "GLOBAL t$script 0" ok
    done
}

# A script that includes all 39 scripts of the chain, and a number of the empty ones.
main_of_chain() {
    local script
    echo 'require "include";'
    for ((script = 1; script <= 39; script++)); do
        echo "include :$( ((script < 32)) && echo personal || echo global) \"c$script\";"
    done
    for ((script = 1; script <= $1; script++)); do
        echo "include :global \"t$script\";"
    done
    echo 'discard;'
}

# The path weight of that script with a number of empty scripts: a script of the chain weighs 1 for itself, 12 for `require`, `if` and
# `false`, and each include 4 and what it includes, up to the eighth active script.
weight_of_chain() {
    awk -v empty="$1" '
        function path(script, level) {
            return script == 39 ? 1 : 13 + 2 * (4 + (level == 8 ? 0 : path(script + 1, level + 1)))
        }
        BEGIN {
            weight = 9 + 5 * empty
            for (script = 1; script <= 39; script++) weight += 4 + path(script, 2)
            print weight
        }'
}

# Scripts of 256 procedures, which run, and of 257, which do not. Each script of the chain is a procedure for each number of active
# scripts at which it is entered, of which there are 252 in all; with them are the main script and the empty ones.
procedures() {
    local steps
    part 1
    chain 4
    main_of_chain 3 | ask_with 'SCRIPT ann main @' ok
    ask 'ACTIVE ann main' ok
    # As `mailfile-tool dump` shows, an include is two instructions and what the procedure does, up to its RETURN: one for an empty
    # script, and three for the others. DISCARD and STOP are the last two steps.
    steps=$((38 * 5 + 4 * 3 + 2))
    ask_capture ann 0 1 "$(weight_of_chain 3)" $steps discarded < /dev/null
    main_of_chain 4 | ask_with 'SCRIPT ann main @' ok
    ask_capture ann 0 2 1 1 'fault 5' 'record 1 class unfiled due never' < /dev/null
    ask_with 'FILE @ 0' 'fault 2' 'class unfiled' < <(main_of_chain 4)
}

# 63 scripts and a main one, all of which include all, so that there are more procedures than could be counted.
too_many_procedures() {
    local script
    {
        echo 'require "include";'
        seq -f 'include :personal "p%.0f";' 31
        seq -f 'include :global "g%.0f";' 32
    } > "$folder/script"
    : > "$folder/message"
    part 1
    for ((script = 1; script <= 31; script++)); do
        ask_with "SCRIPT ann p$script @" ok < "$folder/script"
    done
    for ((script = 1; script <= 32; script++)); do
        ask_with "GLOBAL g$script @" ok < "$folder/script"
    done
    ask_with 'SCRIPT ann main @' ok < "$folder/script"
    ask 'ACTIVE ann main' ok
    ask_capture ann 0 1 1 1 'fault 5' 'record 1 class unfiled due never' < "$folder/message"
    ask_file "$(grep -v personal "$folder/script")" "$folder/message" 'fault 5' 'class unfiled'
    rm -- "$folder/script" "$folder/message"
}

# 100,000 officers, each with a script and a capture by it, and then without; the first one has 32 scripts.
officers() {
    local name
    : > "$folder/message"
    part 1
    awk 'BEGIN {
        for (i = 1; i <= 100000; i++)
            printf "SCRIPT o%d main 8\ndiscard;ACTIVE o%d main\nBEGIN o%d 0 0\nTURN %d 2\nFINISH %d\n", i, i, i, i, i
    }' >&3
    # The weight of `discard;` is 5; its code is DISCARD and STOP.
    awk 'BEGIN { for (i = 1; i <= 100000; i++) print "ok\nok\nticket " i " budget 5\nended 2\ndiscarded" }' >&4
    for ((name = 1; name <= 31; name++)); do
        ask "SCRIPT o1 s$name 0" ok
    done
    ask 'SCRIPT o1 s32 0' 'refused 96'
    ask 'SCRIPT o1 s31 0' ok
    ask 'ACTIVE o1 s32' 'refused 93'
    seq -f 'INACTIVE o%.0f' 100000 >&3
    lines 100000 ok >&4
    ask_capture o100000 0 100001 1 1 'record 1 class unfiled due never' < /dev/null
    rm -- "$folder/message"
}
