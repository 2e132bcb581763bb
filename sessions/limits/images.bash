# shellcheck shell=bash
# shellcheck disable=SC2154 # sessions/limits.bash, which sources this file, sets `folder`
# Cases of images.

# The octets of an image at most.
readonly IMAGE=16777216

# Adds images that are tried on no message.
ask_image() {
    ask_with 'TRY @ 0' "${@:2}" < <(octets "$1")
}

# An image of version 2 with a budget of 1,000,000: 999 calls of a procedure of 1,000 steps with their CALL, so many KEEP, and STOP.
longest_run() {
    octets '
        for (i = 0; i < 999; i++) calls = calls code(22, 0, 1)
        for (i = 0; i < '"$1"'; i++) last = last code(18, 0, 0)
        for (i = 0; i < 998; i++) body = body code(18, 0, 0)
        print "SFI2" four(1000000) two(0) two(0) two(0) two(2) two(1000 + '"$1"' + 999) two(0) two(1000 + '"$1"')
        print calls last code(20, 0, 0) body code(23, 0, 0)'
}

# A number of procedures, each of which calls the next one.
row_of_procedures() {
    ask_image '
        count = '"$1"'
        for (i = 0; i < count; i++) { firsts = firsts two(2 * i); codes = codes code(22, 0, i + 1) code(23, 0, 0) }
        print "SFI2" four(1000) two(0) two(0) two(0) two(count + 1) two(2 * count + 1) firsts two(2 * count) codes code(23, 0, 0)' "${@:2}"
}

# Images at their limits.
images() {
    part 1
    # 65,535 instructions, texts, numbers and octets of a text.
    ask_image 'print "SFI1" four(65535) two(0) two(0) two(0) two(65535)
        for (i = 1; i < 65535; i++) print code(19, 0, 0)
        print code(20, 0, 0)' discarded
    ask_image 'print "SFI1" four(1) two(65535) two(65535) two(64) two(1)
        for (i = 0; i < 65535; i++) print two(0)
        for (i = 0; i < 65535; i++) print four(0) four(i)
        print code(20, 0, 0)' 'class unfiled'
    ask_image 'print "SFI1" four(65535) two(0) two(0) two(0) two(1) code(20, 0, 0)' 'class unfiled'
    ask_image 'print "SFI1" four(65536) two(0) two(0) two(0) two(1) code(20, 0, 0)' 'refused 66'
    ask_image 'print "SFI1" four(3) two(0) two(0) two(64) two(3) code(16, 0, 63) code(19, 0, 0) code(20, 0, 0)' discarded
    ask_image 'print "SFI1" four(3) two(0) two(0) two(64) two(3) code(16, 0, 64) code(19, 0, 0) code(20, 0, 0)' 'refused 62'
    ask_image 'print "SFI1" four(3) two(0) two(0) two(65) two(3) code(16, 0, 63) code(19, 0, 0) code(20, 0, 0)' 'refused 62'
    ask_image 'for (i = 0; i < 32; i++) codes = codes code(1, 0, 0)
        print "SFI1" four(33) two(0) two(0) two(0) two(33) codes code(20, 0, 0)' 'class unfiled'
    ask_image 'for (i = 0; i < 33; i++) codes = codes code(1, 0, 0)
        print "SFI1" four(34) two(0) two(0) two(0) two(34) codes code(20, 0, 0)' 'refused 64'
    row_of_procedures 255 'class unfiled'
    row_of_procedures 256 'refused 62'
    # The longest image: 256 texts, of which the last one fills it.
    {
        octets 'print "SFI1" four(2) two(256) two(0) two(0) two(2)'
        for ((text = 1; text < 256; text++)); do
            octets 'print two(65535)' && times 65535 a
        done
        octets 'print two(65255)' && times 65255 b
        octets 'print code(19, 0, 0) code(20, 0, 0)'
    } > "$folder/image"
    [[ $(stat -c %s -- "$folder/image") -eq $IMAGE ]]
    ask_with 'TRY @ 0' discarded < "$folder/image"
    ask_with 'IMAGE ann @' ok < "$folder/image"
    ask_capture ann 0 1 2 2 discarded < /dev/null
    echo >> "$folder/image"
    ask_with 'IMAGE ann @' 'refused 61' < "$folder/image"
    longest_run 999 | ask_with 'IMAGE bob @' ok
    ask_capture bob 0 2 1000000 1000000 'record 1 class unfiled due never' < /dev/null
    longest_run 1000 | ask_with 'IMAGE bob @' 'refused 66'
    rm -- "$folder/image"
}
