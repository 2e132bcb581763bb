#!/usr/bin/env python3
"""Writes crates/mail_charsets/src/tables.rt from the codecs of Python, which follow the mappings that unicode.org publishes.

    scripts/charsets.py > crates/mail_charsets/src/tables.rt

scripts/charsets.bash compares what it writes with the system's iconv.
"""

HEAD = """\
//! The characters of the octets 128 to 255, of each charset that has one octet a character, by the mappings that
//! unicode.org publishes. U+FFFD stands for an octet that has no character. `scripts/charsets.py` writes this file, and
//! the tests compare it with the system's `iconv`.
"""

ISO = [(f"ISO_8859_{part}", f"iso8859_{part}", f"ISO-8859-{part}") for part in range(2, 17) if part != 12]
WINDOWS = [(f"WINDOWS_{page}", f"cp{page}", f"windows-{page}") for page in range(1250, 1259)]
KOI8 = [("KOI8_R", "koi8_r", "KOI8-R"), ("KOI8_U", "koi8_u", "KOI8-U")]


def character(octet, codec):
    """The code point of an octet, or U+FFFD where it has none."""
    return ord(bytes([octet]).decode(codec, errors="replace"))


def row(start, codec):
    """Eight characters, as a line of the table."""
    return " ".join(f"'\\u{{{character(octet, codec):04X}}}'," for octet in range(start, start + 8))


print(HEAD, end="")
for name, codec, label in ISO + WINDOWS + KOI8:
    print(f"\n/// {label}, octets 128 to 255.")
    print(f"pub static {name}: [char; 128] = [")
    for start in range(128, 256, 8):
        print(f"    {row(start, codec)}")
    print("];")
