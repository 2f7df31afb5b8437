#!/usr/bin/env python3
"""Takes `if◌then◌else◌` from std's Prelude in all crates, where octets' Words had its copy: `rt ci` lets none but std define it.

    python3 tools/conditional.py      at the top of the repository; a second run changes nothing
"""
import glob
import re

NAME, OLD, NEW = "if◌then◌else◌", "Rattle.octets.specs.Words", "Rattle.std.specs.Prelude"


def names_of(text):
    return [it for it in re.split(r"[,\s]+", text) if it]


def turned(text, is_code):
    """Returns the text of a file with the import moved."""
    end = ";" if is_code else ""
    head = r"(?m)^((?:ghost |pub |unfoldable )*use )"
    old = re.search(head + re.escape(OLD) + r"\.\{([^}]*)\}" + end + r"\n", text)
    if not old or NAME not in names_of(old[2]):
        return text
    left = [it for it in names_of(old[2]) if it != NAME]
    line = f"{old[1]}{OLD}.{{{', '.join(left)}}}{end}\n" if left else ""
    new = re.search(head + re.escape(NEW) + r"\.\{([^}]*)\}" + end + r"\n", text)
    if not new:
        return text[: old.start()] + f"{old[1]}{NEW}.{{{NAME}}}{end}\n" + line + text[old.end() :]
    names = names_of(new[2])
    names += [] if NAME in names else [NAME]
    made = f"{new[1]}{NEW}.{{{', '.join(names)}}}{end}\n"
    parts = sorted([(old.span(), line), (new.span(), made)], reverse=True)
    for (start, stop), it in parts:
        text = text[:start] + it + text[stop:]
    return text


for file in sorted(glob.glob("crates/*/**/*.antt", recursive=True) + glob.glob("crates/*/**/*.rt", recursive=True)):
    if "/out/" in file:
        continue
    with open(file, encoding="utf-8") as it:
        was = it.read()
    now = turned(was, file.endswith(".rt"))
    if file == "crates/octets/specs/Words.antt":
        now = re.sub(r"infix 5 if◌then◌else◌\nabbrev pub if◌then◌else◌ [^\n]*\n(if◌then◌else◌ [^\n]*\n)+\n", "", now)
        now = now.replace(".{ℕ, Bool, true, false, ltb, leb, eqb}", ".{ℕ, Bool, ltb, leb, eqb}")
    if now != was:
        with open(file, "w", encoding="utf-8") as it:
            it.write(now)
        print(file)
    if re.search(re.escape(OLD) + r"\.(\{[^}]*)?" + NAME, now):
        print(f"{file}: still names octets' own")
