"""Makes the functions that are timed visible in the text of an LLVM module, under names that Rust can link.

    python3 bench/visible.py MODULE.ll OUT.ll"""

import re
import sys

NAMES = {'"scan::opening::open"': "spoolewe_open", '"tries::spends::spend"': "spoolewe_spend", '"tries::spends::set"': "spoolewe_set"}


def visible(text):
    """The module with each function of NAMES external, and its `main` out of the way of Rust's."""
    for old, new in NAMES.items():
        text, found = re.subn(rf"^define internal (.*)@{old}\(", rf"define \1@{new}(", text, flags=re.M)
        if found != 1:
            sys.exit(f"visible.py: {found} definitions of {old} in the module")
        text = text.replace(f"@{old}", f"@{new}")
    return text.replace("@main(", "@spoolewe_main(")


def main():
    source, out = sys.argv[1:]
    with open(source, encoding="utf-8") as f:
        text = visible(f.read())
    with open(out, "w", encoding="utf-8") as f:
        f.write(text)


main()
