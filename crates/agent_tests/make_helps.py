"""Writes src/help_list.rt: what help says beside the options, as the crate agent has it.

    python3 crates/agent_tests/make_helps.py crates/agent/src/arguments/help_texts.rt > crates/agent_tests/src/help_list.rt"""

import pathlib
import re
import sys

TEXT = re.compile(r'^/// (?P<about>[^\n]*)\npub\(crate\) const (?P<name>\w+_HELP): &str = (?P<text>"\\\n(?:[^"\\]|\\.)*");$', re.M)


def main(path):
    print("//! Written by make_helps.py from the crate agent: what help says beside the options.")
    for found in TEXT.finditer(pathlib.Path(path).read_text()):
        print(f"\n/// {found['about']}\npub const {found['name']}: &str = {found['text']};")


main(sys.argv[1])
