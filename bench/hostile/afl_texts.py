"""Writes what AFL++ begins with: afl_texts.py FOLDER makes FOLDER/sessions, FOLDER/checks, FOLDER/wholes and FOLDER/tokens."""
import pathlib
import random
import sys

import mutation
import seeds

sys.path.insert(0, str(pathlib.Path(__file__).resolve().parent.parent))
import whole  # noqa: E402


def write(folder, texts):
    folder.mkdir()
    for number, text in enumerate(sorted(set(texts), key=len)):
        (folder / str(number)).write_bytes(text)


def main():
    folder, texts = pathlib.Path(sys.argv[1]), seeds.texts()
    write(folder / "sessions", (text for text in texts.sessions if len(text) < 4000))
    write(folder / "checks", (text for _, text in texts.checks if len(text) < 6000))
    write(folder / "wholes", (whole.random_case(random.Random(number)).data for number in range(40)))
    tokens = {*mutation.WORDS, *mutation.NUMBERS, *mutation.SPACES}
    lines = ('"' + "".join(f"\\x{byte:02x}" for byte in token) + '"\n' for token in sorted(tokens) if 0 < len(token) <= 40)
    (folder / "tokens").write_text("".join(lines), encoding="ascii")


if __name__ == "__main__":
    main()
