"""What the judges of single commands share: the ranges of numbers among the words, and the loop over random cases."""
import collections
import pathlib
import random
import re
import sys
from typing import Callable, NamedTuple, Sequence

sys.path.insert(0, str(pathlib.Path(__file__).resolve().parent / "hostile"))
from mutation import Case  # noqa: E402
from running import Ended, run, tried_program  # noqa: E402
from smaller import smaller  # noqa: E402

WORDS_REFUSED = Ended(2, b"", b"words refused\n")
NUMBER = re.compile(r"\+?0*([0-9]{1,20})")
SHOWN = 400


class Option(NamedTuple):
    """From which number to which an option is, and what it is if it is not given; None if it must be given."""

    least: int
    greatest: int
    default: int | None = 0


Options = dict[str, Option]
Wanted = Callable[[Sequence[str], bytes], Ended]


def pairs_of(words: Sequence[str]) -> list[tuple[str, str]]:
    """The names and values of words `--name value` or `--name=value`; a value that is missing is empty. `--` may end them."""
    found, rest = [], list(words)
    while rest and rest != ["--"]:
        name, equals, value = rest.pop(0).partition("=")
        found.append((name, rest.pop(0) if not equals and rest else value))
    return found


def numbers_in(pairs: Sequence[tuple[str, str]], options: Options) -> dict[str, int] | None:
    """The number of each option by names and values; None if they are refused."""
    found: dict[str, int] = {}
    for name, value in pairs:
        match, option = NUMBER.fullmatch(value), options.get(name.removeprefix("--"))
        if not (match and option and name.startswith("--")) or name[2:] in found:
            return None
        if not option.least <= int(match[1]) <= option.greatest:
            return None
        found[name[2:]] = int(match[1])
    for name, option in options.items():
        if name not in found and option.default is None:
            return None
        found.setdefault(name, option.default or 0)
    return found


def numbers_of(words: Sequence[str], options: Options) -> dict[str, int] | None:
    """The number of each option by words; None if they are refused."""
    return numbers_in(pairs_of(words), options)


def refused_words(dice: random.Random, options: Options) -> list[str]:
    """Words that no command with these options takes: another name, a number just beyond a range, or a name twice."""
    other = dice.choice(("--workers", "--rule", "--ramp-x", "--steep", "--Tile", "--weights", "-w", "--", "tile"))
    choices = [[other, "1"], [other + "=1"], [dice.choice(("1", "-", "-h", "--help", "help", "--version", ""))]]
    for name, option in options.items():
        beyond = (option.greatest + 1, option.greatest + 2**32, 2**32, 2**64, option.least - 1)
        value = dice.choice([*map(str, beyond), "", "x", "1.5", " 1", "1 ", "0x1", "1e1", "１", "none"])
        choices += [[f"--{name}", value], [f"--{name}={value}"], [f"--{name}"], [f"-{name}", "1"]]
        choices.append([f"--{name}", str(option.greatest)] * 2)
    return dice.choice(choices)


def words_of(dice: random.Random, command: str, numbers: dict[str, int], options: Options) -> list[str]:
    """The words for these numbers, in some order and spelling. One in twenty has something besides that is refused."""
    pairs = [(name, number) for name, number in numbers.items() if number != options[name].default or dice.random() < 0.5]
    dice.shuffle(pairs)
    spelled = [(f"--{name}", dice.choice(("", "", "", "+", "00")) + str(number)) for name, number in pairs]
    words = [[f"{name}={value}"] if dice.random() < 0.2 else [name, value] for name, value in spelled]
    if dice.random() < 0.05:
        words.insert(dice.randint(0, len(words)), refused_words(dice, options))
    if dice.random() < 0.02:
        words.append(["--"])
    return [command, *(word for pair in words for word in pair)]


def kind_of(end: Ended) -> str:
    """How a run has to end, in a few words."""
    return re.sub(r"(?<!fault)( [0-9]+)+", "", end.err.decode().strip()) or "status 0"


def told(end: Ended) -> str:
    if end.status is None:
        return "no end within a minute"
    return f"status {end.status}, {end.err.decode('latin-1').strip()!r}, output {len(end.out)} bytes {end.out[:SHOWN]!r}"


def tell(program: str, name: str, case: Case, wanted: Wanted, done: Ended) -> None:
    """Tells how a case failed, and then of the same made smaller."""
    print(f"{name}: {told(done)}")
    least = smaller(case, lambda other: run(program, other.words, other.data) != wanted(other.words, other.data), 10.0)
    print(f"  {' '.join(least.words)} < {least.data[:SHOWN]!r}")
    print(f"  wanted: {told(wanted(least.words, least.data))}")
    print(f"  found: {told(run(program, least.words, least.data))}", flush=True)


def main(command: str, wanted: Wanted, random_case: Callable[[random.Random], Case], try_the_rows: Callable[[], None]) -> int:
    """Computes the rows, then compares what the program does with what is wanted: [COUNT [SEED]] are the words."""
    if len(sys.argv) > 3 or not all(word.isdigit() for word in sys.argv[1:]):
        print(f"{command}.py: the words are [COUNT [SEED]], as in {command}.py 1000 7", file=sys.stderr)
        return 2
    count, seed = (int(number) for number in sys.argv[1:] + ["1000", "7"][len(sys.argv) - 1 :])
    try_the_rows()
    program = tried_program() if count else ""
    failed, kinds = 0, collections.Counter[str]()
    for number in range(count):
        case = random_case(random.Random(f"{command} {seed} {number}"))
        end = wanted(case.words, case.data)
        kinds[kind_of(end)] += 1
        done = run(program, case.words, case.data)
        if done != end:
            failed += 1
            tell(program, f"case {number} of the seed {seed}", case, wanted, done)
    for kind, times in sorted(kinds.items()):
        print(f"  {times} {kind}")
    print(f"{count - failed} passed, {failed} failed")
    return int(failed > 0)
