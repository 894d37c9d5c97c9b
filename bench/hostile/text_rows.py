"""Cases of what is read: input that is cut at each byte or never ends, and words that are odd, long or many."""
import wanted
from reading import read_session, stress
from rows import CLOSURE, DISPLACEMENT, ENDLESS, FALL, FALL_DISPLACED, FURTHER_USES, GRID_HEAD, ISLAND, LINE_WHOLE, LOOP, MAGIC
from rows import MEMORY, NO_GRID, OPEN_GRID, OPEN_WHOLE, SCRIPT, STEEP_GRID, TURN, TURN_GRID, USES, WORDS, End, Row, grid_text
from rows import opened, raw_plane, refused, row
from wanted import NOTHING, exactly


WAVES = "displacement --wavelength 56000000"
FALL_BLOCKS = grid_text([[-5455079, -27275391]])


def cut_line(length):
    """The line that refuses the first bytes of the session of 70 bytes; nothing if they are a session."""
    if length < 2:
        return MAGIC
    if length < 13:
        return b"input fault 2 form phase byte %d\n" % length
    if length < 28:
        return b"input fault 6 short phase samples %d\n" % sum(length >= bound for bound in (14, 16, 22))
    return b"input fault 14 no end\n" if 34 <= length < 70 else b""


def last_sample(length):
    """The last sample of the session that the first 28 to 33 bytes are."""
    return {28: 3, 29: 32, 30: 327, 31: 3276, 32: 32768, 33: 32768}[length]


def cut_session(length):
    """The session that the first bytes are, with its last sample as it is wanted."""
    session = read_session(TURN[:length], 64, "least", True)[0]
    assert session.phase == [0, 16384, 49152, last_sample(min(length, 33))]
    return session


def cut_screened(length):
    """What `screen` writes of the first bytes, if they are a session: the session in its raw spelling."""
    script = b"analyst\nmask 0 0 0 0\nsettle\nshow\nend\n" if length == len(TURN) else SCRIPT
    return raw_plane(2, 65535, (0, 16384, 49152, 32768 if length == len(TURN) else last_sample(length))) + opened(2) * 2 + script


def cut_answers(length):
    """What `unwrap`, `grid`, `screen` and `whole` write of the first bytes, if they are a session."""
    screened, session = exactly(cut_screened(length)), cut_session(length)
    whole = wanted.whole_of(session)
    if length == len(TURN):
        return exactly(stress.TURN_REPORT), exactly(TURN_GRID), screened, whole
    return wanted.report_of(session), wanted.grid_of(session), screened, whole


def cut_rows():
    """A session that ends at each of its bytes. Before a report the line `end` is wanted."""
    for length in range(len(TURN) + 1):
        what, line = f"the first {length} bytes of the session", cut_line(length)
        outs = (NOTHING,) * 4 if line else cut_answers(length)
        for name, out in zip(("unwrap", "grid", "screen", "whole"), outs):
            yield row(f"{name}: {what}", f"exec $P {name} <turn-{length}", 3 if line else 0, out, line)
        line = b"report fault line 1\n" if length == len(TURN) else line or b"input fault 14 no end\n"
        for name in ("check", "check-whole", "parts"):
            yield refused(f"{name}: {what}", f"exec $P {name} <turn-{length}", 3, line)


def cut_report_rows():
    """A report that ends at each of its bytes. The line in which it ends, or the one after its last, is the broken one."""
    report = stress.TURN_REPORT
    for length in range(len(report)):
        line = b"report fault line %d\n" % (report.count(b"\n", 0, length) + 1)
        command = f"{{ cat turn-70; head -c {length} turn-report; }} | $P check"
        yield refused(f"check: the first {length} bytes of the report", command, 3, line)
    yield row("check: the whole report", "cat turn-70 turn-report | $P check", 0, b"accepted\n", NOTHING)


# Words of check-whole, a change by sed of the whole text of the file open, and the line that is wanted.
WHOLE_CHANGES = (
    ("", "", "accepted"),
    ("", "13,14s/.*//;13s/^/0 16384/;14s/^/-16384 32768/", "accepted"),
    ("", "s/^cost 3/cost 4/", "refused told"),
    ("", "s/^cost 3/cost 340282366920938463463374607431768211455/", "refused told"),
    ("", "s/^cost 3/cost 340282366920938463463374607431768211456/", "report fault line 6"),
    ("", "s/^cost 3/cost -3/", "report fault line 6"),
    ("", "s/^faces 3/faces 2/", "refused cost"),
    ("", "s/^faces 3/faces -3/", "refused cost"),
    ("", "s/^faces 3/faces 4/", "refused face down 0 0"),
    ("", "s/^faces 3/faces 6/", "refused face right 0 0"),
    ("", "s/^faces 3/faces 9223372036854775807/", "refused face right 0 0"),
    ("", "s/^faces 3/faces -9223372036854775808/", "refused face right 0 0"),
    ("", "s/^faces 3/faces 9223372036854775808/", "report fault line 15"),
    ("", "s/^faces 3/faces 3 3/", "report fault line 15"),
    ("", "s/^faces 3/faces/", "report fault line 15"),
    ("", "s/^faces 3/faces  3/", "report fault line 15"),
    ("", "s/^faces 3/faces 03/", "report fault line 15"),
    ("", "s/^faces 3/faces 3 /", "report fault line 15"),
    ("", "s/^faces 3/faces 0 3/", "report fault line 15"),
    ("", "15d", "report fault line 15"),
    ("", "15p", "report fault line 16"),
    ("", "13s/$/\\r/", "report fault line 13"),
    ("", "s/$/\\r/", "report fault line 1"),
    ("", "13s/ 16384//", "report fault line 13"),
    ("", "13s/$/ 0/", "report fault line 13"),
    ("", "13s/^0/65536/", "refused value 0 0"),
    ("", "14s/49152/49153/", "refused value 0 1"),
    ("", "14s/32768/-9223372036854775808/", "refused value 1 1"),
    ("", "14s/32768/9223372036854743040/", "refused cost"),
    ("", "s/^size 2 2/size 1 4/", "report fault line 7"),
    ("", "s/^size 2 2/size 65536 1/", "report fault line 2"),
    ("", "s/^size 2 2/size 65535 4097/", "report fault line 2"),
    ("", "s/^rule least/rule mean/", "refused header 3"),
    ("--rule mean", "", "refused header 3"),
    ("--ramp-x 1", "", "refused header 4"),
    ("--ramp-y 65535", "s/^ramp 0 0/ramp 0 -1/", "accepted"),
    ("", "s/^ramp 0 0/ramp 0 32768/", "report fault line 4"),
    ("--steep 2", "", "refused header 5"),
    ("--steep 2", "s/^steep 1/steep 2/", "accepted"),
    ("--steep 2", "s/^steep 1/steep 2/;s/^faces 3/faces 5/", "refused cost"),
    ("--steep 2", "s/^steep 1/steep 2/;s/^faces 3/faces 7/", "refused face down 0 0"),
    ("", "s/^steep 1/steep 17/", "report fault line 5"),
    ("", "1s/1/2/", "report fault line 1"),
    ("", "s/^end/END/", "report fault line 16"),
    ("", "$p", "report fault line 17"),
    ("--tile 64", "", "words refused"),
    ("--workers 1", "", "words refused"),
)


def whole_rows():
    """A whole text that is changed, or ends at each of its bytes, or has bytes after it."""
    for words, change, line in WHOLE_CHANGES:
        command = f"sed '{change}' open-whole | cat open-end - | $P check-whole {words}; exit ${{PIPESTATUS[2]}}"
        told, text = f"check-whole: {words or 'no words'}, {change or 'nothing'} changed", line.encode() + b"\n"
        if line.startswith(("report", "words")):
            yield refused(told, command, 3 if line.startswith("report") else 2, text)
        else:
            yield row(told, command, int(line != "accepted"), text, NOTHING)
    for length in range(len(OPEN_WHOLE)):
        line = b"report fault line %d\n" % (OPEN_WHOLE.count(b"\n", 0, length) + 1)
        command = f"{{ cat open-end; head -c {length} open-whole; }} | $P check-whole"
        yield refused(f"check-whole: the first {length} bytes of the text", command, 3, line)
    for rest in (r"\n", "' '", r"\0", "x", "end"):
        command = f"{{ cat open-end open-whole; printf {rest}; }} | $P check-whole"
        yield refused("check-whole: more bytes", command, 3, b"report fault line 17\n")
    yield refused("check-whole: a report", "cat line-end line-report | $P check-whole", 3, b"report fault line 1\n")
    yield refused("check: a whole text", "cat open-end open-whole | $P check", 3, b"report fault line 1\n")
    yield row("whole: a script", "exec $P whole <shown", 0, LINE_WHOLE, NOTHING)
    for words in ("--tile 64", "--Rule least", "--workers 9", "--workers 0", "--steep 17", "--steep 0", "--rule most", "1"):
        yield refused(f"whole: {words}", f"exec $P whole {words} <line", 2, WORDS)


def cut_grid_rows():
    """Grids that end at each of their bytes, and what comes after them. Each grid has seven lines."""
    for use, text in ((CLOSURE, LOOP), (DISPLACEMENT, FALL)):
        for length in range(len(text)):
            grid, line = divmod(text.count(b"\n", 0, length), 7)
            told = b"input fault 19 grid %d line %d\n" % (grid + 1, line + 1)
            yield use.refused(f"the first {length} bytes", f"head -c {length} {use.file} | $P {use.words}", 3, told)
        yield use.answered("all of the bytes", f"cat {use.file} | $P {use.words}")
        after = b"input fault 22 after grids byte %d\n" % len(text)
        for rest in (r"\n", "' '", r"\0", "x", "ncols"):
            yield use.refused("more bytes", f"{{ cat {use.file}; printf {rest}; }} | $P {use.words}", 3, after)


# For a file, a change of it by sed, and the line with which the commands that read grids refuse it.
GRID_CHANGES = (
    ("loop", "9s/1/2/", "input fault 19 grid 2 line 8"),
    ("loop", "8s/4/3/", "input fault 19 grid 2 line 7"),
    ("loop", "8s/4/3/;14s/ 0//", "input fault 21 grid 2 sizes"),
    ("loop", "15s/4/3/;21s/^0 //", "input fault 21 grid 3 sizes"),
    ("loop", "8s/4/3/;14s/ 0//;21s/$/ /", "input fault 21 grid 2 sizes"),
    ("loop", "1s/4/0/", "input fault 19 grid 1 line 1"),
    ("loop", "1s/4/4097/", "input fault 19 grid 1 line 1"),
    ("loop", "1s/4/4096/;2s/1/1025/", "input fault 19 grid 1 line 2"),
    ("loop", "1s/4/04/", "input fault 19 grid 1 line 1"),
    ("loop", "3s/$/.0/", "input fault 19 grid 1 line 3"),
    ("loop", "13s/-//", "input fault 19 grid 2 line 6"),
    ("loop", "21s/0/-0/", "input fault 19 grid 3 line 7"),
    ("loop", "21s/10/+10/", "input fault 19 grid 3 line 7"),
    ("loop", "21s/10/9223372036854775808/", "input fault 19 grid 3 line 7"),
    ("loop", "21s/10/-9223372036854775809/", "input fault 19 grid 3 line 7"),
    ("loop", "7s/30/9223372036854775807/", "input fault 23 wide 3 0"),
    ("loop", "7s/10/9223372036854775807/;14s/0 0/0 1/;21s/10/0/", "input fault 23 wide 1 0"),
    ("loop", "7s/10/-9223372036854775807/;14s/0 0/0 -1/;21s/10/0/", "input fault 23 wide 1 0"),
    ("fall", "7s/^0/-9223372036854775808/", "input fault 24 reference"),
    ("fall", "7s/-51072/9223372036854775807/", "input fault 23 wide 2 0"),
    ("fall", "7s/ -76608//", "input fault 19 grid 1 line 7"),
    ("fall", "7s/$/\\r/", "input fault 19 grid 1 line 7"),
)


def grid_rows():
    """Grids changed in one line or two, and a command that wants another number of them."""
    for file, change, line in GRID_CHANGES:
        use = CLOSURE if file == "loop" else DISPLACEMENT
        command = f"sed '{change}' {file} | $P {use.words}"
        yield use.refused(f"{change} changed", command, 3, line.encode() + b"\n")
    after = b"input fault 22 after grids byte %d\n" % (LOOP.index(b"ncols", 1))
    yield DISPLACEMENT.refused("three grids", f"exec $P {DISPLACEMENT.words} <loop", 3, after)
    yield CLOSURE.refused("one grid", f"exec $P {CLOSURE.words} <fall", 3, b"input fault 19 grid 2 line 1\n")
    yield row("displacement: blocks", f"exec $P {DISPLACEMENT.words} --block 2 <fall", 0, FALL_BLOCKS, NOTHING)
    for words in ("--x 4", "--y 1", "--x 4095 --y 4095"):
        outside = b"input fault 24 reference\n"
        yield DISPLACEMENT.refused("a reference pixel outside", f"exec $P {DISPLACEMENT.words} {words} <fall", 3, outside)


# Words of a command at the ends of their ranges, which are read, and others, which are refused.
RANGES = (
    ("screen --weight 0 --radius 0 --count 0 --patch 0 --tile", "island", ("2", "128", "=2", "0128"), ("1", "129", "", "-1", "x")),
    ("screen --weight", "island", ("0", "=0"), ("65536", "-1", "=-1", "4294967296", "none", "1.5")),
    ("screen --radius", "island", ("0", "64", "+64"), ("65", "=-1", "18446744073709551616")),
    ("screen --count", "island", ("0", "=1"), ("16642", "-1", "''")),
    ("screen --patch", "island", ("0", "3", "=+3"), ("4194305", "=-1", "'１'")),
    ("displacement --wavelength", "fall", (), ("0", "1000000001", "", "=-56000000", "56e6")),
    (f"{WAVES} --block", "fall", ("1", "=1"), ("0", "65", "-1", "")),
    (f"{WAVES} --x", "fall", ("0", "=0"), ("4096", "-1", "''")),
    (f"{WAVES} --y", "fall", ("0", "+0"), ("4096", "=-1", "0x0")),
)


def range_rows():
    """Words of the commands that make no surface. Without terms a screen keeps the mask."""
    answers = {"island": ISLAND + b"P5\n3 1\n1\n\1\1\1" + SCRIPT, "fall": FALL_DISPLACED}
    for words, file, good, bad in RANGES:
        for value, is_read in [(value, True) for value in good] + [(value, False) for value in bad]:
            command = f"exec $P {words}{value if value.startswith('=') else f' {value}'} <{file}"
            status, out, err = (0, answers[file], NOTHING) if is_read else (2, NOTHING, WORDS)
            yield row(f"words at the ends of their range: {value or 'none'}", command, status, out, err)
    for use in FURTHER_USES:
        for words in ("--workers 2", "--rule least", "--ramp-x 0", "--tile 64 --tile 64", "--wavelength 1", "-x 1", "--Block 1", "0"):
            yield use.refused("words of another command", f"exec $P {use.words} {words} <{use.file}", 2, WORDS)
    for words in ("", "--x 0", "--block 1 --y 0"):
        yield refused("displacement: no wavelength", f"exec $P displacement {words} <fall", 2, WORDS)


def ramp_rows():
    """Rasters with an expected ramp, and reports of both versions with their first lines changed."""
    for words in ("--ramp-x 30000", "--ramp-x 30000 --tile 2", "--tile=2 --ramp-y 0 --ramp-x=0030000"):
        yield row("grid: a ramp", f"exec $P grid {words} <steep", 0, STEEP_GRID, NOTHING)
    report = wanted.report_of(stress.STEEP)
    yield row("unwrap: a ramp", "exec $P unwrap --tile 2 --ramp-x 30000 <steep", 0, report, NOTHING)
    yield row("grid: a ramp without which a residue is there", "exec $P grid --ramp-x 30000 <open", 0, OPEN_GRID, NOTHING)
    for slope, value in ((32767, 0), (32768, -65536), (65535, 0), (0, 0)):
        grid = b"ncols 2\nnrows 1\n" + GRID_HEAD + b"0 %d\n" % value
        yield row("grid: two equal phases", f"exec $P grid --ramp-x {slope} <flat", 0, grid, NOTHING)
        yield row("grid: the other ramp", f"exec $P grid --ramp-y {slope} <flat", 0, grid.replace(b"-65536", b"0"), NOTHING)
    for words, residues, cost in (("700 --ramp-y 300", 457, 16321), ("45536 --ramp-y 30000", 1357, 51969)):
        told = b"pixels 4096\nresidues %d\nunmasked 3834\ncost %d\n" % (residues, cost)  # the cost is LEMON's (joined.cpp)
        yield row("trial: a ramp", f"exec $P trial 7 64 64 --tile 32 --ramp-x {words}", 0, told, NOTHING)
    plain = exactly(stress.LINE_REPORT)
    yield row("unwrap: a ramp of 0", "exec $P unwrap --ramp-x 0 --ramp-y 0 <line", 0, plain, NOTHING)
    yield from terms_rows()
    for use in USES:
        for word in ("65536", "-1", "=-1", "1.5", "''", "0x10", "4294967296", "18446744073709551616", "none", "", "'１'"):
            for name in ("--ramp-x", "--ramp-y"):
                words = f"{use.words} {name}{word if word.startswith('=') else f' {word}'}"
                yield refused(f"{use.name}: a ramp that is none", f"exec $P {words} <{use.file}", 2, WORDS)
        for words in ("--ramp 1", "--ramp-x 1 --ramp-x 1", "--ramp-z 1", "--Ramp-x 1", "--ramp-x 1 2", "-ramp-x 1"):
            yield refused(f"{use.name}: odd words of a ramp", f"exec $P {use.words} {words} <{use.file}", 2, WORDS)


TERMS = (
    ("line", "", "", "accepted"),
    ("line", "--ramp-x 0 --ramp-y 0", "", "accepted"),
    ("line", "--ramp-x 1", "", "refused header 5"),
    ("line", "--ramp-y 65535", "", "refused header 5"),
    ("line", "--ramp-y 65535", "s/^ramp .*/ramp 0 -1/", "accepted"),
    ("line", "", "s/^ramp .*/ramp 0 -1/", "refused header 5"),
    ("line", "", "s/^ramp .*/ramp -32768 32767/", "refused header 5"),
    ("line", "", "s/^ramp .*/ramp -32769 0/", "report fault line 5"),
    ("line", "", "s/^ramp .*/ramp 0 32768/", "report fault line 5"),
    ("line", "", "s/^ramp .*/ramp 0 65535/", "report fault line 5"),
    ("line", "", "s/^ramp .*/ramp 18446744073709551616 0/", "report fault line 5"),
    ("line", "", "s/^ramp .*/ramp -0 0/", "report fault line 5"),
    ("line", "", "s/^ramp .*/ramp 00 0/", "report fault line 5"),
    ("line", "", "s/^ramp .*/ramp +0 0/", "report fault line 5"),
    ("line", "", "s/^ramp .*/ramp 0/", "report fault line 5"),
    ("line", "", "s/^ramp .*/ramp 0 0 0/", "report fault line 5"),
    ("line", "", "s/^ramp .*/ramp 0  0/", "report fault line 5"),
    ("line", "", "s/^ramp .*/ramp 0 0 /", "report fault line 5"),
    ("line", "", "5d", "report fault line 5"),
    ("line", "", "5{h;d};6G", "report fault line 5"),
    ("line", "", "s/^steep .*/steep 16/", "refused header 6"),
    ("line", "", "s/^steep .*/steep 2/", "refused header 6"),
    ("line", "--ramp-x 1", "s/^steep .*/steep 2/", "refused header 5"),
    ("line", "--tile 63 --ramp-x 1", "s/^steep .*/steep 2/", "refused header 3"),
    ("line", "--rule mean --ramp-x 1", "", "refused header 4"),
    ("line", "", "s/^steep .*/steep 17/", "report fault line 6"),
    ("line", "", "s/^steep .*/steep 0/", "report fault line 6"),
    ("line", "", "s/^steep .*/steep -1/", "report fault line 6"),
    ("line", "", "s/^steep .*/steep 01/", "report fault line 6"),
    ("line", "", "s/^steep .*/steep/", "report fault line 6"),
    ("line", "", "6d", "report fault line 6"),
    ("line", "", "6p", "report fault line 7"),
    ("line", "", "1s/2/1/", "report fault line 5"),
    ("line", "", "1s/2/3/", "report fault line 1"),
    ("line", "", "1s/2/02/", "report fault line 1"),
    ("line", "", "1s/2/1/;5,6d", "accepted"),
    ("line", "--ramp-x 1", "1s/2/1/;5,6d", "refused header 5"),
    ("line", "--ramp-y 32768", "1s/2/1/;5,6d", "refused header 5"),
    ("steep", "--tile 2 --ramp-x 30000", "", "accepted"),
    ("steep", "--tile 2", "", "refused header 5"),
    ("steep", "--tile 2 --ramp-x 30001", "", "refused header 5"),
    ("steep", "--tile 2 --ramp-y 30000", "", "refused header 5"),
    ("steep", "--tile 2 --ramp-x 30000", "1s/2/1/;5,6d", "refused header 5"),
    ("steep", "--tile 2", "1s/2/1/;5,6d", "refused surface 0 tile 0 cost 1 bound 0"),
    ("steep", "--tile 2 --ramp-x 30000", "s/120000/54464/", "refused surface 0 tile 1 cost 1 bound 0"),
    ("steep", "--tile 2 --ramp-x 30000", "s/80000 120000/14464 54464/", "refused surface 0 seams cost 1 bound 0"),
)


def terms_rows():
    """A session, the words of check, a change of its report of version 2 by sed, and the line that is wanted."""
    for file, words, change, line in TERMS:
        command = f"sed '{change}' {file}-report | cat {file}-end - | $P check {words}; exit ${{PIPESTATUS[2]}}"
        told, text = f"check of a ramp: {words or 'no words'}, {change or 'nothing'} changed", line.encode() + b"\n"
        if line.startswith("report"):
            yield refused(told, command, 3, text)
        else:
            yield row(told, command, int(line != "accepted"), text, NOTHING)
    for length in range(len(stress.STEEP_REPORT)):
        line = b"report fault line %d\n" % (stress.STEEP_REPORT.count(b"\n", 0, length) + 1)
        command = f"{{ cat steep-end; head -c {length} steep-report; }} | $P check --tile 2 --ramp-x 30000"
        yield refused(f"check: the first {length} bytes of a report with a ramp", command, 3, line)


def bad_words():
    """Words of which one is not UTF-8."""
    for bad in (r"\xff", r"\xc3", r"\xc0\x80", r"\xed\xa0\x80", r"\xf4\x90\x80\x80", r"a\x80"):
        yield from (f"{use.words} $'{bad}'" for use in USES)
        yield from (f"$'{bad}'", f"$'{bad}' unwrap", f"trial $'{bad}' 1 1")
        yield from (f"unwrap --rule $'{bad}'", f"unwrap $'--tile={bad}'", f"unwrap $'--{bad}'")


ODD_WORDS = ("''", "unwrap ''", "'' unwrap", r"unwrap $'\n'", r"unwrap $'--tile=64\n'", "unwrap ' --tile' 64", "Unwrap")
ODD_WORDS += ("unwrap -h", r"$'unwrap\u202e'", "unwrap --tile '６４'", "check --tile ''", r"grid --rule $'least\u200b'")
ODD_WORDS += ("-- unwrap", "unwrap -", "-1")


def word_rows():
    """Words that are not UTF-8 or odd, and names of the program, which are no words."""
    for text in bad_words():
        yield refused("a word that is not UTF-8", f"exec $P {text} <line", 2, WORDS)
    for text in ODD_WORDS:
        yield refused("an odd word", f"exec $P {text} <line", 2, WORDS)
    for name in (r"$'\xff'", "''", "unwrap", "\"$(printf '%131000s' '')\""):
        yield row("an odd name of the program", f"exec -a {name} $P unwrap <line", 0, stress.LINE_REPORT, NOTHING)


def filled(letter, count):
    """A word of so many equal letters, as bash makes it."""
    return f"\"$(printf '%{count}s' '' | tr ' ' {letter})\""


def long_rows():
    """Words of 131,071 bytes, the longest that Linux hands on, and long numbers."""
    word, digits, zeros = filled("x", 131071), filled("9", 131000), filled("0", 131000)
    texts = [word, f"{word} unwrap", f"unwrap --rule {word}", *(f"{use.words} {word}" for use in USES)]
    texts += [f"unwrap --tile {digits}", f"unwrap --workers={digits}", f"trial {digits} 1 1", f"trial 1 {digits} 1"]
    for text in texts:
        yield refused("a very long word", f"exec $P {text} <line", 2, WORDS)
    yield row("a number after 131,000 zeros", f"exec $P unwrap --tile={zeros}64 <line", 0, stress.LINE_REPORT, NOTHING)


def many_rows():
    """100,000 words."""
    for word in ("x", "--", "-x", "--tile=2", "unwrap", "trial", "''"):
        many = f"w=(); for i in {{1..100000}}; do w+=({word}); done; "
        yield refused("100,000 words", f'{many}exec $P "${{w[@]}}" <line', 2, WORDS)
        for use in USES:
            yield use.refused("and 100,000 words", f'{many}exec $P {use.words} "${{w[@]}}" <{use.file}', 2, WORDS)


SPACES = "head -c 16777216 /dev/zero | tr '\\0' ' ' >spaces; "
FOREVER = "while cat spaces; do :; done"
ENDLESS_TEXTS = (
    ("yes P", MAGIC),
    ("printf 'P5 2 '; yes", b"input fault 2 form phase byte 5\n"),
    ("cat line; echo end; yes", b"input fault 15 after end byte 25\n"),
    ("cat line; yes", b"input fault 9 line 1\n"),
    ("cat line; tr '\\0' x </dev/zero", b"input fault 9 line 1\n"),
    ("cat line; yes analyst", b"input fault 11 analysts line 9\n"),
    ("cat line; echo analyst; yes show", b"input fault 12 commands line 4098\n"),
    *((f"printf {text}; {FOREVER}", ENDLESS) for text in ("P2", "'P5 #'", "'P5 1'", "'P2 1 1 65535 7'")),
)


ENDLESS_GRIDS = (
    *((use, "yes", NO_GRID) for use in (CLOSURE, DISPLACEMENT)),
    *((use, FOREVER, b"input fault 20 grid 1 long\n") for use in (CLOSURE, DISPLACEMENT)),
    (CLOSURE, f"head -n 14 loop; printf 'ncols '; {FOREVER}", b"input fault 20 grid 3 long\n"),
    (CLOSURE, "head -n 13 loop; yes '0 ' | tr -d '\\n'", b"input fault 20 grid 2 long\n"),
    (CLOSURE, "head -n 6 loop; tr '\\0' 9 </dev/zero", b"input fault 20 grid 1 long\n"),
    (CLOSURE, "yes \"$(cat loop)\"", b"input fault 22 after grids byte %d\n" % len(LOOP)),
    (DISPLACEMENT, "head -n 6 fall; yes 0", b"input fault 19 grid 1 line 7\n"),
    (DISPLACEMENT, "head -n 6 fall | sed '1s/4/1/; 2s/1/1000/'; yes 0", b"input fault 22 after grids byte 2088\n"),
)


# Whole texts with a line without an end, which the limit of bytes cuts.
ENDLESS_LINES = (
    "cat open-end; head -n 5 open-whole; printf 'cost '; tr '\\0' 9 </dev/zero",
    "cat open-end; head -n 12 open-whole; yes '0 ' | tr -d '\\n'",
    "cat open-end; head -n 14 open-whole; printf 'faces '; yes '0 ' | tr -d '\\n'",
)
# Whole texts without an end, and their first broken lines; memory may run out before.
ENDLESS_WHOLES = (
    ("cat open-end; head -n 14 open-whole; yes 'faces 3'", 16),
    ("cat open-end open-whole; yes", 17),
)


def endless(text, words):
    """A command that reads a text without an end."""
    before = SPACES if FOREVER in text else ""
    return f"{before}{{ {text}; }} 2>/dev/null | $P {words}; exit ${{PIPESTATUS[1]}}"


def endless_rows(slow):
    """Input without an end is refused at the byte that refuses it, or at the limit of bytes or of memory."""
    for text, line in ENDLESS_TEXTS:
        for name in ("unwrap", "grid", "screen", "whole"):
            yield refused(f"{name}: endless input", endless(text, name), 3, line)
        after = b"report fault line 1\n" if b"after end" in line else line
        for name in ("check", "check-whole", "parts"):
            yield refused(f"{name}: endless input", endless(text, name), 3, after)
    for text, line in ENDLESS_WHOLES:
        ends = (End(3, NOTHING, exactly(b"report fault line %d\n" % line)), End(4, NOTHING, exactly(MEMORY)))
        yield Row("check-whole: a text without an end", "ulimit -v 300000; " + endless(text, "check-whole"), ends)
    for use, text, line in ENDLESS_GRIDS:
        yield use.refused("endless input", endless(text, use.words), 3, line)
        yield use.refused("endless input, memory limited", "ulimit -v 100000; " + endless(text, use.words), 3, line)
    entries = "ulimit -v 300000; " + endless("cat line; echo end; cat head; yes kept 0 0", "check")
    yield refused("check: a report of endless entries, memory limited", entries, 4, MEMORY)
    if slow:
        text = f"cat line; echo end; {FOREVER}"
        yield refused("check: a report's line without an end", endless(text, "check"), 3, b"report fault long\n")
        for text in ENDLESS_LINES:
            yield refused("check-whole: a line without an end", endless(text, "check-whole"), 3, b"report fault long\n")


def rows(slow):
    """All of them; with `slow` those too that take a minute."""
    yield from cut_rows()
    yield from cut_report_rows()
    yield from whole_rows()
    yield from cut_grid_rows()
    yield from grid_rows()
    yield from range_rows()
    yield from ramp_rows()
    yield from word_rows()
    yield from long_rows()
    yield from many_rows()
    yield from endless_rows(slow)
