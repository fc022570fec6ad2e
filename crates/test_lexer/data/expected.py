#!/usr/bin/env python3
"""What lexing answers, worked out apart from the code: writes this program's stdin and the stdout that it must give, each answer on two lines,
since the program lexes by the lexer and by a reader, and behind them the unread rest behind the first token; all of it in the first reading and
then in the second.

The rules are those of document 01 (the refusal table and module 2), the words are the `map.insert` lines of the Rust's lexer.rs and the
lexemes the variants of its enum, both in their order. The second reading has the words of the first, "th" with a lexeme of its own, and three more.
Use: python3 expected.py   (it writes ../stdin and ../stdout)
"""
import pathlib
import random
import re

KEYWORDS = """
on:On at:At an:An in:In after:After last:Last this:This next:Next monday:Monday tuesday:Tuesday wednesday:Wednesday thursday:Thursday
friday:Friday saturday:Saturday sunday:Sunday january:January february:February march:March april:April may:May june:June july:July
august:August september:September october:October november:November december:December jan:January feb:February mar:March apr:April
jun:June jul:July aug:August sep:September oct:October nov:November dec:December am:AM pm:PM day:Day days:Day week:Week weeks:Week
month:Month months:Month year:Year years:Year hour:Hour hours:Hour min:Minute mins:Minute minute:Minute minutes:Minute and:And
today:Today tomorrow:Tomorrow yesterday:Yesterday now:Now from:From zero:Zero one:One two:Two three:Three four:Four five:Five six:Six
seven:Seven eight:Eight nine:Nine ten:Ten eleven:Eleven twelve:Twelve thirteen:Thirteen fourteen:Fourteen fifteen:Fifteen
sixteen:Sixteen seventeen:Seventeen eighteen:Eighteen nineteen:Nineteen twenty:Twenty thirty:Thirty fourty:Fourty fifty:Fifty
sixty:Sixty seventy:Seventy eighty:Eighty ninety:Ninety hundred:Hundred thousand:Thousand million:Million billion:Billion first:One
second:Two third:Three fourth:Four fifth:Five sixth:Six seventh:Seven eigth:Eight ninth:Nine tenth:Ten eleventh:Eleven twelfth:Twelve
thirteenth:Thirteen fourteenth:Fourteen fifteenth:Fifteen sixteenth:Sixteen seventeenth:Seventeen eighteenth:Eighteen
nineteenth:Nineteen twentieth:Twenty thirtieth:Thirty fourtieth:Fourty fiftieth:Fifty sixtieth:Sixty seventieth:Seventy eightieth:Eighty
ninetieth:Ninety hundredth:Hundred thousandth:Thousand millionth:Million billionth:Billion before:Before ago:Ago midnight:Midnight
noon:Noon a:A the:The nd:ND st:ST rd:RD th:RD
"""

LEXEMES = """
A An On In At The Dash Today Tomorrow Yesterday From Now And Comma Colon Dot After Num This Next Monday Tuesday Wednesday Thursday
Friday Saturday Sunday January February March April May June July August September October November December AM PM Day Week Hour Minute
Month Year Slash Before Ago Midnight Noon Zero One Two Three Four Five Six Seven Eight Nine Ten Eleven Twelve Thirteen Fourteen Fifteen
Sixteen Seventeen Eighteen Nineteen Twenty Thirty Fourty Fifty Sixty Seventy Eighty Ninety Hundred Thousand Million Billion Last ST ND
RD TH
"""

ONES = "One Two Three Four Five Six Seven Eight Nine Ten Eleven Twelve Thirteen Fourteen Fifteen Sixteen Seventeen Eighteen Nineteen"
TENS = "Twenty Thirty Fourty Fifty Sixty Seventy Eighty Ninety"
VALUES = {name: k + 1 for k, name in enumerate(ONES.split())} | {name: 20 + 10 * k for k, name in enumerate(TENS.split())}
# a number word's code is its value; every other lexeme but Num has its code from 100 on; a literal's has its digits times 2^32 above its value
OTHERS = [name for name in LEXEMES.split() if name not in VALUES and name != "Num"]
CODES = VALUES | {name: 100 + k for k, name in enumerate(OTHERS)}
def coded(rows):
    return {word.encode(): CODES[name] for word, name in (row.split(":") for row in rows.split())}


WORDS = coded(KEYWORDS)
ADDED = coded("forty:Fourty fortieth:Fourty eighth:Eight")
SECOND_WORDS = WORDS | coded("th:TH") | ADDED
MARKS = {b"-": CODES["Dash"], b"/": CODES["Slash"], b".": CODES["Dot"], b",": CODES["Comma"], b":": CODES["Colon"]}


def code_of(words, part):
    """The code of a word, a number or a mark; or the number of its refusal, negative."""
    if part.isalpha():
        return words.get(part.lower(), -2)
    if part.isdigit():
        return 2**32 * len(part) + int(part) if int(part) <= 4294967295 else -3
    return MARKS.get(part, -2)


# a word, a number, or one byte of any other kind
TOKEN = re.compile(rb"[A-Za-z]+|[0-9]+|[^ \t]")


def answer(words, phrase):
    if len(phrase) > 256:
        return b"refused 1 at 0 to 0 part "
    lexemes = []
    for match in TOKEN.finditer(phrase):
        code = code_of(words, match.group())
        if code >= 0 and len(lexemes) == 64:
            code = -4
        if code < 0:
            return b"refused %d at %d to %d part %s" % (-code, match.start(), match.end(), match.group())
        lexemes.append(b"%d@%d" % (code, match.start()))
    return b" ".join(lexemes)


def behind_first(phrase):
    """A reader behind a token stands at the token's end; with no token it stays at the start."""
    match = TOKEN.search(phrase)
    end = match.end() if match else 0
    return b"behind %d rest %s" % (end, phrase[end:])


def mixed_case(word):
    return bytes(b - 32 if k % 2 else b for k, b in enumerate(word))


def cases():
    # every word, in mixed case and in capitals; then each with its last letter off, and with one letter more
    for word in WORDS:
        yield mixed_case(word) + b" " + word.upper()
    for word in WORDS:
        yield word[:-1] or b"b"
        yield b"now " + word + b"x"
    # what the paper says of the map's spellings, and words over a row's room
    yield from [b"fourty forty", b"eigth eighth", b"4th", b"second", b"TH th Th tH", b"seventeenth", b"seventeenthx"]
    yield from [b"abcdefghijkl", b"abcdefghijklm", b"wednesdayweds", b"a" * 256, b"z" * 300]
    # the length of a phrase
    for count in (0, 1, 255, 256, 257, 300, 400):
        yield b" " * count
        yield b"," + b" " * count
        yield b" " * count + b"now"
    yield b"now" + b"\t" * 253
    yield b"now" + b"\t" * 254
    yield b"?" * 256
    yield b"?" * 257
    # the count of lexemes, and which refusal comes first
    for count in (63, 64, 65, 66):
        yield b"," * count
        yield b" ".join([b"a"] * count)
        yield b"7/" * (count // 2) + b"7" * (count % 2)
        yield b"." * count + b" \t "
    for last in (b"?", b"soon", b"4294967296", b"4294967295", b"now", b"-", b"now soon", b"4294967295 ?"):
        yield b"a " * 63 + last
        yield b"a " * 64 + last
        yield b"a " * 65 + last
    yield b"soon 4294967296"
    yield b"4294967296 soon"
    # a digit run's value
    for digits in (b"0", b"00", b"9", b"10", b"4294967295", b"4294967296", b"4294967294", b"4294967305", b"42949672950", b"9999999999"):
        yield digits
        yield b"0" * 30 + digits
    yield from [b"9" * 30, b"1" + b"0" * 30, b"0" * 200, b"0" * 255 + b"7", b"18446744073709551616", b"18446744073709551617"]
    # leading zeros are digits too
    yield from [b"5", b"05", b"0005", b"2027 02027", b"0" * 256, b"0" * 257]
    yield from [b"36893488147419103232", b"4294967296" * 25, b"340282366920938463463374607431768211456"]
    # letters beside digits, marks and gaps
    yield from [b"10am", b"5pm5", b"am10pm", b"march4th", b"1st2nd3rd4th", b"x1", b"1x", b"a1a1"]
    yield from [b"monday-friday", b"5:00-6:00", b"5.2/2022,"]
    yield from [b"\tnow\t", b" \t \t", b"now\rnow", b"now\x0bnow", b"now\x00", b"\x00", b"-/.,:", b"--", b":::", b"a,b", b"now;", b"(now)"]
    yield from [b"@", b"[", b"`", b"{", b"A@Z[a`z{", b"/0", b"9:"]
    yield from [b"now\x80", b"\xc3\xa9t\xc3\xa9", b"m\xc3\xa4rz", b"\xff\xfe", b"\xc1\xda\xe1\xfa"]
    # the paper's phrases
    yield from [b"friday", b"wednesday", b"next friday", b"last friday", b"this monday", b"tuesday in two weeks", b"friday next 5:00"]
    yield from [b"5/2/2022", b"5.2.2022", b"1000/1/1", b"1001/1/1", b"5/2", b"5/2 at noon", b"march 4th", b"march 24th", b"january 1, 2010"]
    yield from [b"march 3 5 pm", b"twenty-march 2024", b"0 days ago", b"zero days ago", b"one hundred and days ago"]
    yield from [b"four billion days ago", b"five billion days ago", b"4294967295 years from now", b"this month", b"a year from now"]
    yield from [b"12 months from now", b"forty days ago"]
    # the Rust's own tests
    yield from [b"fifty-five days from january 1, 2010 5:00", b"Hello World"]
    # phrases at random
    draw = random.Random(1)
    pieces = list(WORDS) + list(MARKS) + [b" ", b"\t", b"soon", b"?", b"0", b"7", b"31", b"2024", b"4294967295", b"4294967296", b"\xe9"]
    for _ in range(400):
        drawn = draw.choices(pieces, k=draw.randint(1, 12))
        yield draw.choice([b" ", b"", b"  "]).join(mixed_case(piece) if piece.isalpha() and draw.random() < 0.2 else piece for piece in drawn)
    # the words that only the second reading has, as the others above, and beside the Rust's spellings
    for word in ADDED:
        yield mixed_case(word) + b" " + word.upper()
        yield word[:-1]
        yield b"now " + word + b"x"
    yield from [b"fourty eigth 4th 24th TH th forty fortieth eighth eight", b"4th 24th TH th forty fortieth eighth eight fourty"]
    yield from [b"forty", b"in forty days", b"forty-eighth", b"fourtieth fortieth", b"eigth", b"fourty", b"march the 24th", b"1th 2th 3th 40th"]


phrases = list(cases())
assert len(WORDS) == 133 and len(SECOND_WORDS) == 136 and not any(b"\n" in phrase for phrase in phrases)
text = b"\n".join(phrases)
assert len(text) < 65536
crate = pathlib.Path(__file__).resolve().parent.parent
(crate / "stdin").write_bytes(text)
all_phrases = [bytes([b]) for b in range(256)] + phrases
told = (2 * (answer(words, phrase) + b"\n") + behind_first(phrase) + b"\n" for words in (WORDS, SECOND_WORDS) for phrase in all_phrases)
(crate / "stdout").write_bytes(b"".join(told))
