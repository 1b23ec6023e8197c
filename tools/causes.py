"""What is wrong with a line of a plan or a trace, in words: its bytes, its blanks, its numbers."""
import re
import unicodedata
from collections import namedtuple

from plans import GREATEST, LEAST

# what is wrong, and what to do about it
Cause = namedtuple("Cause", "what do")

UTF_16 = Cause(
    "the text is stored as UTF-16, two bytes a letter",
    "save it as plain text: ASCII, or UTF-8 without a byte order mark")
BYTE_ORDER_MARK = Cause(
    "the file begins with a byte order mark, three bytes that some editors put there unseen",
    'save it again without one: as ASCII, or as UTF-8 and not "UTF-8 with BOM"')
CARRIAGE_RETURN = Cause(
    "the line ends with two bytes, a carriage return before the line feed",
    "save the file with Unix line ends (LF), or take the carriage returns out: tr -d '\\r' <FILE >NEW")
ONLY_RETURNS = Cause(
    "the lines end with a carriage return, not with a line feed",
    "save the file with Unix line ends (LF), or turn them: tr '\\r' '\\n' <FILE >NEW")
NO_LINE_END = Cause("the last line does not end with a line feed", "press Enter at the end of the last line and save")
EMPTY_LINE = Cause("an empty line", "delete it")
BLANK_LINE = Cause("a line with nothing but blanks", "delete it")
TAB = Cause("a tab", "take it away; between the parts of a trace line write one blank")
LEADING = Cause("a blank at the beginning of the line", "take it away")
TRAILING = Cause("a blank at the end of the line", "take it away")
AROUND = Cause("a blank beside the =", "write key and value without blanks, as a=0")
COMMENT = Cause("a comment", "take it away: there are no comments; keep notes in a file beside this one")
SEMICOLON = Cause("a semicolon at the end of the line", "take it away")
FRACTION_DO = "write a whole number in a smaller unit, as 5 tenths for 0.5"

# characters that look like the minus sign of the keyboard
MINUS_LIKE = "−–—‐‑"


def quoted(line, most=60):
    """A line as it can be shown: unseen bytes by their codes, long lines cut."""
    text = line.rstrip(b"\n").decode("utf-8", "backslashreplace")
    shown = "".join(c if c.isprintable() else c.encode("unicode_escape").decode() for c in text[:most])
    return '"%s"%s' % (shown, " .." if len(text) > most else "")


def of_file(text):
    """What is wrong with the file as a whole, and shows on its first line."""
    if text[:2] in (b"\xff\xfe", b"\xfe\xff") or (text[:64].count(0) * 3 > len(text[:64])):
        return UTF_16
    if text.startswith(b"\xef\xbb\xbf"):
        return BYTE_ORDER_MARK
    if b"\r" in text and b"\n" not in text:
        return ONLY_RETURNS
    return None


def character(line):
    """A byte above 127 in a line, by the character it stands for."""
    try:
        strange = next(c for c in line.decode("utf-8") if ord(c) > 127)
    except UnicodeDecodeError:
        code = next(c for c in line if c > 127)
        return Cause("a byte above 127 (%d), which is no plain letter" % code, "type it again and save the file as plain text")
    name = unicodedata.name(strange, "no name").lower()
    do = "take it away, or type it again on the keyboard"
    if strange in MINUS_LIKE:
        do = "type the - of the keyboard"
    elif "quotation mark" in name:
        do = "take the quotation marks away"
    return Cause("a character that is not plain ASCII: %s (%s)" % (strange if strange.isprintable() else "unseen", name), do)


def of_line(line):
    """What is wrong with the bytes and blanks of a line, whatever it should say; None if nothing is."""
    body = line.rstrip(b"\n")
    bare = body.strip(b" \t\r")
    if body.endswith(b"\r"):
        return CARRIAGE_RETURN
    if not body:
        return EMPTY_LINE
    if not bare:
        return BLANK_LINE
    if any(c > 127 for c in body):
        return character(body)
    if any((c < 32 and c != 9) or c == 127 for c in body):
        return Cause("an unseen control character", "write the line anew")
    if bare.startswith((b"#", b"//", b"--", b";")) or re.search(rb"#|//|[ \t](--|;)", bare):
        return COMMENT
    if bare.endswith(b";"):
        return SEMICOLON
    if b"\t" in body:
        return TAB
    if re.search(rb" =|= ", body):
        return AROUND
    if body.startswith(b" "):
        return LEADING
    if body.endswith(b" "):
        return TRAILING
    return None


def cut(word):
    return word if len(word) <= 40 else word[:40] + ".."


def out_of_range(word):
    """A number that is rightly written and no value; None if it is one."""
    if not re.fullmatch(r"-?[1-9][0-9]*", word) or (len(word) <= 20 and LEAST <= int(word) <= GREATEST):
        return None
    return Cause("a value out of range: %s" % cut(word), "values go from %d to %d" % (LEAST, GREATEST))


def of_number(word, digits, minus):
    """What is wrong with how a number is written; `minus` says whether it may have one. None if nothing is."""
    shown = cut(word)
    if word == "":
        return Cause("the number is missing", "write one; what is not used is 0")
    if word.startswith("+"):
        return Cause("a plus sign before the number", "write it without, as %s" % (shown[1:] or "5"))
    if re.fullmatch(r"-0+", word):
        return Cause("a minus sign before 0", "write 0")
    if word.startswith("-") and not minus:
        return Cause("a minus sign where none may be", "a stream number, a stamp or a bound is never below 0")
    if re.fullmatch(r"-?[0-9]*[.,][0-9]*", word):
        return Cause("a fraction, or a number with a comma or point in it: %s" % shown, FRACTION_DO)
    if re.fullmatch(r"-?[0-9][0-9_' ]*", word) and not re.fullmatch(r"-?[0-9]+", word):
        return Cause("digits in groups: %s" % shown, "write the digits without anything between them")
    if re.fullmatch(r"-?[0-9]+[eE][+-]?[0-9]+", word):
        return Cause("a number with an exponent: %s" % shown, "write the digits out")
    if re.fullmatch(r"0[xX][0-9a-fA-F]+", word):
        return Cause("a number in base sixteen: %s" % shown, "write it in base ten")
    if re.fullmatch(r"-?0[0-9]+", word):
        return Cause("a leading zero: %s" % shown, "write %s" % cut(re.sub(r"^(-?)0+(?=[0-9])", r"\1", word)))
    if not re.fullmatch(r"-?[0-9]+", word):
        return Cause("not a whole number: %s" % shown, "write a whole number in digits")
    if len(word.lstrip("-")) > digits:
        return Cause("more than %s digits: %s" % (NAMES[digits], shown), "write at most %s" % NAMES[digits])
    return None


NAMES = {3: "three", 10: "ten", 19: "nineteen"}
