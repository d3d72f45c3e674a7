"""Writes the parts of a page (markdown.py) as a man page: roff with tables for tbl, which read well at 80 columns."""
import re
import textwrap

from markdown import WORDS

# what `man` leaves of 80 columns for text, what a text that is set in has of it, and how far an entry of a list is set in
LINE, INSET, ENTRY = 71, 4, 7
# what stands at the left of a page's foot, at most, where the date has room in the midst of it
FOOT = 32
# between two columns of a table
GAP = 2
# a table whose rows are higher than that on average, or one of them is by so much, is a list of its rows
HIGH, HIGHEST = 4, 9
SHORT = 16
PLAIN = {"\\": "\\e", "→": "\\(->", "…": "..."}
CODE = {**PLAIN, "-": "\\-", "'": "\\(aq", "`": "\\(ga", "^": "\\(ha", "~": "\\(ti", '"': "\\(dq"}
# terminals without UTF-8 lack these
BOXES = str.maketrans("─│┌┐└┘├┤┬┴┼", "-|+++++++++")


def escaped(text, table):
    return "".join(table.get(character, character) for character in text.translate(BOXES))


def prose(text, table):
    """What is no code; the name of a man page is not broken."""
    return re.sub(r"[\w-]+(?=\(\d\))", lambda match: match[0].replace("-", "\\-"), escaped(text, table))


def words(text, table=PLAIN, font="R"):
    """A text with its fonts. Code, and what is bold, is bold."""
    found, at = [], 0
    for match in WORDS.finditer(text):
        found.append(prose(text[at:match.start()], table))
        at = match.end()
        if match["code"] is not None:
            found.append(f"\\fB{escaped(match['code'], CODE)}\\f{font}")
        elif match["bold"] is not None:
            found.append(f"\\fB{words(match['bold'], table, 'B')}\\f{font}")
        elif match["slanted"] is not None:
            found.append(f"\\fI{words(match['slanted'], table, 'I')}\\f{font}")
        else:
            found.append(f"{words(match['link'], table, font)} ({escaped(match['target'], CODE)})")
    return "".join([*found, prose(text[at:], table)])


def seen(text):
    """A text as a reader sees it, without its marks."""
    return WORDS.sub(lambda match: match["code"] or seen(match["bold"] or match["slanted"] or "")
                     or f"{match['link']} ({match['target']})", text)


def guarded(line):
    """A line of text, which is no request."""
    return "\\&" + line if line.startswith((".", "'")) else line


def filled(text):
    """The lines of a text that is filled."""
    lines = textwrap.wrap(words(text), 110, break_long_words=False, break_on_hyphens=False)
    return "\n".join(map(guarded, lines))


# Fenced texts

def breaks(line):
    """The places of the spaces of a command that stand outside of quotes, after its indentation."""
    quote, start = None, len(line) - len(line.lstrip())
    for place, character in enumerate(line):
        if quote:
            quote = None if character == quote else quote
        elif character in "'\"":
            quote = character
        elif character == " " and place > start:
            yield place


def continued(line, room):
    """A command as lines that are not too long, where it may be broken."""
    indent = " " * (len(line) - len(line.lstrip()) + INSET)
    while len(line) > room:
        places = [place for place in breaks(line) if place <= room - 2]
        if not places:
            break
        yield line[:places[-1]] + " \\"
        line = indent + line[places[-1] + 1:].lstrip()
    yield line


def remark(comment, room, indent=""):
    return [f"{indent}# {part}" for part in textwrap.wrap(comment.strip(" #"), room - 2 - len(indent))]


def commands(lines, room):
    """Lines of the shell that are not too long: a comment comes below its command, set in, where there is no room after it."""
    for line in lines:
        command, mark, comment = line.partition("  # ")
        command = command.rstrip()
        if len(line) <= room and command:
            yield line
        elif not mark and not line.lstrip().startswith("#"):
            yield from continued(command, room)
        elif not mark or not command:
            yield from remark(line, room)
        elif len(command) + 4 + len(comment) <= room:
            yield f"{command}  # {comment}"
        else:
            yield from [*continued(command, room), *remark(comment, room, INSET * " ")]


def fenced(kind, lines):
    room = LINE - INSET
    lines = list(commands(lines, room)) if kind == "sh" else lines
    wide = max(map(len, lines), default=0) > room
    text = "\n".join(guarded(escaped(line, CODE)) for line in lines)
    # one that is still too wide begins where the terminal's line does
    return f".PP\n.in 0\n.EX\n{text}\n.EE\n.in" if wide else f".PP\n.RS {INSET}\n.EX\n{text}\n.EE\n.RE"


# Tables

def height(text, width):
    """How many lines a text takes that is filled at this width."""
    count, at = 1, 0
    for word in text.split():
        if at and at + 1 + len(word) > width:
            count, at = count + 1, 0
        at += len(word) + (1 if at else 0)
    return count


def heights(table, widths):
    return [max(height(cell, width) for cell, width in zip(row, widths)) for row in table]


def wider(table, widths, left):
    """The column that is best made wider, and by how much; None where no row gets lower by it."""
    before, best = sum(heights(table, widths)), None
    for column in range(len(widths)):
        for more in range(1, left + 1):
            tried = [*widths[:column], widths[column] + more, *widths[column + 1:]]
            gain = before - sum(heights(table, tried))
            if gain and (best is None or gain / more > best[0]):
                best = gain / more, column, more
            if gain:
                break
    return best and best[1:]


def layout(table):
    """The widths of a table's columns, or None where it is better read as a list."""
    table = [[seen(cell) for cell in row] for row in table]
    room = LINE - GAP * (len(table[0]) - 1)
    widths = [max([4, *(len(word) for cell in column for word in cell.split())]) for column in zip(*table)]
    # short cells stay whole where there is room
    whole = [max([width, *(len(cell) for cell in column if len(cell) <= SHORT)]) for width, column in zip(widths, zip(*table))]
    widths = whole if sum(whole) <= room else widths
    left = room - sum(widths)
    while left > 0:
        step = wider(table, widths, left)
        if step is None:
            break
        widths[step[0]] += step[1]
        left -= step[1]
    lines = heights(table, widths)
    fits = left >= 0 and sum(lines) <= HIGH * len(lines) and max(lines) <= HIGHEST
    return widths if fits else None


def cell(text):
    return f"T{{\n{filled(text)}\nT}}" if text else ""


def as_table(rows, widths):
    kinds = [f"{GAP} ".join(f"{kind}w({width}n)" for width in widths) for kind in ("lB", "l")]
    lines = [f".PP\n.TS\nnokeep tab(\t);\n{kinds[0]}\n{kinds[1]}."]
    is_high = any(high > 1 for high in heights([[seen(text) for text in row] for row in rows[1:]], widths))
    for number, row in enumerate(rows):
        if number == 1 or number and is_high:
            lines.append("_")
        lines.append("\t".join(map(cell, row)))
    return "\n".join([*lines, ".TE"])


def as_list(rows):
    """The heads, and each row as an entry: its first cell, and below it the others with the heads of their columns."""
    entries = [f".PP\n{filled(' / '.join(f'*{head}*' for head in rows[0] if head))}"]
    for row in rows[1:]:
        rest = [f"*{head}*: {text}" if head else text for head, text in zip(rows[0][1:], row[1:]) if text]
        # not .TP, which has what follows a short head in the head's line
        entries.append(f".PP\n{filled(row[0]) or chr(92) + '&'}\n.RS {ENTRY}\n" + "\n.br\n".join(map(filled, rest)) + "\n.RE")
    return "\n".join(entries)


def table(rows):
    rows = [row + [""] * (len(rows[0]) - len(row)) for row in rows]
    widths = layout(rows)
    return as_table(rows, widths) if widths else as_list(rows)


# Pages

def part(kind, content):
    if kind == "heading":
        depth, text = content
        return f".{'SH' if depth <= 2 else 'SS'} {escaped(seen(text), CODE)}"
    if kind == "fenced":
        return fenced(*content)
    if kind == "table":
        return table(content)
    if kind == "item":
        mark, text = content
        return f".IP \\(bu 2\n{filled(text)}" if mark == "-" else f".IP {mark} 4\n{filled(text)}"
    if kind == "entry":
        term, text = content
        return f".TP\n{guarded(words(term))}\n{filled(text)}"
    return f".PP\n{filled(content)}"


def page(name, section, about, date, version, parts):
    """A man page with these parts. A version that leaves the date no room in the foot is that of a commit, with a date in it."""
    left = f"Higvaszte {version}"
    date = date if len(left) <= FOOT else ""
    head = [
        "'\\\" t",
        f'.TH {escaped(name, CODE)} {section} "{escaped(date, CODE)}" "{escaped(left, CODE)}" Higvaszte',
        ".nr HY 0\n.nh\n.ad l\n.ss 12 0",
        f".SH NAME\n{escaped(name, CODE)} \\- {words(about)}",
    ]
    return "\n".join([*head, *(part(kind, content) for kind, content in parts)]) + "\n"
