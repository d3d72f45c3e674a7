"""The parts of a page in Markdown, as far as the pages of this repository use it: headings, paragraphs, lists, tables, fenced
text, and in them code, bold and slanted words and links. What stands between the comments HERE and its end is about a clone of the
repository alone, and can be left out."""
import re

HERE = re.compile(r"^<!-- in a clone -->\n.*?^<!-- end -->\n", re.M | re.S)
WORDS = re.compile(r"`(?P<code>[^`]+)`|\*\*(?P<bold>.+?)\*\*|\*(?P<slanted>[^*]+)\*|\[(?P<link>[^\]]+)\]\((?P<target>[^)\s]+)\)")


def without_clone(text):
    return HERE.sub("", text)


def cells(line):
    """What stands between the bars of a table's row. A bar in code is no other column's beginning only where it is escaped."""
    return [cell.strip().replace("\\|", "|") for cell in re.split(r"(?<!\\)\|", line.strip().strip("|"))]


def is_rule(line):
    return re.fullmatch(r"\|(?: *:?-+:? *\|)+", line.strip()) is not None


def fenced(lines, at):
    """The lines of a fenced text that begins here, and where the page goes on after it."""
    end = next((place for place in range(at + 1, len(lines)) if lines[place].startswith("```")), len(lines))
    return lines[at + 1:end], end + 1


def rows(lines, at):
    """The rows of a table that begins here, without the rule below its head, and where the page goes on."""
    end = at
    while end < len(lines) and lines[end].startswith("|"):
        end += 1
    return [cells(line) for line in lines[at:end] if not is_rule(line)], end


def item(lines, at):
    """An entry of a list, with the lines of it that are set in, and where the page goes on."""
    end = at + 1
    while end < len(lines) and re.match(r"\s+\S", lines[end]):
        end += 1
    first = re.sub(r"^(?:- |\d+\. )", "", lines[at])
    return " ".join([first, *map(str.strip, lines[at + 1:end])]), end


def paragraph(lines, at):
    end = at + 1
    while end < len(lines) and lines[end].strip() and not re.match(r"#|\||```|- |\d+\. |<!--", lines[end]):
        end += 1
    return " ".join(map(str.strip, lines[at:end])), end


def blocks(text):
    """The parts of a page in order, each with its kind: ("heading", (depth, words)), ("fenced", (kind, lines)), ("table", rows),
    ("item", (mark, words)), ("paragraph", words)."""
    lines, at, found = text.splitlines(), 0, []
    while at < len(lines):
        line = lines[at]
        heading = re.match(r"(#+) (.*)", line)
        if heading:
            found.append(("heading", (len(heading[1]), heading[2].strip())))
            at += 1
        elif line.startswith("```"):
            content, at = fenced(lines, at)
            found.append(("fenced", (line.strip("`").strip(), content)))
        elif line.startswith("|"):
            content, at = rows(lines, at)
            found.append(("table", content))
        elif re.match(r"- |\d+\. ", line):
            mark = line.partition(" ")[0]
            content, at = item(lines, at)
            found.append(("item", (mark, content)))
        elif not line.strip() or line.startswith("<!--"):
            at += 1
        else:
            content, at = paragraph(lines, at)
            found.append(("paragraph", content))
    return found


def section(text, heading):
    """What stands below a heading of the second depth, without it."""
    parts = re.split(r"^## ", text, flags=re.M)
    found = [part.partition("\n")[2] for part in parts[1:] if part.partition("\n")[0].strip() == heading]
    if len(found) != 1:
        raise ValueError(f"there are {len(found)} sections '{heading}'")
    return found[0]
