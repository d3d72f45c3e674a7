"""Which sections of which RFC some words name, such as 'RFC 8415, sections 18.3.4 and 18.3.5', or 'section 21.13' alone after
a comment that names the RFC."""
import re

NUMBER = r"\d+(?:\.\d+)*"
NUMBERS = rf"{NUMBER}(?:(?:, | and | to |, and ){NUMBER})*"
PART = rf"(?:sections?|tables?|figures?|steps?) {NUMBERS}"
NAMED = re.compile(rf"RFC (?P<rfc>\d+)(?P<parts>(?:, {PART})*)|\((?P<alone>{PART})\)")


def named(words, before):
    """Each RFC with its parts that the words name, as pairs, and the RFC that was named last, by these or before."""
    found = []
    for match in NAMED.finditer(words):
        if match["rfc"]:
            before = int(match["rfc"])
            found.append((before, match["parts"][2:]))
        elif before:
            found.append((before, match["alone"]))
    return found, before


def title(rfc, part):
    return f"RFC {rfc}, {part}" if part else f"RFC {rfc}"


def place(reference):
    """What references are sorted by: the RFC, and the first number of the part."""
    numbers = re.search(NUMBER, reference[1])
    return reference[0], [int(number) for number in numbers.group().split(".")] if numbers else [], reference[1]


def references_of(module, file):
    """What the comments of each definition of a file name, by the module and the definition's name."""
    found, last = {}, named(file.header, None)[1]
    for definition in file.definitions.values():
        last = named(definition.remark, last)[1]
        inside = " ".join(re.findall(r"--(.*)", definition.source))
        references, last = named(f"{definition.comment} {inside}", last)
        found[module, definition.name] = list(dict.fromkeys(references))
    return found
