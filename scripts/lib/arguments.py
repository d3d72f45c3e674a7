"""The command line of an operator's scripts: options that stand alone, and then words such as CONFIG, FILE and PORT."""
import sys

from configurations import FIRST_PORT
from operator_script import say


def ended(help_text, fault):
    """Ends a script with its help, and where something is wrong with that first."""
    if fault is None:
        print(help_text)
        sys.exit(0)
    say(f"error: {fault}\n{help_text}")
    sys.exit(2)


def number_of(help_text, name, word, most):
    """A word that is a number from 1 on."""
    if not (word.isascii() and word.isdecimal() and len(word) < 6 and 0 < int(word) <= most):
        ended(help_text, f"{name} has to be 1 to {most}, not {word}")
    return int(word)


def parsed(help_text, known, least, most):
    """The options among a script's arguments and the words, of which there are so many. After `--` there are no options."""
    options, words, given = set(), [], sys.argv[1:]
    while given:
        word = given.pop(0)
        if word == "--":
            words += given
            break
        if word in ("--help", "-h"):
            ended(help_text, None)
        if word.startswith("-"):
            if word not in known:
                ended(help_text, f"there is no option {word}")
            options.add(word)
        else:
            words.append(word)
    if not least <= len(words) <= most:
        ended(help_text, f"{len(words)} arguments, not {least if least == most else f'{least} to {most}'}")
    if not all(words):
        ended(help_text, "an argument is empty")
    return options, words


def parsed_service(help_text, known, least=2):
    """The same of CONFIG, FILE and PORT."""
    options, words = parsed(help_text, known, least, 3)
    port = number_of(help_text, "PORT", words[2], 65535) if len(words) > 2 else FIRST_PORT
    return options, words[0], words[1] if len(words) > 1 else None, port
