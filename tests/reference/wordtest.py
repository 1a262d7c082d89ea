"""Document 01, the word test as a program; document 02, Ask 3: its no has a number.

    python3 -m reference.wordtest [--instrument large|entry|four] SHEET-FILE CONDITION
        EVENT...
"""
import sys

from .instruments import CHOICE, chosen_instrument
from .loader import word_line

USAGE = (f"usage: python3 -m reference.wordtest [--instrument {CHOICE}] "
         "SHEET-FILE CONDITION EVENT...")


def main(arguments):
    try:
        instrument, arguments = chosen_instrument(arguments)
    except ValueError as error:
        return str(error)
    if len(arguments) < 2:
        return USAGE
    try:
        condition = int(arguments[1])
        word = bytes(int(event) for event in arguments[2:])
    except ValueError:
        return "the condition and the events are numbers, an event one byte"
    if condition < 0:
        return "the condition is a number from 0"
    with open(arguments[0], "rb") as file:
        print(word_line(file.read(), condition, word, instrument))
    return None


if __name__ == "__main__":
    sys.exit(main(sys.argv[1:]))
