"""Numbers as they are written, and those that stand near them."""
import re

# a comma right before digits stands in the words of a refusal, between thousands, and a $ in a spelling
NUMBER = re.compile(r"(?<![\w·.,\-$])(0x[0-9A-Fa-f]+|\d[\d_]*)(?![\w])")


def worth(text):
    """What a number is worth; one in decimal may have zeros in front, as in a constant that is told as an example."""
    return int(text, 16 if text.startswith("0x") else 10)


def written(value, like):
    """A number in the way that another is written."""
    return f"0x{value:0{len(like) - 2}X}" if like.startswith("0x") else str(value)


def off_by_one(text):
    value = worth(text)
    return [written(near, text) for near in (value - 1, value + 1) if near >= 0]


def another(text):
    """A constant that a slip of the hand or of the mind would write there."""
    value = worth(text)
    slips = {0: 2, 1: 0, 2: 4, 3: 5, 4: 2, 5: 3, 8: 4, 16: 8, 128: 64, 256: 255, 4096: 256, 65536: 65535, 1048576: 65536}
    return [written(slips.get(value, value // 2 if value % 2 == 0 else value + 2), text)]
