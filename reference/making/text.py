"""A script's text with other blanks, comments and zeros; and text that is no script."""

from making.lent import GREATEST, LEAST, MOST
from script import CALLS, ROOM


def loosened(rng, text):
    """The same numbers with other blanks, comments and zeros in front."""
    words = text.split()
    for i, word in enumerate(words):
        if rng.random() < 0.1 and word.isdigit():
            words[i] = "0" * rng.randint(1, 3) + word
    return "".join(word + rng.choice([" ", " ", "\n", "\t", "\r\n", " # note 12\n", "# 7 -\n"]) for word in words)


def broken(rng, text):
    """Text that is no script, somewhere in it."""
    words = text.split()
    at = rng.randrange(len(words))
    kind = rng.choice(["strange", "large", "minus", "call", "long table", "cut", "cut", "signed"])
    if kind == "strange":
        words[at] = rng.choice(["x", "1.5", "+3", "-", "--4", "3-4", "0x10", "7,"])
    elif kind == "large":
        words[at] = rng.choice([str(GREATEST + 1), "1" + "0" * 25])
    elif kind == "minus":
        words[at] = "-" + words[at].lstrip("-")
    elif kind == "call":
        words[0] = rng.choice(["0", str(1 + max(CALLS)), "-1", str(GREATEST)])
    elif kind == "long table":
        words[min(3, len(words) - 1)] = rng.choice([str(ROOM["t"] + 1), str(ROOM["b"] + 1), str(GREATEST)])
    elif kind == "signed":
        words[at] = rng.choice([str(LEAST), str(LEAST - 1), str(MOST), str(MOST + 1)])
    else:
        words = words[:at]
    return kind, " ".join(words) + rng.choice(["", "\n", " "])
