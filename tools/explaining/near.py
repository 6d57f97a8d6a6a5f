"""Words that are nearly others, and how things are shown in a sentence."""


def distance(one, other):
    """How many letters have to be put in, taken out, changed or swapped with the next one to come from one word to another."""
    before, last = [], list(range(len(other) + 1))
    for at, letter in enumerate(one, 1):
        row = [at]
        for to, wanted in enumerate(other, 1):
            cost = min(last[to] + 1, row[to - 1] + 1, last[to - 1] + (letter != wanted))
            if at > 1 and to > 1 and letter == other[to - 2] and one[at - 2] == wanted:
                cost = min(cost, before[to - 2] + 1)
            row.append(cost)
        before, last = last, row
    return last[-1]


def near(word, words):
    """The one of some words that is most like a word, or none where none is like it."""
    if not word or len(word) > 64:
        return None
    word = word.lower()
    ranked = sorted((distance(word, other.lower()), at, other) for at, other in enumerate(words) if other)
    like = [other for far, _, other in ranked if far <= max(1, len(min(word, other, key=len)) // 3) and far < max(len(word), len(other))]
    begun = [other for _, _, other in ranked if len(other) > 1 and (word.startswith(other.lower()) or other.lower().startswith(word) and len(word) > 1)]
    return (like or begun or [None])[0]


def shown(text, most=100):
    """A text as it is shown: what is not to be seen is written out, and a long one is cut."""
    text = "".join(letter if letter == " " or letter.isprintable() and not letter.isspace() else escaped(letter) for letter in text)
    return text if len(text) <= most else text[:most - 2] + ".."


def escaped(letter):
    return {"\t": "<tab>", "\n": "<newline>", "\r": "<return>"}.get(letter, f"<U+{ord(letter):04X}>")


def quoted(text):
    return f"`{shown(text, 60)}`"


def listed(words, joint="and"):
    """Some words in a row, or the word `none`."""
    words = [quoted(word) for word in words]
    if len(words) > 12:
        words = words[:12] + [f"{len(words) - 12} more"]
    return ", ".join(words[:-1]) + f" {joint} " + words[-1] if len(words) > 1 else words[0] if words else "none"


def hint(word, words):
    """What to say of a word that should be one of some words: the near one, and which there are."""
    like = near(word, words)
    said = f" Did you mean {quoted(like)}?" if like else ""
    if words == [like]:
        return said
    return said + (f" There is {listed(words)}." if len(words) == 1 else f" There are {listed(words)}." if words else " There is none.")


def sentence(text):
    """A text as a sentence: with a capital in front, and one point behind it."""
    return text[:1].upper() + text[1:].rstrip(".") + "."
