"""Why a line of a body is no statement, why its blocks or its variables are wrong, and why a choice is none."""
import re

from explaining import rules
from explaining.near import hint, listed, near, quoted, sentence, shown

SLOTS = {"S": "a store", "SV": "a service", "H": "a handler", "K": "a key", "C": "a key", "P": "the front of keys", "V": "a value", "X": "a variable",
         "N": "a number"}
PLAIN_NAME = "A plain name has 1 to 24 ASCII letters, digits, `_` and `-`."
# What people write who come from elsewhere.
ELSEWHERE = {
    "get": "read", "fetch": "read", "load": "read", "put": "write", "set": "write", "store": "write", "insert": "write", "publish": "write", "push": "write",
    "wait": "barrier", "return": "reply", "respond": "reply", "loop": "repeat", "for": "repeat", "invoke": "call", "query": "scan", "exit": "nack",
    "abort": "nack", "receive": "poll", "endif": "end", "done": "end",
}


def why_not_plain(name):
    """Why a text is no plain name."""
    if not name:
        return "it is empty"
    odd = re.search(r"[^A-Za-z0-9_-]", name)
    if odd:
        return f"{quoted(odd.group()) if odd.group() != ' ' else 'a space'} may not stand in it"
    return f"it has {len(name)} letters, and at most 24 are allowed"


# ---- words of a statement

def why_no_variable(word):
    if word.startswith("$") and rules.is_variable(word[1:]):
        return f"here the variable stands without `$`: {quoted(word[1:])}"
    if word == "in":
        return "`in` is the value that the handler was started with, so no other variable has this name"
    return f"{quoted(word)} is no name of a variable: {why_not_plain(word)}. {PLAIN_NAME}"


def why_no_key(word):
    if word.startswith("$"):
        return f"{quoted(word)} is no key: behind `$` stands `in`, or the name of a variable and nothing else"
    return f"{quoted(word)} is no key: {why_not_plain(word)}. A key is a plain name, `$in` or `$X`. {PLAIN_NAME}"


def why_no_value(word):
    if word.startswith("$"):
        return f"{quoted(word)} is no value: behind `$` stands `in`, or the name of a variable and nothing else"
    if rules.size(word) > rules.LONGEST_VALUE:
        return f"this value has {rules.size(word)} bytes, and at most {rules.LONGEST_VALUE} are allowed"
    return f"{quoted(word)} is no value: a character in it is no text"


def why_no_number(word, most):
    """Why a word is no number from 1 to the most."""
    if re.fullmatch(r"[+-][0-9]+", word):
        return f"{quoted(word)} has a sign, and a number here has none: it is 1 to {most}"
    if re.fullmatch(r"0[0-9]+", word):
        return f"{quoted(word)} has a zero in front: write {quoted(word.lstrip('0') or '1')}"
    return f"{quoted(word)} should be a number from 1 to {most}, in decimal"


def why_not(slot, word):
    """Why a word may not stand at a slot of a form."""
    if slot == "X":
        return why_no_variable(word)
    if slot in ("K", "C"):
        return why_no_key(word)
    if slot == "V":
        return why_no_value(word)
    if slot == "N":
        return why_no_number(word, rules.MOST_TURNS)
    if slot not in SLOTS:
        return f"where {quoted(word)} stands, `{slot}` has to stand"
    if word.startswith("$"):
        return f"{SLOTS[slot]} is named as it is, and comes from no variable: {quoted(word)} is no name"
    return f"{quoted(word)} is no name of {SLOTS[slot]}: {why_not_plain(word)}. {PLAIN_NAME}"


def wrong_words(form, words):
    """Why words do not fit a form that has as many."""
    pairs = list(zip(form[1:], words[1:]))
    return [sentence(why_not(slot, word)) for slot, word in pairs if not (rules.TESTS[slot](word) if slot in rules.TESTS else slot == word)]


# ---- statements

def forms_of(first):
    return [form for form in rules.FORMS if form[0] == first]


def form_in_words(first):
    """The forms of a statement, and what their letters stand for."""
    forms = forms_of(first)
    slots = dict.fromkeys(slot for form in forms for slot in form[1:] if slot in SLOTS)
    spelled = ", ".join("`" + " ".join("K" if slot == "C" else slot for slot in form) + "`" for form in forms)
    letters = ", ".join(f"{'K' if slot == 'C' else slot} is {SLOTS[slot]}" for slot in slots)
    return f"The form{' is' if len(forms) == 1 else 's are'} {spelled}" + (f", where {letters}." if letters else ".")


def odd_space(text):
    """The first character of a text that looks like a space, and is none."""
    return next((letter for letter in text if letter != " " and (letter.isspace() or letter in "\u200b\ufeff")), None)


def without_comment(text):
    """A line without what looks like a comment at its end."""
    return re.split(r"\s(?:#|//)", text, maxsplit=1)[0]


def meant(text):
    """The statement that was meant by a line that is none, where that is plain to see; or none."""
    words = rules.words_of(re.sub(r"\s", " ", without_comment(text)))
    if not words:
        return None
    joined, nearly = [words[0] + "".join(words[1:2])] + words[2:], [near(words[0], rules.STATEMENTS) or words[0]] + words[1:]
    tries = [words, joined, nearly, with_as(words), with_one_value(words), without_dollar(words)]
    return next((" ".join(each) for each in tries if rules.line_of(" ".join(each))), None)


def with_as(words):
    """Words with an `as` before the last."""
    return words[:-1] + ["as", words[-1]] if words[0] in ("read", "scan", "poll", "call") and "as" not in words[1:] else words


def with_one_value(words):
    """Words of which those that stand where a value should are joined."""
    first = {"write": 3, "call": 3, "send": 3, "reply": 1}.get(words[0], len(words))
    end = len(words) - 1 - words[::-1].index("as") if "as" in words[1:] else len(words)
    return words[:first] + [one_value(words[first:end])] + words[end:] if end > first + 1 and words[-1:] != ["untracked"] else words


def without_dollar(words):
    """Words in which variables stand without `$` where they have to."""
    bare = words[0] in ("append", "remove", "transfer", "if")
    return [word[1:] if word.startswith("$") and (before == "as" or bare) else word for before, word in zip([None] + words, words)]


def one_value(words):
    return "-".join(re.sub(r"[\"'$]", "", word) for word in words)


def why_no_statement(text):
    """The sentences that say why a line is no statement."""
    words = rules.words_of(text)
    if not words:
        return ["An empty line is no statement: take it out."]
    odd = odd_space(text)
    if odd:
        what = "a tab" if odd == "\t" else "a character that is no space, " + shown(odd)
        return [f"In it stands {what}: {quoted(text)}. Only spaces stand between words."]
    plain = without_comment(text)
    if plain != text and rules.line_of(plain) or re.search(r"(^|\s)(#\s|//)", text):
        comment = "" if re.match(r"\s*(#|//)", text) else plain
        said = f"{quoted(text[len(comment):].strip())} is no comment inside a text. Put it behind the closing quotation mark, or take it out."
        return [said] + (why_no_statement(comment) if comment and not rules.line_of(comment) else [])
    return why_no_form(words) if words[0] in rules.STATEMENTS else why_no_first(words)


def why_no_first(words):
    """Why no statement begins with the first of some words."""
    first = words[0]
    if len(words) > 1 and first + words[1] in rules.STATEMENTS:
        return [f"{quoted(first + words[1])} is one word."]
    if first in ("else", "elif"):
        return ["There is no `else`: `if X absent` has a block, which ends with `end`, and no other one."]
    if "=" in words or first.endswith("="):
        return ["Nothing is set by `=`: a statement that has an answer names its variable at the end, by `as X`."]
    like = ELSEWHERE.get(first.lower()) or near(first, rules.STATEMENTS)
    if not like:
        return [f"No statement begins with {quoted(first)}. The statements are {listed_all(rules.STATEMENTS)}."]
    mended = " ".join([like] + words[1:])
    said = f"Write {quoted(mended)}." if rules.line_of(mended) else form_in_words(like)
    return [f"No statement begins with {quoted(first)}. Did you mean `{like}`? {said}"]


def listed_all(words):
    return ", ".join(f"`{word}`" for word in words)


def why_no_form(words):
    """Why words do not have the form that the first of them asks for."""
    first, forms = words[0], forms_of(words[0])
    if forms == [[first]]:
        return [f"`{first}` stands alone in its line, and behind it stands {quoted(' '.join(words[1:]))}."]
    if first == "if":
        return why_no_if(words)
    if len(forms) > 1 or "as" in forms[0]:
        return why_no_asking(first, words) + [form_in_words(first)]
    if "as" in words[1:]:
        call = " The answer of a service comes back from `call`." if first == "send" else ""
        return [f"Nothing comes back from `{first}`, so there is no `as X`.{call}", form_in_words(first)]
    slots = forms[0][1:]
    return why_no_head(slots, words[1:]) + [form_in_words(first)]


def why_no_if(words):
    if len(words) == 3 and rules.is_variable(words[1].lstrip("$")) and words[2] == "absent":
        return [sentence(why_no_variable(words[1]))]
    said = "Only one thing can be asked: whether a read showed no row."
    variable = next((word.lstrip("$") for word in words[1:] if word not in ("not", "no", "absent") and rules.is_variable(word.lstrip("$"))), "x")
    return [said + f" Write {quoted(f'if {variable} absent')}.", form_in_words("if")]


def why_no_asking(first, words):
    """Why a statement that may have an `as X` has none of its forms."""
    slots = forms_of(first)[0]
    slots = slots[1:slots.index("as")] if "as" in slots else slots[1:]
    if "as" in words[1:]:
        at = len(words) - 1 - words[::-1].index("as")
        return why_no_head(slots, words[1:at]) + why_no_tail(first, words[at + 1:])
    if first == "write":
        if words[-1] == "untracked" and len(words) == 5:
            return ["Before `untracked` stands `as X`: an untracked write has a variable."] + why_no_head(slots, words[1:-1])
        return why_no_head(slots, words[1:])
    return why_no_as(first, slots, words)


def why_no_as(first, slots, words):
    """Why a statement has no `as`, though it must."""
    rest = words[1:]
    if len(rest) == len(slots):
        said = f"`as X` is missing at the end, with the variable for what comes back: {quoted(' '.join(words + ['as', 'x']))}."
    elif len(rest) == len(slots) + 1 and rules.is_variable(rest[-1]):
        said = f"Before {quoted(rest[-1])} the word `as` is missing: {quoted(' '.join(words[:-1] + ['as', rest[-1]]))}."
        rest = rest[:-1]
    elif len(rest) == len(slots) + 2 and rules.is_variable(rest[-1]):
        return [f"Where {quoted(rest[-2])} stands, `as` has to stand."] + why_no_head(slots, rest[:-2])
    else:
        return ["`as X` is missing at the end, with the variable for what comes back."] + why_no_head(slots, rest)
    return [said] + why_no_head(slots, rest)


def why_no_tail(first, tail):
    """Why words may not stand behind `as`."""
    if not tail:
        return ["Behind `as` the variable is missing."]
    said = [] if rules.is_variable(tail[0]) else [sentence(why_no_variable(tail[0]))]
    if len(tail) > 1 and (first != "write" or tail[1:] != ["untracked"]):
        wanted = "only `untracked` may stand" if first == "write" else "nothing may stand"
        said.append(f"Behind `as` and its variable {wanted}, and there stands {quoted(' '.join(tail[1:]))}.")
    return said


def why_no_head(slots, words):
    """Why words do not fit slots that have to be filled one by one; nothing where they do."""
    if len(words) < len(slots):
        missing = [SLOTS[slot] for slot in slots[len(words):]]
        said = f"{'Words are' if len(missing) > 1 else 'A word is'} missing: {', '.join(missing)}."
        return [said] + wrong_words([None] + slots[:len(words)], [None] + words)
    fitting = wrong_words([None] + slots, [None] + words[:len(slots)])
    if len(words) == len(slots):
        return fitting
    if slots[-1] != "V":
        return [f"There are too many words: {quoted(' '.join(words[len(slots):]))}."] + fitting
    return [several_words(words[len(slots) - 1:])] + wrong_words([None] + slots[:-1], [None] + words[:len(slots) - 1])


def several_words(words):
    """That a value is one word, and how it may be written."""
    plain = one_value(words)
    example = f", as {quoted(plain)}" if rules.is_value(plain) else ""
    marks = " Quotation marks join no words." if any(mark in word for mark in "\"'" for word in words) else ""
    return f"A value is one word, and {quoted(' '.join(words))} are {len(words)}: write it without spaces{example}.{marks}"


# ---- blocks and variables

def why_wrong_block(lines, what):
    """The sentence that says why the block of a line is wrong."""
    number, why = what
    line = lines[number - 1]
    if why == "open":
        return f"No `end` closes this `{line.first}`: below the last line of its block a line `end` is missing."
    if why == "end":
        return "This `end` closes nothing: no `repeat` and no `if` is open here."
    if why == "deep":
        return f"This opens a fifth block inside four others, and at most {rules.MOST_BLOCKS} stand in each other."
    if why == "often":
        return f"Its lines would run more than {rules.MOST_RUNS} times: the numbers of the `repeat`s round a line are multiplied."
    if why == "inside":
        return f"`{line.first}` stands in a block, and it may stand in none."
    return f"Behind `stop` stands `{lines[number].first}`. A `stop` is the last line, or `root` stands behind it."


HOLDS = {"write": "a write", "rows": "what was read", "reply": "a reply"}
TAKES = {
    "write": "`append` and `remove` take a write, the X of `write .. as X`.",
    "rows": "`transfer` and `if` take what was read, the X of a `read`, a `scan` or a `poll`.",
}


def why_wrong_variable(lines, fault):
    """The sentence that says why a line is wrong about a variable."""
    number, name, wanted, held = fault
    setters = [at for at, line in enumerate(lines, 1) if line.sets() and line.sets()[0] == name]
    if wanted == "nothing":
        return f"Line {setters[0]} sets {quoted(name)} already, and only one line sets a variable: take another name here."
    if held:
        more = " The lineage of a reply joins by itself." if held == "reply" else ""
        return f"{quoted(name)} holds {HOLDS[held]} (line {setters[0]}). {TAKES[wanted]}{more}"
    above = [at for at in setters if at < number]
    if not above:
        return nothing_above(lines, number, name, setters)
    spans = [at for at in range(above[-1], number) if lines[at - 1].first in ("root", "stop")]
    if spans:
        return f"Line {above[-1]} sets {quoted(name)}, but `{lines[spans[-1] - 1].first}` in line {spans[-1]} gives all variables up: set it below that."
    return f"Line {above[-1]} sets {quoted(name)} in a block that has ended by here: what a block sets is known in that block alone."


def nothing_above(lines, number, name, setters):
    """The sentence for a variable that no line above sets."""
    if setters and setters[0] == number:
        return f"{quoted(name)} is set by this line itself, so it holds nothing yet."
    if setters:
        return f"{quoted(name)} is set by line {setters[0]}, below this one: it holds nothing yet."
    known = list(dict.fromkeys(line.sets()[0] for line in lines[:number - 1] if line.sets()))
    others = f"{hint(name, known)}" if known else " No line above sets any."
    return f"No line sets {quoted(name)}.{others}"


# ---- choices

CHOICES = {
    "take": "take SERVICE N", "repost": "repost SERVICE N", "pull": "pull SUB", "repull": "repull SUB VERSION",
    "ship": "ship STORE REGION VERSION", "again": "again STORE REGION VERSION", "go": "go OBJECT.PLACE", "finish": "finish",
}


def why_no_choice(document, text):
    """The sentences that say why a choice is none."""
    words = rules.words_of(text)
    if not words:
        return ["An empty text is no choice: take it out."]
    odd = odd_space(text)
    if odd:
        return [f"In it stands {'a tab' if odd == chr(9) else shown(odd)}: {quoted(text)}. Only spaces stand between words."]
    if words[0] not in CHOICES:
        like = near(words[0], CHOICES) or {"deliver": "ship", "call": "take", "start": "take", "step": "go"}.get(words[0])
        also = f" Did you mean `{like}`, as in `{CHOICES[like]}`?" if like else ""
        return [f"No choice begins with {quoted(words[0])}.{also} Choices begin with {listed(CHOICES, 'or')}."]
    return why_no_choice_form(document, words)


def why_no_choice_form(document, words):
    slots = CHOICES[words[0]].split()[1:]
    most = len(slots) + (words[0] in ("ship", "again"))
    form = f"`{CHOICES[words[0]]}`" + (f", or the same with a part behind it, `{CHOICES[words[0]]} PART`" if most > len(slots) else "")
    if not len(slots) <= len(words) - 1 <= most:
        return [f"The form is {form}; this has {len(words) - 1} word{'s' if len(words) != 2 else ''} behind `{words[0]}`."] + go_example(document, words)
    said = [why_no_slot(document, slot, word) for slot, word in zip(slots + ["PART"], words[1:])]
    return [sentence for sentence in said if sentence]


def go_example(document, words):
    return ["A process is named by the entry that began it, which the record shows."] if words[0] == "go" else []


def why_no_slot(document, slot, word):
    """Why a word of a choice names nothing, or is no number; none where it is right."""
    if slot in ("N", "VERSION", "PART"):
        return None if rules.is_number(word, rules.MOST_COUNTED) else sentence(why_no_number(word, rules.MOST_COUNTED))
    if slot == "OBJECT.PLACE":
        return why_no_mark(document, word)
    names = {"SERVICE": [other.name for other in document.services], "SUB": [other.name for other in document.subs],
             "STORE": [other.name for other in document.stores], "REGION": document.regions}
    if word in names[slot]:
        return None
    other = next((kind for kind in names if word in names[kind]), None)
    is_other = f", it is a {other.lower()}" if other else ""
    return f"{quoted(word)} is no {slot.lower()}{is_other}.{hint(word, names[slot])}"


def why_no_mark(document, mark):
    if rules.object_and_place(document, mark):
        return None
    name, dot, place = mark.partition(".")
    objects = [other.name for other in document.stores + document.services]
    if name not in objects:
        return f"{quoted(name)} is no store and no service.{hint(name, objects)}"
    if not dot:
        return f"`go` names a process by the entry that began it, as {quoted(name + '.1')}: the record shows which one."
    return sentence(why_no_number(place, rules.MOST_COUNTED))
