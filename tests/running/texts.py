"""The texts of rows: what their files hold, and what is wanted of an output.

A text of a row is written as

| Form | Is |
|---|---|
| `"abc"` | the text itself |
| `["abc", { .. }]` | these texts, one after another |
| `{ text = "NAME" }` | a text of `[texts]` in the same file |
| `{ from = "PATH" }` | what a file of the repository holds |
| `{ hex = "FF 0A" }` | these bytes |
| `{ repeat = TEXT, times = N }` | the text so many times |
| `{ call = "compile list" }` | what the program writes on these words over the row's files, where it ends with status 0 |

With `front = N` beside it, each of the last five is cut behind its first N bytes.
"""
import pathlib
import shlex

ROOT = pathlib.Path(__file__).resolve().parents[2]

# The keys of each form that is a table, by the first of them.
KEYS = {"text": {"text"}, "from": {"from"}, "hex": {"hex"}, "repeat": {"repeat", "times"}, "call": {"call"}}


def words_of(call):
    """The words of a call: split as a shell does, or as they are listed."""
    words = shlex.split(call) if isinstance(call, str) else call
    if not isinstance(words, list) or not all(isinstance(word, str) for word in words):
        raise ValueError(f"no words: {call!r}")
    return words


def numbers_of(value):
    """The numbers that are meant by `5`, by `[1, 7]` or by `"1 to 59"`."""
    if isinstance(value, str):
        first, parting, last = value.partition(" to ")
        if not (parting and first.isdecimal() and last.isdecimal()):
            raise ValueError(f"no numbers: {value!r}")
        value = list(range(int(first), int(last) + 1))
    numbers = value if isinstance(value, list) else [value]
    if not numbers or not all(type(number) is int and number >= 0 for number in numbers):
        raise ValueError(f"no numbers: {value!r}")
    return numbers


def form_of(text):
    """The key that says of which form a text is that is written as a table."""
    forms = [key for key in KEYS if key in text]
    if len(forms) != 1 or set(text) - KEYS[forms[0]] - {"front"}:
        raise ValueError(f"no text: {text!r}")
    return forms[0]


def check(text, names, used):
    """Sees that a text has one of the forms, and puts the names of texts in it among those that are used."""
    if isinstance(text, str):
        return
    if isinstance(text, list):
        for part in text:
            check(part, names, used)
        return
    if not isinstance(text, dict):
        raise ValueError(f"no text: {text!r}")
    form = form_of(text)
    if form == "text":
        if text["text"] not in names:
            raise ValueError(f"no text has the name {text['text']!r}")
        used.add(text["text"])
    elif form == "from" and not (ROOT / text["from"]).is_file():
        raise ValueError(f"there is no file {text['from']}")
    elif form == "hex":
        bytes.fromhex(text["hex"])
    elif form == "repeat":
        check(text["repeat"], names, used)
        if type(text.get("times")) is not int or text["times"] < 1:
            raise ValueError(f"no number of times: {text!r}")
    elif form == "call":
        words_of(text["call"])
    numbers_of(text.get("front", 0))


def fronts_of(text):
    """At how many bytes a text is cut, each in turn; none where it is whole."""
    return numbers_of(text["front"]) if isinstance(text, dict) and "front" in text else []


def made(text, shared, output_of):
    """The bytes of a text, by the texts of the file and by what gives the output of a call."""
    if isinstance(text, str):
        return text.encode()
    if isinstance(text, list):
        return b"".join(made(part, shared, output_of) for part in text)
    whole = whole_of(text, shared, output_of)
    return whole[: text["front"]] if isinstance(text.get("front"), int) else whole


def whole_of(text, shared, output_of):
    form = form_of(text)
    if form == "text":
        return made(shared[text["text"]], shared, output_of)
    if form == "from":
        return (ROOT / text["from"]).read_bytes()
    if form == "hex":
        return bytes.fromhex(text["hex"])
    if form == "repeat":
        return made(text["repeat"], shared, output_of) * text["times"]
    return output_of(words_of(text["call"]))
