"""How docs/HEADLINE.md reads: what stands in front, the words of the library, and the sections in their order."""

INTRODUCTION = """# The headline

`.ci/docs/headline` writes this page from the sources. The gate fails where it isn't current, where the headline stands on more than 110 definitions, or where one of the specifications' stands outside the folders `specs/Headline` (but for `Rose`, which crates below share).

## What is claimed

For the literal words `compile`, `--`, FILE alone, whatever FILE is called: where the call ends with status 0, FILE was read to its end in this call, the bytes that were read spell a filter list, and what was written in this call is the text of a table such that

- for every header, the first entry that matches decides what the first rule that matches decides, or nothing where no rule matches;
- no entry can be left out: without it some header is decided otherwise;
- the table has at most as many entries as the field-by-field least cost of the list, and states that cost as `composed`;
- each word has 104 trits, each slot 144.

The theorem is the clause `headline` of the function `razor` (`crates/razor_core/src/top.rt`). Files are read from `desk`, `out` is the output, `.old` and `.new` are before and after the call, `.now` is the value behind a shared reference, and `result` is the status. `D.reads` is the list of the reads that were made of a desk, and `K.written` that of the writes to an output, as the first section says:

```
ensures headline {clause}
```

It holds of every desk and every output. `main` calls `run_over` (`crates/razor_cli/src/program.rt`), which has the same clause of the system's files and streams; there each of these lists is what a recorder noted, and that notes bytes, or an end, only in a read or a write of the system that it makes itself ([THEOREMS.md](THEOREMS.md)). Beside `headline` stand `arranged` and `shortened`, for `arrange -- FILE` and `shorten -- FILE`, `reads` and `writes`, which say what is read and written in which order, and `promise`, for every command, status and spelling; their definitions aren't here.

**Assumed:** the toolchain (prover, compiler, C library); that the few lines of `main` hand on the words, the files, the two streams and the status; and what the system's reads and writes do. **Proved:** the clause. **Tested:** the program over real files.

## What has to be read

{count} definitions, {types} of them types and constants of the code; {lines} lines, each before its use, in files of `crates/`. The language is that of the specifications, antt:

- A definition has its type and then its clauses; the first clause that fits holds. The words `abbrev`, `unfoldable` and `pub` are left out here.
- A byte is a number, and a text is a list of them. `[]` is the empty list, and `x ∷ xs` is x in front of xs. `(a, b)` is a pair, with the parts `.0` and `.1`. `λ x. e` is a function. A header is the list of its five values.
- `(x : A) → P` says that P holds for every x, `(x : A) × P` that there is an x for which P holds, `P × Q` that both hold, `a ≡ b` that both are the same and `a ≢ b` that they aren't; `⊥` never holds, and `Unit` always does.
- A `record` is its fields together: data, and what holds of them. It is met where there are such fields. `Type 0` is the type of types and of statements; `{{A : Type 0}}` says that A may be any of them, and is left out in use.
- A block of `do` takes the steps in order; `x ← e` calls x what the step e gives, and the first that gives nothing, or a reason, is what it comes to.

The library's words:

{library}"""

# Words of the library, and what they say.
LIBRARY = [
    ("ℕ zero suc ◌+◌ ◌-◌ ◌*◌ ◌/◌ ◌%◌ ◌^◌ min max", "whole numbers from 0, and their arithmetic; `-` stops at 0, `/` rounds down, `%` is the remainder"),
    ("◌≡◌ ◌≢◌ ◌<◌ ◌≤◌ ◌⊎◌", "equal, not equal, less, at most, one or the other: statements"),
    ("Bool true false not ◌&&◌ ◌||◌ ◌==◌ nat_eq nat_lt nat_le beq bytes_eq if◌then◌else◌", "truth values, and tests that give one: of numbers, of truth values, of texts"),
    ("List [] ◌∷◌ ◌++◌ length map filter fold flat_map take drop", "lists: joined, their length, each item mapped, those that pass a test, summed up from the left, mapped and joined, the first n, all but the first n"),
    ("slice_get slice_index remove", "the item at a place counted from 0: if there is one, or else 0; the list without the item at a place"),
    ("find position list_any list_all All", "the first item that passes a test, and its place; whether one passes, whether all pass; that something holds of all"),
    ("sum_by", "the sum of what a function gives for the items"),
    ("onto_first ends_with", "a byte in front of the first text of a list, which is a new text where there is none; whether a text ends with another"),
    ("Option Some None is_some unwrap_or option_map option_map_or option_and_then", "a value or none: whether there is one, it or else another, a function of it, a function of it or else another, a step that may give none"),
    ("Result Ok Err ok_or", "a value or a reason; a value, or this reason where there is none"),
    ("IfOk OnOk OnErr", "that something holds of a value, where there is one; that something holds where there is one, and where there is a reason"),
    ("codes decimal", "the bytes of a literal text; the bytes of a number in decimal digits"),
    ("digit_value is_ascii is_ascii_alphanumeric", "what a digit or a letter is worth, from 0 to 35, and 36 for any other byte; a byte below 128; a letter or a digit of ASCII"),
]

# The sections: their titles, what they say, and the files of specs/ in the order in which they are read.
SECTIONS = [
    (
        "What is read and written",
        "A desk gives the bytes of named inputs, and an output takes bytes. Each tells the list of the calls that were made of it. A read or a write of a piece of bytes that isn't empty adds one item to that list, whatever it comes to.",
        [("razor_base", "Headline.Outcomes"), ("razor_base", "Headline.Readings"), ("razor_limits", "Counts"), ("razor_base", "desk"), ("razor_base", "sink")],
    ),
    (
        "Headers and rules",
        "A header has five fields: source address, destination address, source port, destination port and protocol. A rule has a set of values for each of them, and the first rule that matches a header decides it (the classifier model of the Razor papers, Meiners, Liu, Torng 2007 and 2010). A decision is a name: a text of bytes.",
        [("field_boxes", "Headline.Fields"), ("field_boxes", "Headline.Classifier")],
    ),
    (
        "Ternary words and tables",
        "A word is a list of trits, one for each bit of a header: 104 in every table that is written, which `promise` says and no definition here, since the text reads back as its table. The first entry whose word matches answers.",
        [("field_boxes", "Headline.Bits"), ("ternary_words", "Headline.Word"), ("ternary_words", "Headline.Table")],
    ),
    (
        "What a list's text spells",
        "The format is that of the ClassBench filter sets (Taylor and Turner), with a decision behind each rule. The bytes that occur by their numbers: 9 tab, 10 line feed, 13 carriage return, 32 space, 35 `#`, 44 `,`, 45 `-`, 46 `.`, 47 `/`, 48 `0`, 58 `:`, 64 `@`, 88 `X`, 95 `_`, 120 `x`.",
        [
            ("text_lines", "Headline.Steps"),
            ("text_lines", "Headline.Fallible"),
            ("text_lines", "Headline.Cuts"),
            ("text_lines", "Headline.Numbers"),
            ("text_lines", "Headline.Lines"),
            ("text_lines", "Headline.Reading"),
            ("razor_limits", "limits"),
            ("field_boxes", "Headline.Names"),
            ("filter_reader", "reason"),
            ("filter_reader", "Headline.Tokens"),
            ("filter_reader", "Headline.Addresses"),
            ("filter_reader", "Headline.Ports"),
            ("filter_reader", "Headline.Masks"),
            ("filter_reader", "Headline.Columns"),
            ("filter_reader", "Headline.RuleLine"),
            ("field_boxes", "Headline.FilterList"),
            ("filter_reader", "Headline.FilterList"),
        ],
    ),
    (
        "The text of a table",
        "A line that states the sizes, and a line an entry: for each field a value and a mask in hexadecimal, then the decision.",
        [("table_text", "Headline.Hexadecimal"), ("table_text", "Headline.TableText")],
    ),
    (
        "The field-by-field least cost",
        "The multi-field composition of the Razor papers: one field at a time, the cheapest list of prefixes. They take lists that decide every header. Here a list may leave headers undecided, and where it does, that costs an entry (`miss`) as a decision does: a list without rules costs 1. An entry that isn't needed is left out later.",
        [("field_boxes", "prefix"), ("field_boxes", "Headline.Prefix"), ("table_compose", "Headline.LeastCost")],
    ),
    (
        "The headline",
        "What was written, put together.",
        [("razor_core", "Headline.Tables")],
    ),
]
