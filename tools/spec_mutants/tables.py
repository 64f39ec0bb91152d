"""What is not read from the tree, and why."""

# The highest crates whose laws are about definitions: beyond them stand the functions and the programs. Only these and what they are built on
# are in a theory, and a mutant that its own crate's laws do not notice goes on to these.
TOPS = ("volume", "names")

# The files of proofs/ whose theorems are closed statements: most are computed by antt (`refl`), and can't fail for their proofs' text, so a mutant that
# one of them refuses is wrong for sure. Unsound's refutations and fscrypt's Published, which carries those of ciphers, have proofs of a line or two.
EXAMPLES = {"Example", "Occasions", "Values", "KeyedExample", "MeaningsExample", "Starred", "Unsound", "Published"}

# Files of specs/ that state what is proved: what a test means, when a request is done and what it does, worked cases, what may differ between two runs. A weaker
# statement is still proved, so a change there tells nothing of the definitions.
# "Found" and "Shown" say what functions answer where a definition has a number or a test: they stand in contracts, which a theory has not.
STATEMENT_FILES = {"Cases", "Claims", "Does", "DoneWhen", "Found", "Meanings", "RoundTrips", "Shown", "TwoRuns", "UnderKeys"}

# Definitions elsewhere that are parts of statements alone, though they are values. Definitions that are types, and records, need not stand here:
# whatever has a type as its value is a statement or a part of one.
STATEMENTS = {"each_request"}

# What a change may write that the file has not brought in: the name in a `use` of the module below, by what is written.
PRELUDE = "Rattle.std.specs.Prelude"
LIBRARY = {
    "ltb": "ltb", "leb": "leb", "take": "take", "drop": "drop", "true": "true", "false": "false",
    "&&": "◌&&◌", "||": "◌||◌", "+": "◌+◌", "-": "◌-◌", "*": "◌*◌", "/": "◌/◌", "%": "◌%◌",
}

# Words and operators that are exchanged for their like, by kind of change.
EXCHANGES = {
    "comparison": (("ltb", "leb"), ("leb", "ltb")),
    "bool": (("true", "false"), ("false", "true")),
    "take-drop": (("take", "drop"), ("drop", "take")),
    "operator": (("&&", "||"), ("||", "&&"), ("+", "-"), ("-", "+"), ("*", "+"), ("/", "%"), ("%", "/")),
}

# What a table of checks that was passed comes to: a table's last line, where it is no further table.
PASSED = "fine"

# What the constructors of the library's types bind, by the types' names; of a parameter its place.
LIBRARY_TYPES = {"Option": {"Some": [0]}, "Result": {"Ok": [0], "Err": [1]}}

# Names for such types.
ALIASES = {"Checked": "Result ⊤ Errno"}

# Constructors of the library that bind nothing.
LIBRARY_CONSTRUCTORS = ("zero", "[]", "true", "false", "none", "None", "tt")

# Families of constructors or fields of one type that are larger than this: each is exchanged for the next one alone, not for all others.
MOST_ALIKE = 3
