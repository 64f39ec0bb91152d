"""Wrong definitions: which of them does a law, a theorem or a computed example notice?

A mutant is a definition of crates/*/specs with one change. It is checked in a
theory, a copy of the repository without functions, so that what fails is a law,
a theorem or an example, and never the proof that code does what is defined.

    tables        what can't be read from the tree: examples, statements, names to bring in
    tree          crates, and the types and signatures that are declared in them
    definitions   the definitions of a file of specs/, and the variables of their clauses
    changes       the changes of a clause, by kind
    mutants       mutants: their text, how they are printed and made
    theory        the copies without functions, and their digest
    checking      what the prover says of a theory, and the verdict
    results       results.jsonl of the theories' folder
    runner        mutants dealt out to several theories
    edits         edits by hand
    equivalent    docs/EQUIVALENT.md
    report        counts, and what is not noticed
"""
