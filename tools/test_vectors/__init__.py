"""The test vectors of the program vectors, for tools/vectors.py.

Its ciphers and rules share no code with the model, bulwarkle_model, so that each can be checked by the other: `scripts.py selftest` compares the two.

What the answers come from:
    ciphers             the independent implementation
    rules               policies, contexts and names, by document 01
    answers             a request, and what the program must answer
    errors              errnos, and how the script stops

What is asked:
    published           published values and worked cases, as literals
    material            byte strings made from labels
    groups_ciphers      ciphers and key schedules
    groups_policies     policies and contexts
    groups_names        names
    groups_unclean      stored names that are EUCLEAN, or may be
    groups_malformed    lines that are no request
    groups_kernel       what a Linux kernel wrote and answered

What is written:
    lines               the lines as they are gathered
    all_groups          all the groups in their order
    files               both files: read, compared and written
"""
