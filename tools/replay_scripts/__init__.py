"""Scripts of requests for the encrypted volume, and what is done with them.

Making scripts:
    written           hand-written cases with the answers they must get
    cases_*           those cases, by subject
    cases_kernel      a kernel's answers to link and rename, as cases
    corners           requests in which two checks fail at once
    random_scripts    random requests, steered by the model
    garbage           spoilt lines and noise
    spelling, dice    writing requests as lines; random choices
    stored            the stored set, all of the above in files

Using them:
    allowed, coverage, slips    what the stored set covers
    compare                     the program and the model on random scripts
    tworuns                     the program on scripts that differ in key bytes only
    kernel, selftest            checks of the model itself, and of cases_kernel's copies
    agreement                   the model and the other implementation, test_vectors
    must                        a check that `python3 -O` keeps
"""
