"""What terminfo source means, told again from the definitions alone, with nothing of the program.

It is slow and plain on purpose: every question is answered from the whole list of blocks, anew.

    caps      the names of the capabilities
    source    cutting a source into blocks, reading a block, the values of strings
    entry     the bytes of a compiled entry, written and read
    base      owners, expansion, faults, entries, the report, edits and their dependents
    session   the replies of a session; files, report and status of a compilation
    listing   listings, comparisons and relative source
    server    what the language server answers, and the diagnostics of a text
"""
