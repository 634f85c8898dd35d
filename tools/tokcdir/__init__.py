"""The modules of tools/tokc-dir, each about one thing:

    stop        how a run ends, and what is said on the way
    folder      which files of a folder tokc is given
    program     scripts, streams, and the program that stands between them
    events      the script of a watch, which says what changed of the files
    outputs     the folder of outputs: what is written there, and how it differs
    refusal     what a REFUSED file tells, and a sentence for each rule
    places      JSON texts with the place of each value
    tokens      where the token files write which token
    advice      what to do about a refusal
    message     refusals as lines for people, and as JSON for editors
    rows        what each platform got of each token, and why it omits one
    preview     the page that shows the outputs
    themes      the one style sheet of all permutations
    watching    builds at each change
    commands    the command line
"""
