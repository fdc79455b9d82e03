# awk -v crate=NAME -v called=FUNCTION -f said_of.awk LOG
# What the checker said of one function of a crate: its errors in the function's proof files, each with the lines below it on one line, the goals that it
# left open, and its line in the list of functions. A method is TYPE/NAME. Without a function: all that it said. Where the checker breaks a line depends on
# how long the names of folders are.
BEGIN {
    proof = "proofs/" called "/"
    gsub("/", "::", called)
    listed = "fn " crate "::" called ":"
}

function tell() { if (called == "" || said ~ /^((note: `[^`]*` of )?|help: write )(\.\/)?proofs\// && index(said, proof) || index(said, listed) == 1) print said }

/^[^ ]/ {
    tell()
    said = $0
    next
}

{
    sub(/^ +/, "")
    said = said " " $0
}

END { tell() }
