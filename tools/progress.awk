# Says how far the proofs of a crate and of all that it uses are, from what rt all check says: a
# line for each crate that is proved.
#
# usage: rt all check | awk -v crate=NAME -f tools/progress.awk crates.txt -

# crates.txt: a crate and what it uses on each line, the lowest first
FILENAME == "crates.txt" {
    if ($0 !~ /^#/ && split($0, parts, ":") == 2) {
        split(parts[1], words, " ")
        names[++lines] = words[1]
        uses[lines] = parts[2]
    }
    next
}

!counted {
    counted = 1
    used[crate] = 1
    for (line = lines; line > 0; line--) {
        if (names[line] in used) {
            total++
            count = split(uses[line], parts, " ")
            for (i = 1; i <= count; i++) used[parts[i]] = 1
        }
    }
}

/^== / { name = $2 }

/^logic=proved / {
    print "  " ++proved " of " total "  " name
    fflush()
}
