# Tables of callgrind's dumps, which come in the order in which instructions.c makes them: the instructions of
# each call, and in which of the library's functions they are, on a record that is half full.

function plain(name) {
    sub(/^__/, "", name)
    sub(/_(avx|sse|evex).*/, "", name)
    return name
}

function show_functions(kind,    name, best, rest, text) {
    rest = 100
    while (1) {
        best = ""
        for (name in own)
            if (split(name, key, SUBSEP) && key[1] == kind && (best == "" || own[name] > own[best]))
                best = name
        if (best == "" || own[best] < total[kind] / 20)
            break
        split(best, key, SUBSEP)
        text = text sprintf("%s %.0f %%, ", key[2], 100 * own[best] / total[kind])
        rest -= 100 * own[best] / total[kind]
        delete own[best]
    }
    printf "| %s | %sothers %.0f %% |\n", kind, text, rest
}

/^desc: Trigger: Client Request: / {
    sub(/^desc: Trigger: Client Request: /, "")
    split($0, trial, "|")
    looked_at = trial[2] == "half full" && trial[3] == "library"
}
/^fn=/ {
    in_function = plain(substr($0, 4))
}
/^[0-9+*-]/ && looked_at && !called {
    own[trial[1], in_function] += $2
}
{
    called = /^calls=/ # the line after it has what the callee took
}
/^totals: / && trial[1] != "" {
    if (!seen[trial[1]]++)
        kinds[++count] = trial[1]
    if (trial[3] == "library")
        ours = $2
    else {
        ratios[trial[1]] = ratios[trial[1]] sprintf(" %.2f |", ours / $2)
        counts[trial[1]] = counts[trial[1]] sprintf(" %d / %d |", ours, $2)
    }
    if (looked_at)
        total[trial[1]] = $2
    trial[1] = ""
}
END {
    print "| Call | ratio, fresh | ratio, half full | ratio, full | instructions, fresh | half full | full |"
    print "|---|---:|---:|---:|---:|---:|---:|"
    for (i = 1; i <= count; i++)
        print "| " kinds[i] " |" ratios[kinds[i]] counts[kinds[i]]
    print "\n| Call | where the library's instructions are |\n|---|---|"
    for (i = 1; i <= count; i++)
        show_functions(kinds[i])
    exit count == 0
}
