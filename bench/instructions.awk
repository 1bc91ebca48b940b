# Instructions from callgrind's parts: awk -f instructions.awk LIST PART...
#
# LIST is what counts.c printed, a line 'WHAT NAME LIVE LIMIT SIDE CALLS' for each part; the parts are written by callgrind with
# --compress-strings=no --compress-pos=no. A function's own costs are the lines of numbers after its 'fn='; the line after a 'calls=' is
# what the called function cost, which stands there again.

FNR == 1 { file++ }

file == 1 {
    what[FNR] = $1
    name[FNR] = $2
    size[FNR] = $3 " of " $4
    live[FNR] = $3
    limit[FNR] = $4
    side[FNR] = $5
    calls[FNR] = $6
    parts = FNR
    next
}

/^fn=/ {
    set = /memset/
    move = /mem(move|cpy)/
    next
}
/^calls=/ { called = 1; next }
/^[0-9]/ {
    if (!called) {
        all[file - 1] += $2
        if (set) { sets[file - 1] += $2; apart = 1 }
        if (move) { moves[file - 1] += $2; apart = 1 }
    }
    called = 0
}

# The sum of one side's parts of this name and size, or of all kinds of a table's requests, for a call.
function mean(costs, w, n, z, s,    i, total, count) {
    for (i = 1; i <= parts; i++)
        if (what[i] == w && size[i] == z && side[i] == s && (name[i] == n || index(name[i], n "/") == 1)) {
            total += costs[i]
            count += calls[i]
        }
    return count ? total / count : 0
}

function rest(w, n, z, s) { return mean(all, w, n, z, s) - mean(sets, w, n, z, s) - mean(moves, w, n, z, s) }

function heading(text) {
    printf "== %s\n%-28s %-10s %-35s %-35s %s\n", text, "", "live", "archive", "ordinary", "ratio"
    printf "%-28s %-10s %8s %8s %8s %8s %8s %8s %8s %8s  %5s  %5s\n", "", "", "all", "memset", "memmove", "rest", "all", "memset",
        "memmove", "rest", "all", "rest"
}

function row(w, n, z,    s, k, a, r) {
    printf "%-28s %-10s", n, z
    for (k = 1; k <= 2; k++) {
        s = k == 1 ? "archive" : "ordinary"
        a[k] = mean(all, w, n, z, s)
        r[k] = rest(w, n, z, s)
        printf " %8.0f %8.0f %8.0f %8.0f", a[k], mean(sets, w, n, z, s), mean(moves, w, n, z, s), r[k]
    }
    printf "  %5.2f  %5.2f\n", a[1] / a[2], r[1] / r[2]
}

# From one measured size to a larger one of the same table: how many instructions each of the steps between takes.
function growth_row(w, from, to, steps,    k, s) {
    printf "%-28s %-10s %-10s", w " " name[from], size[from], size[to]
    for (k = 1; k <= 2; k++) {
        s = k == 1 ? "archive" : "ordinary"
        printf " %12.1f", (rest(w, name[to], size[to], s) - rest(w, name[from], size[from], s)) / steps
    }
    printf "\n"
}

# The part of the same table that is next after this one: with more live sessions, or else with the same ones in more room.
function next_part(i, roomier,    k) {
    for (k = 1; k <= parts; k++)
        if (what[k] == "check" && side[k] == side[i] && name[k] == name[i])
            if (roomier ? live[k] == live[i] && limit[k] > limit[i] : limit[k] == limit[i] && live[k] > live[i])
                return k
    return 0
}

# The rows of a check's and of a request's growth with live sessions, or with empty slots.
function growth(text, roomier,    i, k, w) {
    printf "== instructions for each further %s, without memset and memmove\n", text
    printf "%-28s %-10s %-10s %12s %12s\n", "", "from", "to", "archive", "ordinary"
    for (w = 1; w <= 2; w++)
        for (i = 1; i <= parts; i++)
            if (what[i] == "check" && side[i] == "archive" && (k = next_part(i, roomier)))
                growth_row(w == 1 ? "check" : "request", i, k, roomier ? limit[k] - limit[i] : live[k] - live[i])
}

function search_row(taken, z,    k, s) {
    printf "%-28s", taken " taken"
    for (k = 1; k <= 2; k++) {
        s = k == 1 ? "archive" : "ordinary"
        printf " %8.0f %8.0f %8.0f", mean(all, "search", taken "/taken-below", z, s), mean(all, "search", taken "/first-free", z, s),
            mean(all, "search", taken "/taken-below", z, s) - mean(all, "search", taken "/first-free", z, s)
    }
    printf "\n"
}

function longest_row(n, z,    k, s, a) {
    printf "%-28s", n
    for (k = 1; k <= 2; k++) {
        s = k == 1 ? "archive" : "ordinary"
        a = mean(all, "longest", n, z, s)
        printf " %8.0f %8.2f", a, a / mean(all, "longest", "one-check", z, s)
    }
    printf "\n"
}

# Requests through a store: each side's instructions, and as a multiple of those without a store.
function store_row(n, z,    k, s, a, r, base) {
    base = n ~ /^slow/ ? "slow-without" : "without"
    printf "%-28s", n
    for (k = 1; k <= 2; k++) {
        s = k == 1 ? "archive" : "ordinary"
        a = mean(all, "store", n, z, s)
        r = rest("store", n, z, s)
        printf " %8.0f %8.0f %6.3f %6.3f", a, r, a / mean(all, "store", base, z, s), r / rest("store", base, z, s)
    }
    printf "\n"
}

# Ends the program where a part is missing or empty.
function look_at_parts(    i) {
    if (file - 1 != parts || parts == 0) {
        printf "callgrind wrote %d parts and not %d\n", file - 1, parts > "/dev/stderr"
        exit 1
    }
    for (i = 1; i <= parts; i++)
        if (!all[i]) {
            printf "callgrind counted nothing for %s %s %s\n", what[i], name[i], size[i] > "/dev/stderr"
            exit 1
        }
}

END {
    look_at_parts()
    if (!apart)
        print "memset and memmove are not told apart: the C library has no symbols here (Debian: libc6-dbg)"
    heading("instructions for a request: the mean of the four kinds, then each")
    for (i = 1; i <= parts; i++)
        if (side[i] == "archive" && what[i] == "check")
            row("request", name[i], size[i])
    for (i = 1; i <= parts; i++)
        if (side[i] == "archive" && what[i] == "request" && index(name[i], "/"))
            row("request", name[i], size[i])
    heading("instructions for the check alone")
    for (i = 1; i <= parts; i++)
        if (side[i] == "archive" && what[i] == "check")
            row("check", name[i], size[i])
    growth("live session", 0)
    growth("empty slot", 1)
    print "== instructions to find the lowest free TEID: a CHOOSE where it stands after, and before, the taken ones; the difference"
    printf "%-28s %-26s %-26s\n%-28s", "", "archive", "ordinary", ""
    printf " %8s %8s %8s %8s %8s %8s\n", "after", "before", "search", "after", "before", "search"
    for (i = 1; i <= parts; i++)
        if (side[i] == "archive" && what[i] == "search" && name[i] ~ /taken-below/)
            search_row(substr(name[i], 1, index(name[i], "/") - 1), size[i])
    print "== instructions for requests of the greatest length, and as a multiple of one check of their table"
    printf "%-28s %17s %17s\n", "", "archive", "ordinary"
    for (i = 1; i <= parts; i++)
        if (side[i] == "archive" && what[i] == "longest")
            longest_row(name[i], size[i])
    print "== instructions for requests through a full store of repeated ones, and as a multiple of those without one"
    printf "%-28s %-31s %-31s\n%-28s", "", "archive", "ordinary", ""
    printf " %8s %8s %6s %6s %8s %8s %6s %6s\n", "all", "rest", "all", "rest", "all", "rest", "all", "rest"
    for (i = 1; i <= parts; i++)
        if (side[i] == "archive" && what[i] == "store")
            store_row(name[i], size[i])
}
