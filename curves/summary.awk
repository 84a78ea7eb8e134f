# The table of files of points, one a codebook; `own` lists their names and own D. Writes limits.txt, a line a book: name, own D, the D that mends nine
# words in ten up to the greatest weight, the D that mends most words, the weight at which D is compared, n, and to what weight each of the three mends
# nine in ten.

function share(count, words) { return words ? count / words : 0 }

# 0 and 100 are none and all of the words; what lies between is never rounded to either.
function percent(x, r) {
    if (x == 0 || x == 1) return 100 * x
    r = int(100 * x + 0.5)
    return r < 1 ? 1 : r > 99 ? 99 : r
}

# To what weight a D mends at least such a share of the words, at all weights up to it.
function up_to(d, least, i) {
    for (i = 0; i < weights && mended[d, at[i]] >= least; i++);
    return i ? at[i - 1] : 0
}

# The shares of all weights, each for the weights since the one before it.
function total(d, i, sum) {
    for (i = 1; i < weights; i++) sum += mended[d, at[i]] * (at[i] - at[i - 1])
    return sum
}

# The least of the D that are best: where a share is given, by how far they mend it, and then by their totals.
function best(least, d, found) {
    found = 1
    for (d = 2; d <= n; d++)
        if (least && up_to(d, least) != up_to(found, least) ? up_to(d, least) > up_to(found, least) : total(d) > total(found) + 1e-9) found = d
    return found
}

# The weights of the table: twelve at most, evenly spread.
function line(title, of, d, i, last, text) {
    text = sprintf("  %-60s", title)
    last = ""
    for (i = 1; i <= 12; i++) {
        column = int((weights - 1) * i / 12 + 0.5)
        if (column == last || column == 0) continue
        last = column
        text = text sprintf(" %4d", of == "weight" ? at[column] : percent(of == "mended" ? mended[d, at[column]] : other[d, at[column]]))
    }
    print text
}

function rows(d, what) {
    line("D " d ", " what ": mended", "mended", d)
    line(sprintf("  all up to %d, nine in ten up to %d; other", up_to(d, 1), up_to(d, 0.9)), "other", d)
}

function report(own_d, longest, most, weight) {
    own_d = owned[name]
    longest = best(0.9)
    most = best(0)
    weight = up_to(longest, 0.9)
    if (weight == 0) weight = at[1]
    line(sprintf("%s: n %d, k %d, q %d, I %d; %d words; wrong symbols", name, n, k, q, rounds, words), "weight")
    rows(own_d, "its own" (own_d == longest ? ", longest" : "") (own_d == most ? ", most" : ""))
    if (longest != own_d) rows(longest, "longest" (longest == most ? ", most" : ""))
    if (most != own_d && most != longest) rows(most, "most")
    print ""
    print name, own_d, longest, most, weight, n, up_to(own_d, 0.9), up_to(longest, 0.9), up_to(most, 0.9) > "limits.txt"
}

BEGIN {
    fields = split(own, list, " ")
    for (i = 1; i < fields; i += 2) owned[list[i]] = list[i + 1]
    print "Of 100 words with so many wrong symbols, how many are mended, and how many turned into another code word (other)."
    print "0 and 100 are none and all of them. Measured by chance, and no promise. D is the book's own; the one that mends nine in ten up to the most"
    print "wrong symbols (longest); the one that mends most words over all weights (most).\n"
}
FNR == 1 {
    if (NR > 1) report()
    weights = 0
    delete mended
    delete other
    next
}
{
    name = $1; n = $2; k = $3; q = $4; rounds = $5; words = $8
    if (weights == 0 || at[weights - 1] != $7) at[weights++] = $7
    mended[$6, $7] = share($9, $8)
    other[$6, $7] = share($10, $8)
}
END { if (NR > 1) report() }
