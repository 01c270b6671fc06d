# Turns the second program's lines into claims for the checker: each says that a definition computes to what the second program says.
# KIND says which lines these are: those of `second cases`, of `second readings` or of `second merges`.
BEGIN {
    FS = "\t"
    kind["0"] = "Empty"; kind["1"] = "Epsilon"; kind["|"] = "Union"; kind["&"] = "Intersection"
    kind["."] = "Concatenation"; kind["!"] = "Complement"; kind["*"] = "Star"
    source["1"] = "of_first"; source["2"] = "of_second"
    unfolded = "tree_of parse leaf_at leading gathered bit_of records scan_from unordered_from double_from is_event holds has_bit obeying accepts full_count found block obeys packed_run packed ones_of ones"
    if (KIND == "merges") unfolded = "merged"
}

function claim(text) {
    name = "claim_" KIND "_" ++claims
    print "\n" name " : " text "\nunfolding " unfolded
    print name " = refl"
}

# the items of a list, each with what stands before the next
function join_list(items, n,    i, out) {
    for (i = 1; i <= n; i++) out = out items[i] " ∷ "
    return out "[]"
}

function spans_list(field,    n, i, items) {
    if (field == "-") { n = 0 } else { n = split(field, items, ";") }
    for (i = 1; i <= n; i++) { sub(",", ", ", items[i]); items[i] = "(" items[i] ")" }
    listed = n
    return join_list(items, n)
}

function node_of(item,    at, sign) {
    at = index(item, ":")
    sign = substr(item, at + 1)
    return "node " substr(item, 1, at - 1) " " (sign in kind ? kind[sign] : "(Letter (letters_of (bytes \"" sign "\")))")
}

# an event, `second:letter`
function event_of(item,    at) {
    at = index(item, ":")
    return "event " substr(item, 1, at - 1) " \"" substr(item, at + 1) "\""
}

function events_list(field,    n, i, items) {
    n = field == "-" ? 0 : split(field, items, ";")
    for (i = 1; i <= n; i++) items[i] = event_of(items[i])
    return "(" join_list(items, n) ")"
}

# events, each with its file, `1/second:letter` or `2/second:letter`
function merged_list(field,    n, i, items) {
    n = field == "-" ? 0 : split(field, items, ";")
    for (i = 1; i <= n; i++) items[i] = source[substr(items[i], 1, 1)] " (" event_of(substr(items[i], 3)) ")"
    return join_list(items, n)
}

# the offsets of the special nodes, rising
function special_offsets(items, n,    i, j, m, offsets, x) {
    for (i = 1; i <= n; i++) if (items[i] ~ /:[&!]$/) {
        x = items[i] + 0
        for (j = m++; j >= 1 && offsets[j] > x; j--) offsets[j + 1] = offsets[j]
        offsets[j + 1] = x
    }
    return join_list(offsets, m)
}

KIND == "cases" {
    tree = "(tree_of (bytes \"" $1 "\"))"; word = "(bytes \"" $2 "\")"
    claim("obeying " word " " tree " ≡ " spans_list($3))
    claim("found " word " " tree " ≡ " listed)
    claim("full_count " word " " tree " ≡ " $4)
    claim("size " tree " ≡ " $5)
    claim("specials " tree " ≡ " $6)
}

KIND == "merges" { claim("merged " events_list($1) " " events_list($2) " ≡ " merged_list($3)) }

KIND == "readings" && $2 == 4 { claim("scanned (bytes \"" $1 "\") ≡ Err " $3) }

KIND == "readings" && $2 == 20 { claim("unordered_at (bytes \"" $1 "\") ≡ " $3) }

KIND == "readings" && $2 == 21 { claim("double_at (bytes \"" $1 "\") ≡ " $3) }

KIND == "readings" && $2 == 0 {
    tree = "(tree_of (bytes \"" $1 "\"))"
    n = split($6, items, ";")
    claim("map offset (special_parts " tree ") ≡ " special_offsets(items, n))
    for (i = 1; i <= n; i++) items[i] = node_of(items[i])
    claim("records " tree " ≡ " join_list(items, n))
    claim("scanned (bytes \"" $1 "\") ≡ counted " $4 " " $5)
    claim("unordered_at (bytes \"" $1 "\") ≡ " length($1))
    claim("double_at (bytes \"" $1 "\") ≡ " length($1))
}
