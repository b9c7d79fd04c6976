# The imports of one file that nothing in it uses: ALSO=TEXT awk -v file=NAME -v remove=0|1 -f tests/imports.awk FILE. See tests/imports.
# Prints NAME:LINE: the name; with remove, the file without them.

# ---- words ----------------------------------------------------------------

# What stands after a dot is a field or another module's name, and no use of ours.
function heads(text, seen,    words, n, i) {
    n = split(text, words, " ")
    for (i = 1; i <= n; i++) {
        if (words[i] ~ /^\../) continue
        sub(/\..*/, "", words[i])
        seen[words[i]] = 1
    }
}
# Words of antt lie between blanks, brackets and commas; nearly anything else may be part of a name.
function proof_words(text, seen) {
    if (text ~ /,/) seen[","] = 1
    gsub(/\[\]/, " \001 ", text)
    gsub(/[][(){},;"]|⌜|⌝/, " ", text)
    gsub(/\001/, "[]", text)
    heads(text, seen)
}
function code_words(text, seen) {
    gsub(/\.\./, " ", text); gsub(/::/, ".", text)
    gsub(/[^A-Za-z0-9_.]/, " ", text)
    heads(text, seen)
}
# An operator ◌+◌ is used as +, or in a section as ◌+ or +◌.
function is_used(name, seen,    parts, n, i, bare) {
    if (name in seen) return 1
    if (name !~ /^◌|◌$/) return 0
    bare = name; gsub(/^◌|◌$/, "", bare)
    if (("◌" bare) in seen || (bare "◌") in seen) return 1
    n = split(name, parts, "◌")
    for (i = 1; i <= n; i++) if (parts[i] != "" && !(parts[i] in seen)) return 0
    return 1
}

# ---- the file's parts -----------------------------------------------------

function without_comment(line) {
    if (is_code) sub(/\/\/.*/, "", line)
    else if (line ~ /^--/) line = ""
    else sub(/ --( .*)?$/, "", line)
    return line
}
# The text of the contracts, where the names of a `ghost use` are used.
function clauses(text,    found, at, depth, c) {
    while (match(text, /[^A-Za-z0-9_](requires|ensures|ghost)( +[a-z_0-9]+)?:? *[{]/)) {
        at = RSTART + RLENGTH; depth = 1
        for (start = at; depth > 0 && at <= length(text); at++) {
            c = substr(text, at, 1)
            if (c == "{") depth++
            if (c == "}") depth--
        }
        found = found " " substr(text, start, at - start - 1)
        text = substr(text, at)
    }
    return found
}
function is_whole(statement) { return is_code ? statement ~ /;/ : statement !~ /[{]/ || statement ~ /}/ }

# The items of a use statement: items[1..], each as it is written; gives how many. Without braces it is one, the whole path.
function items_of(statement, items,    text, n, i) {
    text = statement; sub(/^(ghost )?use +/, "", text); sub(/;.*/, "", text)
    if (text !~ /[{]/) { items[1] = text; return 1 }
    sub(/^[^{]*[{]/, "", text); sub(/}.*/, "", text)
    gsub(/◌,◌/, "◌\003◌", text)
    n = split(text, items, ",")
    for (i = 1; i <= n; i++) { gsub(/^ +| +$/, "", items[i]); gsub(/\003/, ",", items[i]) }
    if (n > 0 && items[n] == "") n--
    return n
}
# The name that an item brings: after `as`, or at the end of its path.
function name_of(item) {
    if (item ~ / as /) { sub(/.* as +/, "", item); return item }
    sub(/.*::/, "", item)
    if (item !~ /^(◌|[[])/) sub(/.*\./, "", item)
    return item
}

# ---- one file -------------------------------------------------------------

# A trait of std is used by the methods that it brings.
BEGIN { is_code = file ~ /\.rt$/; n = split("Read Write BufRead Input Print Env", each, " "); for (i = 1; i <= n; i++) if (is_code) used[each[i]] = 1 }
{ lines[NR] = $0; line = without_comment($0) }
!open && /^(ghost )?use / { open = 1; uses++; first[uses] = NR; statement[uses] = "" }
open {
    sub(/^ +/, "", line)
    statement[uses] = statement[uses] (statement[uses] == "" ? "" : " ") line
    last[uses] = NR
    if (is_whole(statement[uses])) open = 0
    next
}
{ rest = rest " " line }

END {
    # what an edit writes into the file counts as in it
    also = ENVIRON["ALSO"]; rest = rest " " also
    if (is_code) { code_words(rest, used); proof_words(clauses(rest) " " also, stated) } else proof_words(rest, used)
    # a path may begin with the name that another use brings
    for (u = 1; u <= uses; u++) {
        path = statement[u]; sub(/^(ghost )?use +/, "", path); sub(/[.:{ ;].*/, "", path); path_heads[path] = 1
    }
    for (u = 1; u <= uses; u++) judge(u)
    if (!remove) exit
    for (i = 1; i <= NR; i++) if (!(i in gone)) print (i in instead) ? instead[i] : lines[i]
}

function judge(u,    items, n, i, name, kept, count, is_ghost) {
    is_ghost = statement[u] ~ /^ghost /
    n = items_of(statement[u], items)
    for (i = 1; i <= n; i++) {
        name = name_of(items[i])
        if (name == "*" || (is_ghost ? is_used(name, stated) : is_used(name, used)) || (statement[u] !~ /[{]/ && name in path_heads)) {
            kept = kept (count++ ? ", " : "") items[i]
        } else if (!remove) print file ":" first[u] ": " name
    }
    if (count < n) shorten(u, kept, count)
}

# The statement with the items kept, on a line, or where that is too long an item to a line; a statement with none goes.
function shorten(u, kept, count,    head, i) {
    for (i = first[u]; i <= last[u]; i++) gone[i] = 1
    if (!count) return
    delete gone[first[u]]
    head = statement[u]; sub(/[{].*/, "{", head)
    instead[first[u]] = head kept "}" (is_code ? ";" : "")
    if (length(instead[first[u]]) <= 140) return
    gsub(/, /, ",\n  ", kept)
    instead[first[u]] = head "\n  " kept ",\n}" (is_code ? ";" : "")
}
