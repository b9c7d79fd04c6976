# What docs/STATEMENTS.md names: a line each of fields apart by tabs, the page's line, what it is, and its parts. See tests/page.
#   file CRATE/FILE · edit CRATE NAME [LAW] · wrong NAME EXAMPLE · function CRATE NAME · definition, law or name NAME [CRATE/FILE] · path PATH

function need(what) { print NR "\t" what }

# The names met so far in a piece of text are those of this file, or of any.
function settle(where,    i) {
    for (i = 1; i <= pending; i++) need(kind "\t" name[i] "\t" where)
    pending = 0
}
# One name in backquotes. An expression has blanks and is passed over.
function quoted(text) {
    if (text ~ /[ ()<>]|′/ || text == "&mut") return
    if (text ~ /::/) { crate = text; sub(/::.*/, "", crate); sub(/.*::/, "", text); need("function\t" crate "\t" text) }
    else if (text ~ /^[a-z]+\/[A-Za-z_0-9]+$/ && text !~ /^tests\//) slashed(text, "")
    else if (text ~ /\//) need("path\t" text)
    else if (kind == "function") need("function\t" crate "\t" text)
    else name[++pending] = text
}
# crate/File, or crate/edit and the law after it.
function slashed(text, after,    part, law) {
    split(text, part, "/")
    if (part[2] ~ /^[A-Z]/) { need("file\t" text); return }
    law = after
    if (!sub(/^: `/, "", law)) law = ""
    sub(/`.*/, "", law)
    need("edit\t" part[1] "\t" part[2] "\t" law)
    edits_of = part[1]
}
# The bare names after `edit CRATE/NAME,`, up to the end of that part of the sentence.
function bare_edits(text,    each, n, i) {
    sub(/[;(|].*/, "", text)
    n = split(text, each, ", ")
    for (i = 1; i <= n; i++) {
        if (each[i] ~ /\//) { edits_of = each[i]; sub(/\/.*/, "", edits_of); sub(/.* /, "", edits_of); continue }
        sub(/.*: /, "", each[i]); gsub(/[ .]+$/, "", each[i])
        if (each[i] ~ /^[a-z][a-z_0-9]*$/) need("edit\t" edits_of "\t" each[i] "\t")
    }
}
# A cell, or a line of text, from left to right.
function read_cell(text,    piece) {
    while (match(text, /`[^`]*`|edits? [a-z]+\/|[a-z]+\/[A-Za-z][A-Za-z_0-9]*|; /)) {
        piece = substr(text, RSTART, RLENGTH); before = substr(text, 1, RSTART - 1); text = substr(text, RSTART + RLENGTH)
        if (piece ~ /^`/) quoted(substr(piece, 2, length(piece) - 2))
        else if (piece ~ /^edits? /) { sub(/^edits? /, "", piece); edits_of = piece; sub(/\//, "", edits_of); bare_edits(piece text); text = piece text }
        else if (piece == "; ") settle("")
        else { if (before ~ / in $/ && piece ~ /\/[A-Z]/) settle(piece); slashed(piece, text) }
    }
    settle("")
}
# An example that differs under an edit of the definition alone.
function read_wrong(text,    each, n, i, part) {
    n = split(text, each, ", ")
    for (i = 1; i <= n; i++) if (split(each[i], part, ": ") == 2) { gsub(/[` ]/, "", part[1]); gsub(/[` ]/, "", part[2]); need("wrong\t" part[1] "\t" part[2]) }
}

/^```/ { inside = !inside; next }
inside { next }
!/^\|/ { split("", kinds); kind = "name"; read_cell($0); next }
{
    n = split($0, cells, "|")
    if (!(2 in kinds)) {
        for (i = 2; i < n; i++) kinds[i] = cells[i] ~ /Definition/ ? "definition" : cells[i] ~ /Promise/ ? "function" : cells[i] ~ /Shown by|Theorem/ ? "law" : cells[i] ~ /An example differs/ ? "wrong" : "name"
        next
    }
    crate = edits_of = ""
    for (i = 2; i < n; i++) { kind = kinds[i]; if (kind == "wrong") read_wrong(cells[i]); else read_cell(cells[i]) }
}
