# Names the wrong definitions of an edit that nothing refuses by itself: for which no error stands in a declaration that unfolds this one and none of the
# others. Read one after the other: the places of the errors (FILE:LINE, one a line, after a line for the title), then every .antt file as it was tried.
# `wrong` has the names. A definition unfolds where a line `unfolding` or an expression `unfold .. in` names it, or a definition whose own line does; an
# abbreviation unfolds everywhere, so it can't share an edit.
function opens(names,    k, n, parts, name) {
    n = split(names, parts, " ")
    for (k = 1; k <= n; k++) {
        name = parts[k]
        sub(/.*\./, "", name)
        unfolded[at] = unfolded[at] " " name
        line_of[named[at]] = line_of[named[at]] " " name
    }
}
function close_over(name,    k, n, parts) {
    if (name in seen) return
    seen[name] = 1
    n = split(line_of[name], parts, " ")
    for (k = 1; k <= n; k++) close_over(parts[k])
}
BEGIN { m = split(wrong, names, " "); for (j = 1; j <= m; j++) is_wrong[names[j]] = 1 }
FNR == NR { errors[$0] = 1; next }
FNR == 1 { at = 0; depth = 99 }
{ match($0, /^ */); indent = RLENGTH }
/^ *module / { at = 0; depth = 99 }
/^ *((unfoldable|abbrev) +)*mutual/ { at = ++count; depth = indent; named[at] = "mutual " at }
indent <= depth && (/^ *(pub +)?(record|data) / || /^ *((unfoldable|abbrev|opaque|pub) +)*[^ (){}-][^ (){}]*( \{[^}]*\})? :( |$)/) {
    at = ++count
    depth = indent
    name = $0
    sub(/^ */, "", name)
    abbreviates = name ~ /^((unfoldable|opaque|pub) +)*abbrev /
    while (sub(/^(unfoldable|abbrev|opaque|pub|record|data) +/, "", name)) { }
    sub(/ .*/, "", name)
    named[at] = name
    if (name in is_wrong && !abbreviates) declared[name] = 1
}
at && /^ *unfolding / { opens(substr($0, index($0, "unfolding") + 10)) }
at && /unfold .* in / {
    rest = $0
    while (match(rest, /unfold [^=()]* in /)) {
        opens(substr(rest, RSTART + 7, RLENGTH - 11))
        rest = substr(rest, RSTART + RLENGTH)
    }
}
(FILENAME ":" FNR) in errors { fails[++failing] = at }
END {
    for (f = 1; f <= failing; f++) {
        split("", seen)
        k = split(unfolded[fails[f]], parts, " ")
        for (j = 1; j <= k; j++) close_over(parts[j])
        hits = 0
        for (j = 1; j <= m; j++) if (names[j] in seen) { hits++; which = names[j] }
        if (show) print "  " named[fails[f]] ":" hits (hits == 1 ? " " which : "")
        if (hits == 1) alone[which] = 1
    }
    for (j = 1; j <= m; j++) if (!(names[j] in alone) || !(names[j] in declared)) print names[j]
}
