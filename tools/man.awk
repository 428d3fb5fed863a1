# Makes a man page of a program's help: its usage line, its line in the list of programs, and what follows.
#   bin/loopfind --help | awk -f tools/man.awk -v name=loopfind -v version=1.0.0
function roff(text) {
    gsub(/\\/, "\\e", text)
    gsub(/-/, "\\-", text)
    while (match(text, /`[^`]*`/))
        text = substr(text, 1, RSTART - 1) "\\fB" substr(text, RSTART + 1, RLENGTH - 2) "\\fR" substr(text, RSTART + RLENGTH)
    sub(/^[.']/, "\\\\\\&&", text)
    return text
}
# Paragraphs are read whole, since a quoted command may go over a line's end.
function paragraph(text) {
    if (text == "") return
    if (sub(/^Exit status: /, "", text)) print ".SH EXIT STATUS"
    else if (described++) print ".PP"
    else print ".SH DESCRIPTION"
    print roff(text)
}
NR == 1 { sub(/^usage: /, ""); usage = $0; next }
NR == 2 {
    print ".TH " toupper(name) " 1 \"\" \"Rezkundo " version "\""
    print ".SH NAME\n" roff(name) " \\- " roff($0)
    print ".SH SYNOPSIS\n\\fB" roff(name) "\\fR" roff(substr(usage, length(name) + 1))
    next
}
/^  / { paragraph(text); text = ""; print ".br\n" roff($0); next }
/^$/ { paragraph(text); text = ""; next }
{ text = text == "" ? $0 : text " " $0 }
END { paragraph(text); print ".SH SEE ALSO\n\\fBrezkundo\\fR(1), and the documents in share/doc/rezkundo" }
