# loopdraw: Graphviz text of a mission, alone and with an answer; only what passes is drawn.
# shellcheck shell=bash disable=SC2154,SC2034

draw=$scripts/loopdraw
drawing() { # TITLE VERTICES AND EDGES
    printf 'digraph mission {\n    graph [rankdir=LR label="%s" fontname="sans-serif"]\n' "$1"
    printf '    node [shape=circle style=filled fontname="sans-serif"]\n    edge [fontname="sans-serif"]\n'
    printf '    source [shape=none style=""]\n    source -> 0\n'
    printf '    %s\n' "${@:2}"
    echo '}'
}
first='fillcolor="#cfe2f3"' second='fillcolor="#fce5cd"'
blue='color="#1565c0" fontcolor="#1565c0" penwidth=2.5' red='color="#c62828" fontcolor="#c62828" penwidth=2.5'
vertices=(
    "0 [label=\"0\" $first tooltip=\"vertex 0, owner 0\"]"
    "1 [label=\"1\" shape=doublecircle $second tooltip=\"vertex 1, owner 1\"]"
    "2 [label=\"2\" $first tooltip=\"vertex 2, owner 0\"]"
)
ends 0 'loopdraw, a mission' "$(drawing 'a mission; double: accepting' "${vertices[@]}" \
    '0 -> 1 [label="0"]' '1 -> 2 [label="1"]' '2 -> 1 [label="2"]')"$'\n' '' "$draw" k1
lasso=$(drawing 'lasso: stem blue, cycle red' "${vertices[@]}" \
    "0 -> 1 [label=\"0\" $blue]" "1 -> 2 [label=\"1\" $red]" "2 -> 1 [label=\"2\" $red]")$'\n'
ends 0 'loopdraw, a lasso' "$lasso" '' "$draw" k1 a1
ends 0 'loopdraw, a longer lasso' "$lasso" '' "$draw" k1 longer
input=a1
ends 0 'loopdraw, - for the answer' "$lasso" '' "$draw" k1 -
input=k1
ends 0 'loopdraw, - for the case' "$lasso" '' "$door" draw - a1
input=/dev/null
file partly "$names"$'1 3 2 0 1\nvertex accepting owner\n0 1 0\n1 0 0\n2 0 0\nfrom to\n0 1\n2 1\n'
"$find" partly >partly.answer
ends 0 'loopdraw, empty' "$(drawing 'empty: no lasso; below each vertex its distance' \
    "0 [label=\"0\\n0\" shape=doublecircle $first tooltip=\"vertex 0, owner 0\"]" \
    "1 [label=\"1\\n-1\" $first tooltip=\"vertex 1, owner 0\"]" \
    "2 [label=\"2\" style=\"filled,dashed\" $first tooltip=\"vertex 2, owner 0\"]" \
    '0 -> 1 [label="0"]' '2 -> 1 [label="1"]' '1 -> 1 [label="2" style=dashed]')"$'\n' '' "$draw" partly partly.answer
file rests "$names"$'1 2 1 0 1\nvertex accepting owner\n0 0 0\n1 1 0\nfrom to\n0 1\n'
"$find" rests >rests.answer
landed=(
    "0 [label=\"0\" $first tooltip=\"vertex 0, owner 0\"]"
    "1 [label=\"1\" shape=doublecircle $first tooltip=\"vertex 1, owner 0\"]"
)
ends 0 'loopdraw, a lasso by a rest loop' "$(drawing 'lasso: stem blue, cycle red' "${landed[@]}" \
    "0 -> 1 [label=\"0\" $blue]" "1 -> 1 [label=\"1\" $red style=dashed]")"$'\n' '' "$draw" rests rests.answer
file rests.1 $'version verdict stem cycle reached\n1 empty 0 0 2\nvertex distance\n0 0\n1 0\n'
ends 0 'loopdraw, an answer of version 1 has no rest loop' "$(drawing 'empty: no lasso; below each vertex its distance' \
    "0 [label=\"0\\n0\" $first tooltip=\"vertex 0, owner 0\"]" \
    "1 [label=\"1\\n0\" shape=doublecircle $first tooltip=\"vertex 1, owner 0\"]" \
    '0 -> 1 [label="0"]')"$'\n' '' "$draw" rests rests.1
ends 1 'loopdraw, a bad case' '' "loopdraw: case: $twice" "$draw" k11
ends 1 'loopdraw, a bad case with an answer' '' "loopdraw: case: $twice" "$draw" k11 a1
ends 1 'loopdraw, a false answer' '' "loopdraw: answer: $(rule 13)"$'\n' "$draw" k2 a1
ends 1 'loopdraw, an answer without a byte' '' "loopdraw: answer: $(rule 12)"$'\n' "$draw" k1 torn.0
cp k1 first=k1
cp a1 ./-a1
ends 0 'loopdraw, names that awk would read otherwise' "$lasso" '' "$draw" first=k1 -a1
ends 2 'loopdraw, a name without letters' '' $': No such file or directory\n' "$draw" k1 ''
ends 2 'loopdraw, no such file' '' $'missing: No such file or directory\n' "$draw" missing
ends 2 'loopdraw, no file' '' $'usage: loopdraw CASE [ANSWER]\n' "$draw"
ends 2 'loopdraw, no room' '' "loopdraw$unwritten" into_full "$draw" k1
