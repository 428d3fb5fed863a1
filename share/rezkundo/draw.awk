# Writes a case, and an answer to it if there is one, as Graphviz text. Both files have been judged before.
BEGIN {
    # a fill for each of the 16 workers
    split("#cfe2f3 #fce5cd #d9ead3 #ead1dc #fff2cc #d0e0e3 #f4cccc #d9d2e9 " \
        "#b7d7e8 #ffd8b1 #c5e8b7 #e6c9e6 #f0e68c #b2dfdb #ffcdd2 #d7ccc8", fill, " ")
    edges = 0
}
FNR == 1 { file++ }
file == 1 && FNR == 2 { vertices = $2; source = $4 }
file == 1 && FNR > 3 && FNR <= 3 + vertices { accepting[$1] = $2; owner[$1] = $3 }
file == 1 && FNR > 4 + vertices { from[edges] = $1; to[edges] = $2; leaves[$1] = 1; edges++ }
file == 2 && FNR == 2 { version = $1; verdict = $2; stem = $3 }
file == 2 && FNR > 3 && verdict == "lasso" && FNR - 3 > stem { on_cycle[$1] = 1 }
file == 2 && FNR > 3 && verdict == "lasso" && FNR - 3 <= stem { on_stem[$1] = 1 }
file == 2 && FNR > 3 && verdict == "empty" { distance[$1] = $2 }

function vertex(v,    look) {
    look = "label=\"" v (v in distance ? "\\n" distance[v] : "") "\""
    if (accepting[v]) look = look " shape=doublecircle"
    if (verdict == "empty" && !(v in distance)) look = look " style=\"filled,dashed\""
    return look " fillcolor=\"" fill[owner[v] + 1] "\" tooltip=\"vertex " v ", owner " owner[v] "\""
}

# An edge that a stem and a cycle share is drawn as the cycle's.
function edge(e) {
    if (e in on_cycle) return "label=\"" e "\" color=\"#c62828\" fontcolor=\"#c62828\" penwidth=2.5"
    if (e in on_stem) return "label=\"" e "\" color=\"#1565c0\" fontcolor=\"#1565c0\" penwidth=2.5"
    return "label=\"" e "\""
}

function title() {
    if (verdict == "lasso") return "lasso: stem blue, cycle red"
    if (verdict == "empty") return "empty: no lasso; below each vertex its distance"
    return "a mission; double: accepting"
}

END {
    print "digraph mission {"
    print "    graph [rankdir=LR label=\"" title() "\" fontname=\"sans-serif\"]"
    print "    node [shape=circle style=filled fontname=\"sans-serif\"]"
    print "    edge [fontname=\"sans-serif\"]"
    print "    source [shape=none style=\"\"]"
    print "    source -> " source
    for (v = 0; v < vertices; v++) print "    " v " [" vertex(v) "]"
    for (e = 0; e < edges; e++) print "    " from[e] " -> " to[e] " [" edge(e) "]"
    # an answer of version 1 is about the file's edges alone
    for (v = 0; v < vertices && version != 1; v++)
        if (!(v in leaves)) print "    " v " -> " v " [" edge(e++) " style=dashed]"
    print "}"
}
