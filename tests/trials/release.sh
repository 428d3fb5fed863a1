# A release: made by tools/release, unpacked elsewhere, and used on a machine without the kit.
# shellcheck shell=bash disable=SC2154,SC2034

release=rezkundo-$(head -n 1 "$root/share/rezkundo/version")-x86_64-linux
mkdir releases again
trial 'release: it is made' "$work/releases/$release.tar.gz"$'\n' '' "$root/tools/release" releases
trial 'release: it is made again' "$work/again/$release.tar.gz"$'\n' '' "$root/tools/release" again
trial 'release: both are equal' '' '' cmp "releases/$release.tar.gz" "again/$release.tar.gz"
mkdir 'the desk'
tar -xzf "releases/$release.tar.gz" -C 'the desk'
unpacked="the desk/$release"
sums() { (cd "$unpacked" && sha256sum --quiet -c SHA256SUMS); }
trial 'release: its sums' '' '' sums

examples=$unpacked/share/doc/rezkundo/examples
input=k1
ends 0 'release: K1' "$lasso_1" '' kitless "$unpacked/bin/loopfind"
input=/dev/null
ends 0 'release: the check of K1' $'pass lasso\n' '' kitless "$unpacked/bin/loopcheck" k1 a1
ends 0 'release: the acts of K1' "$done_1" '' kitless "$unpacked/bin/looplist" k1 whole
ends 0 'release: a claim' "$shown_claim" '' kitless "$unpacked/bin/claimcheck" claim
ends 0 'release: a chart' $'pass\n' '' kitless "$unpacked/bin/chartcheck" "$examples/survey.chart"
ends 1 'release: a chart with a gap' "$gap" "$gap_words" kitless "$unpacked/bin/chartcheck" chart_gap
dealt=("$examples/photo.chart" "$examples/claim-gusts-no-photo.hoa")
ends 0 'release: a case of a chart and a claim' "$(cat "$root/examples/photo-gusts.case")"$'\n' '' kitless "$unpacked/bin/casebuild" "${dealt[@]}" 4
ends 0 'release: its steps' "$photo_steps" '' kitless "$unpacked/bin/loopsteps" "${dealt[@]}" "$examples/photo-gusts.answer"
ends 0 'release: a step that looks like a refusal' "$like_pair" '' kitless "$unpacked/bin/rezkundo" steps like.pair like.claim like.answer
ends 1 'release: a claim for other flags' $'refused 20\n' "casebuild: chart and claim: $(rule 20)"$'\n' \
    kitless "$unpacked/bin/rezkundo" build duo three.flags 2
ends 1 'release: a false answer to a chart and a claim' $'refused 13\n' "loopsteps: answer: $(rule 13)"$'\n' \
    kitless "$unpacked/bin/loopsteps" duo watch answer.false
ends 0 'release: K1, drawn' "$lasso" '' kitless "$unpacked/bin/loopdraw" k1 a1
ends 1 'release: K11' $'refused 8\n' "loopfind: case: $twice" kitless "$unpacked/bin/rezkundo" find k11
id=$(git -C "$root" rev-parse HEAD)
shown() { kitless "$unpacked/bin/loopfind" --version | sed 's/, with changes$//'; }
trial 'release: its version' "loopfind (Rezkundo) ${about%kit:}commit: $id"$'\n'"kit: $kit"$'\n' '' shown
pages() { (cd "$unpacked/share/man/man1" && ls); }
trial 'release: man pages' $'casebuild.1\nchartcheck.1\nclaimcheck.1\nloopcheck.1\nloopdraw.1\nloopfind.1\nlooplist.1\nloopsteps.1\nrezkundo.1\n' '' pages
released() { (cd "$unpacked/libexec/rezkundo" && ls); }
trial 'release: programs' $'casebuild\nchartcheck\nclaimcheck\nloopcheck\nloopfind\nlooplist\nloopsteps\n' '' released

# ---- its library

# A program that was linked with another minor version does not find this one.
minor=${release#rezkundo-}
minor=${minor%%-*}
named() { readelf -d "$unpacked/lib/librezkundo.so" | sed -n 's/.*soname: \[\(.*\)\]/\1/p'; }
trial 'release: the name of the .so' "librezkundo.so.${minor%.*}"$'\n' '' named
checked=$lasso_1$'check passed lasso\n'
linked() { # NAME OPTION...: the example in C, linked with what was unpacked
    (cd "$unpacked" && cc -std=c99 -Wall -Wextra -Werror share/doc/rezkundo/bindings/c/find.c -o "$work/$1" "${@:2}")
}
linked find_static -Iinclude lib/librezkundo.a
trial 'release: the example in C, with the .a' "$checked" '' ./find_static k1
linked find_shared -Iinclude -Llib -lrezkundo
unpacked_libraries() { LD_LIBRARY_PATH="$unpacked/lib" "$@"; }
trial 'release: the example in C, with the .so' "$checked" '' unpacked_libraries ./find_shared k1
by_python() { REZKUNDO_SO=$unpacked/lib/librezkundo.so python3 "$unpacked/share/doc/rezkundo/bindings/python/find.py" "$@"; }
trial 'release: the example in Python' "$checked" '' by_python k1
flags() { PKG_CONFIG_PATH=$unpacked/lib/pkgconfig pkg-config "$@" rezkundo; }
if command -v pkg-config >/dev/null; then
    trial 'release: pkg-config' "$(head -n 1 "$root/share/rezkundo/version")"$'\n' '' flags --modversion
fi
