# No stale program is run: whatever it was built from, another content builds it again.
# shellcheck shell=bash disable=SC2154,SC2034

# ---- by a stand-in for rt, which counts how often it is asked to build

mkdir stand_in
cat >stand_in/rt <<'RT'
#!/bin/sh
here=$(dirname "$0")
case $1 in
version) cat "$here/kit" ;;
run)
    name=$(basename "$PWD")
    echo "$name" >>"$here/calls"
    sleep 0.3
    echo 'crate text: modules loaded=1 checked=0'
    echo 'logic=proved functions=1'
    echo "crate $name: modules loaded=0 checked=1"
    [ ! -f "$here/broken" ] || { echo 'logic=not-proved'; exit 1; }
    echo 'logic=proved functions=1'
    mkdir -p out
    printf '#!/bin/sh\necho version by %s\n' "$(cat "$here/kit")" >"out/$name"
    chmod +x "out/$name"
    echo "rt: running out/$name; to give it other input, run that file yourself"
    exit "$(cat "$here/ends")" # as the program does
    ;;
lib)
    name=$(basename "$PWD")
    [ ! -f "$here/broken" ] || { echo 'logic=not-proved'; exit 1; }
    echo 'logic=proved functions=1'
    mkdir -p out
    echo archive >"out/lib$name.a"
    ;;
esac
RT
echo 'kit one' >stand_in/kit
echo 0 >stand_in/ends
chmod +x stand_in/rt
tree tree
standing_in() { PATH=$work/stand_in:$PATH "$@"; }
built=$'loopfind: is proved and built from its sources; the first time this takes some minutes\ntext proved\nloopfind proved\n'
with_one=$'version by kit one\n' with_two=$'version by kit two\n'
builds() { # NAME OUTPUT: a call that builds
    ends 0 "$1" "$2" "$built" standing_in tree/bin/loopfind k1
}
ends_fresh() { # NAME OUTPUT: a call that does not
    ends 0 "$1" "$2" '' standing_in tree/bin/loopfind k1
}
builds 'fresh: the first call' "$with_one"
ends_fresh 'fresh: the second call' "$with_one"
touch tree/crates/text/src/lib.rt tree/crates.txt
ends_fresh 'fresh: a newer file of the same content' "$with_one"
cp -p tree/crates/text/src/lib.rt before
echo '// more' >>tree/crates/text/src/lib.rt
builds 'fresh: a source with another content' "$with_one"
cp -p before tree/crates/text/src/lib.rt
builds 'fresh: the older source again' "$with_one"
echo 'kit two' >stand_in/kit
builds 'fresh: another kit' "$with_two"
printf '#!/bin/sh\necho other\n' >tree/target/bin/loopfind
builds 'fresh: a program that was replaced' "$with_two"
rm tree/target/bin/loopfind
builds 'fresh: a program that was removed' "$with_two"
rm tree/target/bin/loopfind
echo 3 >stand_in/ends
builds 'fresh: a program that ends with another status where rt runs it' "$with_two"
ends 0 'fresh: no kit, and nothing changed' "$with_two" '' kitless tree/bin/loopfind k1

: >stand_in/calls
rm -r tree/target
both_at_once() {
    standing_in tree/bin/loopfind k1 2>/dev/null &
    standing_in tree/bin/loopfind k1 2>/dev/null
    wait
    cat stand_in/calls
}
trial 'fresh: two calls at once build once' "$with_two$with_two"$'loopfind\n' '' both_at_once
says_library=$'rezkundo: is proved and built from its sources; the first time this takes some minutes\nrezkundo proved\n'
ends 0 'fresh: the library' '' "$says_library" standing_in tree/tools/build rezkundo
ends 0 'fresh: the library again' '' '' standing_in tree/tools/build rezkundo
echo other >tree/target/staticlib/librezkundo.a
ends 0 'fresh: the library, replaced' '' "$says_library" standing_in tree/tools/build rezkundo
trial 'fresh: the library is the one built' $'archive\n' '' cat tree/target/staticlib/librezkundo.a

# ---- what a build that fails says

: >stand_in/broken
echo '// more' >>tree/crates/text/src/lib.rt
ends 2 'fresh: the old program is not run' '' "${built%loopfind proved*}loopfind NOT PROVED
loopfind: was not built; $work/tree/target/build/loopfind.log says why
" standing_in tree/bin/loopfind k1
ends 2 'fresh: the old library is not taken' '' "${says_library%rezkundo proved*}rezkundo NOT PROVED
rezkundo: was not built; $work/tree/target/build/rezkundo.log says why
" standing_in tree/tools/build rezkundo
missing=$'loopfind: cannot be built: the Rattle kit is missing (there is no command rt on this machine)\n'
ends 2 'fresh: no kit, and a source changed' '' "$missing" kitless tree/bin/loopfind k1
ends 2 'fresh: no kit, and nothing built' '' "$missing" kitless 'bare tree/bin/loopfind' k1

# ---- by rt itself: K1 after an edit of a source, which prints the answer on standard error

tree changed
mkdir changed/target
cp -a "$root/target/bin" "$root/target/build" changed/target
# What rt kept of the libraries below, and of the program.
read -ra below < <(sed -n 's/^loopfind: //p' "$root/crates.txt")
for name in "${below[@]}"; do
    mkdir "changed/crates/$name/out"
    cp -a "$root/crates/$name/out/rlib" "changed/crates/$name/out"
done
cp -a "$root/crates/loopfind/out" changed/crates/loopfind
ends 0 'edit: before' "$lasso_1" '' changed/bin/loopfind k1
sed -i 's/desk::print(/desk::complain(/' changed/crates/loopfind/src/main.rt
errors_alone() { { "$@" >/dev/null; } 2>&1; }
ends 2 'edit: K1 after it' "${built/text proved$'\n'/}$lasso_1" '' errors_alone changed/bin/loopfind k1
