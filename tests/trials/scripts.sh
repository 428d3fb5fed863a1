# The scripts in bin/, as users and other scripts call them: exit status 0 an answer or a pass, 1 refused, 2 trouble; the
# rule behind a refusal; `-`; help and version; links, folders and CDPATH.
# shellcheck shell=bash disable=SC2154,SC2034

ends() { # STATUS NAME OUTPUT ERRORS COMMAND...
    status=$1
    shift
    trial "$@"
    status=0
}

rule() { awk -F '\t' -v number="$1" '$1 == number { print $3 }' "$root/share/rezkundo/refusals"; }

# ---- a result

find=$scripts/loopfind check=$scripts/loopcheck list=$scripts/looplist claims=$scripts/claimcheck
charts=$scripts/chartcheck build=$scripts/casebuild steps=$scripts/loopsteps
input=k1
ends 0 'bin/loopfind' "$lasso_1" '' "$find"
ends 0 'bin/loopfind -' "$lasso_1" '' "$find" -
input=/dev/null
ends 0 'bin/loopfind, a file' "$empty_2" '' "$find" k2
ends 0 'bin/loopcheck' $'pass lasso\n' '' "$check" k1 a1
ends 0 'bin/loopcheck, empty' $'pass empty\n' '' "$check" k2 a2
ends 0 'bin/looplist' "$done_1" '' "$list" k1 whole
ends 0 'bin/claimcheck, a file' "$shown_claim" '' "$claims" claim
input=claim
ends 0 'bin/claimcheck -' "$shown_claim" '' "$claims" -
input=/dev/null
ends 0 'bin/chartcheck, a file' $'pass\n' '' "$charts" chart
ends 0 'bin/casebuild' "$built_2" '' "$build" duo watch 2
ends 0 'bin/casebuild, 2,000 edges' "$names$most_edges"$'\n' '' "$build" next.20 edges.100 7
ends 0 'bin/loopsteps' "$duo_steps" '' "$steps" duo watch duo.answer
ends 0 'bin/loopsteps, an empty that passes' '' '' "$steps" duo passing passing.answer
hoa 1 0 1 $'State: 0 "" {0} [t] 0\n' >stated
ends 0 'bin/loopsteps, an empty name' $'a \n' '' "$steps" one stated a3

# ---- a refusal: which file, and the rule in plain words

file k6v "$names"$'1 1 0 0 1\nvertex accepting owner\n0 2 0\nfrom to\n'
file k7e "$names"$'1 1 1 0 1\nvertex accepting owner\n0 0 0\nfrom to\n0 1\n'
number=0
for refused in long.65537 torn.0 k10 torn.2 vertices.501 k6v k7e k11; do
    number=$((number + 1))
    ends 1 "bin/loopfind, refusal $number" "refused $number"$'\n' "loopfind: case: $(rule $number)"$'\n' "$find" "$refused"
done
twice=$'the edges do not rise strictly by "from", then by "to"\n'
ends 1 'bin/loopcheck, the case' $'refused 8\n' "loopcheck: case: $twice" "$check" k11 a1
ends 1 'bin/looplist, the case' $'refusal 8\n'"$undone" "looplist: case: $twice" "$list" k11 whole
version=$(rule 3)$'\n'
sed 's/^2 lasso/3 lasso/' a1 >newer
ends 1 'bin/loopcheck, a newer case' $'refused 3\n' "loopcheck: case: $version" "$check" k10 a1
ends 1 'bin/loopcheck, a newer answer' $'refused 3\n' "loopcheck: answer: $version" "$check" k1 newer
ends 1 'bin/loopcheck, a newer case and answer' $'refused 3\n' "loopcheck: case: $version" "$check" k10 newer
length=$'the file has more than 65,536 bytes\n'
{ cat a1; head -c 65537 /dev/zero; } >long.answer
ends 1 'bin/loopcheck, a long case' $'refused 1\n' "loopcheck: case: $length" "$check" long.65537 long.answer
ends 1 'bin/loopcheck, a long answer' $'refused 1\n' "loopcheck: answer: $length" "$check" k1 long.answer
ends 1 'bin/loopcheck, an answer torn' $'refused 12\n' "loopcheck: answer: $(rule 12)"$'\n' "$check" k1 torn.0
ends 1 'bin/loopcheck, a false answer' $'refused 13\n' "loopcheck: answer: $(rule 13)"$'\n' "$check" k2 a1
ends 1 'bin/looplist, an act too many' $'refusal 9\n'"$undone" "looplist: acts: $(rule 9)"$'\n' "$list" k1 out
ends 1 'bin/looplist, unended' $'refusal 10\nverdict none\nacts 7\nsent 4\ndelivered 3\njoined 0\n' "looplist: acts: $(rule 10)"$'\n' "$list" k1 short
words=$(rule 14)
ends 1 'bin/claimcheck, refused' $'refused 14\n' "claimcheck: claim: ${words:-refusal 14, see docs/REFUSALS.md}"$'\n' "$claims" torn.0
file chart_gap "${modes}1 2 0 3"$'\nname\nhold\nclimb\n'"$rules"$'0 0 0 1\n1 4 0 0\n1 5 5 1\n'
file chart_overlap "${modes}1 2 0 3"$'\nname\nhold\nclimb\n'"$rules"$'0 0 0 1\n1 4 0 0\n1 4 4 0\n1 3 3 1\n'
gap=$'refused 18\nmode 1\nflags 4\n'
overlap=$'refused 19\nmode 1\nflags 3\n'
gap_words=$'mode climb, flags 100: no rule\nchartcheck: chart: a mode and a combination of flags have no rule\n'
overlap_words=$'mode climb, flags 011: more than one rule\nchartcheck: chart: a mode and a combination of flags have two rules or more\n'
ends 1 'bin/chartcheck, a fault of the text' "$faulty" "chartcheck: chart: $(rule 17)"$'\n' "$charts" torn.0
ends 1 'bin/chartcheck, no rule' "$gap" "$gap_words" "$charts" chart_gap
ends 1 'bin/chartcheck, two rules' "$overlap" "$overlap_words" "$charts" chart_overlap
refused_by() { # PROGRAM NAME OUTPUT WHOSE FILE...: by the number in the output
    local number=${3#refused }
    ends 1 "bin/$1, $2" "$3" "$1: $4: $(rule "${number%%$'\n'*}")"$'\n' "$scripts/$1" "${@:5}"
}
for workers in 0 17 999999999; do refused_by casebuild "$workers workers" $'refused 5\n' workers duo watch "$workers"; done
refused_by casebuild '0 workers and an empty chart' $'refused 5\n' workers torn.0 torn.0 0
both_refused() { # NAME OUTPUT WHOSE CHART CLAIM: by both programs
    refused_by casebuild "$1" "$2" "$3" "$4" "$5" 2
    refused_by loopsteps "$1" "$2" "$3" "$4" "$5" duo.answer
}
both_refused 'a fault in the chart' "$faulty" chart duo.faulty watch
both_refused 'no rule' "$duo_gap" chart duo.gap watch
both_refused 'two rules' "$duo_overlap" chart duo.overlap watch
both_refused 'no rule, and an empty claim' "$duo_gap" chart duo.gap torn.0
both_refused 'no claim' $'refused 14\n' claim duo torn.0
both_refused 'a torn claim' $'refused 15\n' claim duo claim.15
both_refused 'a claim with a comment' $'refused 16\n' claim duo claim.16
both_refused 'a claim for other flags' $'refused 20\n' 'chart and claim' duo three.flags
both_refused '2,001 edges' $'refused 21\n' 'chart and claim' next.23 edges.87
refused_by loopsteps 'a long answer' $'refused 1\n' answer duo watch answer.long
refused_by loopsteps 'a newer answer' $'refused 3\n' answer duo watch answer.newer
refused_by loopsteps 'an answer without a byte' $'refused 12\n' answer duo watch torn.0
refused_by loopsteps 'a false answer' $'refused 13\n' answer duo watch answer.false

# Listings that begin as a refusal does, since the first mode is named so, and refusals of such charts. The last listing is
# a refusal to the byte.
file like "${modes}1 1 0 1"$'\nname\nrefused\n'"$rules"$'0 0 0 0\n'
for state in '' '"12"' '"13"' '"20"' '"x"'; do
    hoa 1 0 1 "State: 0 $state {0} [t] 0"$'\n' >stated
    state=${state//\"/}
    ends 0 "bin/loopsteps, the step 'refused ${state:-0}'" "refused ${state:-0}"$'\n' '' "$steps" like stated a3
done
ends 0 'bin/casebuild, a mode named refused' "$(cat k3)"$'\n' '' "$build" like stated 1
hoa 1 0 1 $'State: 0 [t] 0\n' >stated
file like.empty "$source_only"
ends 0 'bin/loopsteps, a mode named refused, and no lasso' '' '' "$steps" like stated like.empty
refused_by loopsteps 'a mode named refused, and a false answer' $'refused 13\n' answer like stated a3
refused_by loopsteps 'a mode named refused, and no answer' $'refused 12\n' answer like stated torn.0
refused_by loopsteps 'a mode named refused, and no claim' $'refused 14\n' claim like torn.0 a3
file like.pair "${modes}1 3 0 1"$'\nname\nrefused\nmode\nflags\n'"$rules"$'0 0 0 1\n1 0 0 2\n2 0 0 0\n'
hoa 3 0 1 $'State: 0 "18" {0} [t] 1\nState: 1 [t] 2\nState: 2 "0" [t] 0\n' >like.claim
lasso_of 0 3 0 4 8 >like.answer
like_pair=$'refused 18\nmode 1\nflags 0\n'
ends 0 'bin/loopsteps, the steps of a pair' "$like_pair" '' "$steps" like.pair like.claim like.answer
grep -v '^1 0' like.pair >like.gap
refused_by loopsteps 'the same pair without a rule' "$like_pair" chart like.gap like.claim like.answer

# The table has each refusal once, in order, and docs/REFUSALS.md has a row for each.
in_table() { cut -f 1 "$root/share/rezkundo/refusals"; }
in_document() { sed -n 's/^| \([0-9][0-9]*\) | .*/\1/p' "$root/docs/REFUSALS.md"; }
trial 'the words of each refusal' "$(seq 21)"$'\n' '' in_table
trial 'the document of each refusal' "$(seq 21)"$'\n' '' in_document

# ---- trouble

unwritten=$': standard output was not written\n'
closed() { "$@" >&-; }
ends 2 'bin/loopfind, no such file' '' $'loopfind: missing: No such file or directory\n' "$find" missing
ends 2 'bin/loopfind, a folder' '' $'loopfind: folder: Is a directory\n' "$find" folder
ends 2 'bin/loopfind, two files' '' $'usage: loopfind [CASE]\n' "$find" k1 k2
ends 2 'bin/loopfind, no input' '' $'standard input: Bad file descriptor\n' without_input "$find"
ends 2 'bin/loopfind, no room' '' "loopfind$unwritten" into_full "$find" k1
ends 2 'bin/loopfind, refused and no room' '' "loopfind$unwritten" into_full "$find" k10
ends 2 'bin/loopfind, output closed' '' "loopfind$unwritten" closed "$find" k1
ends 2 'bin/claimcheck, no such file' '' $'claimcheck: missing: No such file or directory\n' "$claims" missing
ends 2 'bin/claimcheck, two files' '' $'usage: claimcheck [CLAIM]\n' "$claims" claim claim
ends 2 'bin/claimcheck, no room' '' "claimcheck$unwritten" into_full "$claims" claim
ends 2 'bin/chartcheck, no such file' '' $'missing: No such file or directory\n' "$charts" missing
ends 2 'bin/chartcheck, a folder' '' $'folder: Is a directory\n' "$charts" folder
ends 2 'bin/chartcheck, a name without letters' '' $': No such file or directory\n' "$charts" ''
ends 2 'bin/chartcheck, two files' '' $'usage: chartcheck [CHART]\n' "$charts" chart chart
ends 2 'bin/chartcheck, no room' '' "chartcheck$unwritten" into_full "$charts" chart
ends 2 'bin/chartcheck, a bad pair and no room' '' "${gap_words%%$'\n'*}"$'\n'"chartcheck$unwritten" into_full "$charts" chart_gap
for name in casebuild loopsteps; do
    last=2
    usage=$'usage: casebuild CHART CLAIM WORKERS\n'
    all=two
    if [ "$name" = loopsteps ]; then last=duo.answer usage=$'usage: loopsteps CHART CLAIM ANSWER\n' all=three; fi
    ends 2 "bin/$name, no argument" '' "$usage" "$scripts/$name"
    ends 2 "bin/$name, two arguments" '' "$usage" "$scripts/$name" duo watch
    ends 2 "bin/$name, four arguments" '' "$usage" "$scripts/$name" duo watch "$last" "$last"
    ends 2 "bin/$name, no such chart" '' $'missing: No such file or directory\n' "$scripts/$name" missing watch "$last"
    ends 2 "bin/$name, no such claim" '' $'missing: No such file or directory\n' "$scripts/$name" duo missing "$last"
    ends 2 "bin/$name, a folder" '' $'folder: Is a directory\n' "$scripts/$name" folder watch "$last"
    ends 2 "bin/$name, a name without letters" '' $': No such file or directory\n' "$scripts/$name" '' watch "$last"
    ends 2 "bin/$name, - twice" '' "$name: only one of the $all files can be standard input"$'\n' "$scripts/$name" - - "$last"
    ends 2 "bin/$name, no room" '' "$name$unwritten" into_full "$scripts/$name" duo watch "$last"
    ends 2 "bin/$name, refused and no room" '' "$name$unwritten" into_full "$scripts/$name" duo.gap watch "$last"
    ends 2 "bin/$name, output closed" '' "$name$unwritten" closed "$scripts/$name" duo watch "$last"
done
for workers in '' x 01 1000000000 -; do
    ends 2 "bin/casebuild, the workers '$workers'" '' $'usage: casebuild CHART CLAIM WORKERS\n' "$build" duo watch "$workers"
done
ends 2 'bin/loopsteps, no such answer' '' $'missing: No such file or directory\n' "$steps" duo watch missing
ends 2 'bin/loopsteps, no such answer, and no lasso' '' $'missing: No such file or directory\n' "$steps" duo passing missing
ends 2 'bin/loopsteps, - for chart and answer' '' $'loopsteps: only one of the three files can be standard input\n' "$steps" - watch -
ends 2 'bin/loopsteps, - for claim and answer' '' $'loopsteps: only one of the three files can be standard input\n' "$steps" duo - -
ends 2 'bin/loopsteps, a mode named refused, and no room' '' "loopsteps$unwritten" into_full "$steps" like.pair like.claim like.answer
ends 0 'bin/loopsteps, no room, and nothing to print' '' '' into_full "$steps" duo passing passing.answer
ends 2 'bin/loopcheck, no such file' '' $'missing: No such file or directory\n' "$check" k1 missing
ends 2 'bin/loopcheck, one file' '' $'usage: loopcheck CASE ANSWER\n' "$check" k1
ends 2 'bin/loopcheck, - twice' '' $'loopcheck: only one of the two files can be standard input\n' "$check" - -
ends 2 'bin/looplist, no list' '' $'usage: looplist CASE ACTS\n' "$list"
ends 2 'bin/looplist, no room' '' "looplist$unwritten" into_full "$list" k1 whole
file bad $'0\nx\n'
no_act=$'line 2: expected an act, a number of 1 to 9 digits without leading zeros, and a line feed\n'
ends 2 'bin/looplist, a bad list' '' "bad: $no_act" "$list" k1 bad
ends 2 'bin/looplist, a list too long' '' $'too.many: more than 400000 acts\n' "$list" k1 too.many
little_stack() { (ulimit -c 0 -s 1000 && "$@"); }
ends 2 'bin/looplist, too little stack' '' $'Segmentation fault\nlooplist: ended with status 139; does ulimit -s allow 8 MB of stack?\n' \
    little_stack "$list" k1 whole

# ---- standard input

on_terminal() { # FILE COMMAND...: the command, with the file typed at a terminal as its standard input
    python3 "$root/tests/trials/on_terminal.py" "$@"
}
piped() { { head -c 50 chart; sleep 0.2; tail -c +51 chart; } | "$@"; }
input=k1
ends 0 'bin/loopcheck, - for the case' $'pass lasso\n' '' "$check" - a1
input=k10
ends 1 'bin/loopcheck, a newer case by -' $'refused 3\n' "loopcheck: case: $version" "$check" - a1
ends 1 'bin/looplist, a newer case by -' $'refusal 3\n'"$undone" "looplist: case: $version" "$list" - whole
input=newer
ends 1 'bin/loopcheck, a newer answer by -' $'refused 3\n' "loopcheck: answer: $version" "$check" k1 -
input=whole
ends 0 'bin/looplist, - for the acts' "$done_1" '' "$list" k1 -
input=bad
ends 2 'bin/looplist, a bad list by -' '' "/dev/stdin: $no_act" "$list" k1 -
input=most.wide
ends 1 'bin/looplist, 400,000 acts by -' $'refusal 9\n'"$undone" "looplist: acts: $(rule 9)"$'\n' "$list" k1 -
input=too.many.wide
ends 2 'bin/looplist, 400,001 acts by -' '' $'/dev/stdin: more than 400000 acts\n' "$list" k1 -
input=chart
ends 0 'bin/chartcheck' $'pass\n' '' "$charts"
ends 0 'bin/chartcheck -' $'pass\n' '' "$charts" -
ends 0 'bin/chartcheck, a pipe that comes in parts' $'pass\n' '' piped "$charts" -
input=chart_gap
ends 1 'bin/chartcheck, no rule, by standard input' "$gap" "$gap_words" "$charts"
input=chart_overlap
ends 1 'bin/chartcheck, two rules, by -' "$overlap" "$overlap_words" "$charts" -
input=/dev/null
ends 1 'bin/chartcheck, no byte' "$faulty" "chartcheck: chart: $(rule 17)"$'\n' "$charts"
cp chart_gap ./-
ends 0 'bin/chartcheck, - and a file of that name' $'pass\n' '' piped "$charts" -
ends 1 'bin/chartcheck, a file of that name' "$gap" "$gap_words" "$charts" ./-
input=duo
ends 0 'bin/casebuild, - for the chart' "$built_2" '' "$build" - watch 2
ends 0 'bin/loopsteps, - for the chart' "$duo_steps" '' "$steps" - watch duo.answer
refused_by casebuild 'a claim for other flags, the chart by -' $'refused 20\n' 'chart and claim' - three.flags 2
input=watch
ends 0 'bin/casebuild, - for the claim' "$built_2" '' "$build" duo - 2
ends 0 'bin/loopsteps, - for the claim' "$duo_steps" '' "$steps" duo - duo.answer
input=claim.16
refused_by casebuild 'a claim with a comment, by -' $'refused 16\n' claim duo - 2
input=duo.answer
ends 0 'bin/loopsteps, - for the answer' "$duo_steps" '' "$steps" duo watch -
input=passing.answer
ends 0 'bin/loopsteps, an empty that passes, by -' '' '' "$steps" duo passing -
input=answer.false
refused_by loopsteps 'a false answer by -' $'refused 13\n' answer duo watch -
input=like.pair
ends 0 'bin/loopsteps, the steps of a pair, the chart by -' "$like_pair" '' "$steps" - like.claim like.answer
input=like.claim
ends 0 'bin/loopsteps, the steps of a pair, the claim by -' "$like_pair" '' "$steps" like.pair - like.answer
input=like.answer
ends 0 'bin/loopsteps, the steps of a pair, the answer by -' "$like_pair" '' "$steps" like.pair like.claim -
input=like.gap
refused_by loopsteps 'the same pair without a rule, by -' "$like_pair" chart - like.claim like.answer
input=/dev/null
refused_by loopsteps 'no byte by -' $'refused 12\n' answer duo watch -
cp like.pair ./-x
ends 0 'bin/loopsteps, names that begin with -' "$like_pair" '' "$steps" -x like.claim like.answer
cp k1 ./-:k1
ends 0 'bin/loopcheck, a name that begins -:' $'pass lasso\n' '' on_terminal k1 "$check" -:k1 a1
input=folder
ends 2 'bin/loopcheck, a folder by -' '' $'head: error reading \'standard input\': Is a directory
loopcheck: standard input was not read\n' "$check" - a1
ends 2 'bin/chartcheck, a folder by standard input' '' $'head: error reading \'standard input\': Is a directory
chartcheck: standard input was not read\n' "$charts"
ends 2 'bin/loopsteps, a folder by -' '' $'head: error reading \'standard input\': Is a directory
loopsteps: standard input was not read\n' "$steps" duo watch -
input=/dev/null

hint=$': reads from the terminal; end the file by Ctrl-D on a line of its own\n'
ends 0 'bin/loopfind, from a terminal' "$lasso_1" "loopfind$hint" on_terminal k1 "$find"
ends 0 'bin/loopcheck, from a terminal' $'pass lasso\n' "loopcheck$hint" on_terminal a1 "$check" k1 -
ends 0 'bin/loopfind, a file and a terminal' "$lasso_1" '' on_terminal torn.0 "$find" k1
ends 0 'bin/chartcheck, from a terminal' $'pass\n' "chartcheck$hint" on_terminal chart "$charts"
ends 0 'bin/chartcheck, a file and a terminal' $'pass\n' '' on_terminal torn.0 "$charts" chart
ends 0 'bin/casebuild, from a terminal' "$built_2" "casebuild$hint" on_terminal watch "$build" duo - 2
ends 0 'bin/loopsteps, from a terminal' "$duo_steps" "loopsteps$hint" on_terminal duo.answer "$steps" duo watch -
ends 0 'bin/loopsteps, files and a terminal' "$duo_steps" '' on_terminal torn.0 "$steps" duo watch duo.answer

# ---- the one door

door=$scripts/rezkundo
listed() { "$@" | grep '^  rezkundo '; }
ends 0 'bin/rezkundo' "\
  rezkundo find   finds a lasso in a mission, or shows that there is none
  rezkundo check  checks that an answer file shows what it says of a case
  rezkundo list   replays a recorded order of the bus on a mission
  rezkundo draw   draws a mission, and a finding in it, as Graphviz text
  rezkundo claim  judges a claim in the Hanoi format, and prints its states
  rezkundo chart  checks a chart of modes for gaps and overlaps in its rules
  rezkundo build  builds the case file of a chart and a claim
  rezkundo steps  names the steps of an answer by modes and claim states
" '' listed "$door"
ends 0 'bin/rezkundo find' "$lasso_1" '' "$door" find k1
ends 0 'bin/rezkundo check' $'pass lasso\n' '' "$door" check k1 a1
ends 0 'bin/rezkundo list' "$done_1" '' "$door" list k1 whole
ends 0 'bin/rezkundo claim' "$shown_claim" '' "$door" claim claim
ends 0 'bin/rezkundo chart' $'pass\n' '' "$door" chart chart
ends 1 'bin/rezkundo chart, no rule' "$gap" "$gap_words" "$door" chart chart_gap
ends 0 'bin/rezkundo build' "$built_2" '' "$door" build duo watch 2
ends 1 'bin/rezkundo build, no rule' "$duo_gap" "casebuild: chart: $(rule 18)"$'\n' "$door" build duo.gap watch 2
ends 2 'bin/rezkundo build, no argument' '' $'usage: casebuild CHART CLAIM WORKERS\n' "$door" build
ends 0 'bin/rezkundo steps' "$duo_steps" '' "$door" steps duo watch duo.answer
ends 1 'bin/rezkundo steps, a false answer' $'refused 13\n' "loopsteps: answer: $(rule 13)"$'\n' "$door" steps duo watch answer.false
ends 2 'bin/rezkundo steps, no argument' '' $'usage: loopsteps CHART CLAIM ANSWER\n' "$door" steps
words='find | check | list | draw | claim | chart | build | steps'
ends 2 'bin/rezkundo, another word' '' "usage: rezkundo [$words] [ARGUMENT]..."$'\n' "$door" seek k1

# ---- help and version, from a tree in which nothing is built and on a machine without the kit

tree() { # FOLDER: the sources, and nothing built
    mkdir -p "$1"
    tar -C "$root" --anchored --no-wildcards-match-slash --exclude='crates/*/out' -c crates crates.txt bin share tools |
        tar -x -C "$1"
}
tree 'bare tree'
mkdir without_rt
ln -sf /usr/bin/* /bin/* without_rt
rm -f without_rt/rt
kitless() { PATH=$work/without_rt "$@"; }
kit=$(rt version)
about=$(head -n 1 "$root/share/rezkundo/version")$'\n'$(tail -n +2 "$root/share/rezkundo/version")$'\n'kit:
for name in loopfind loopcheck looplist loopdraw claimcheck chartcheck casebuild loopsteps; do
    trial "$name --help" "$(cat "$root/share/rezkundo/help/$name")"$'\n' '' kitless "bare tree/bin/$name" --help
    trial "$name --version" "$name (Rezkundo) $about none on this machine"$'\n' '' kitless "bare tree/bin/$name" --version
    trial "$name --version, the kit" "$name (Rezkundo) $about $kit"$'\n' '' "bare tree/bin/$name" --version
done
trial 'rezkundo --version' "rezkundo (Rezkundo) $about $kit"$'\n' '' "$door" --version
in_help() { grep -c '400,000' "$root/share/rezkundo/help/looplist"; }
trial 'the greatest list, in the help' $'1\n' '' in_help
newest() { sed -n 's/^## \([0-9.]*\).*/\1/p' "$root/CHANGELOG.md" | head -n 1; }
trial 'the version, in CHANGELOG.md' "$(head -n 1 "$root/share/rezkundo/version")"$'\n' '' newest

# ---- where it is called from

mkdir -p elsewhere/bin
ln -s "$find" elsewhere/finder
ln -s ../finder elsewhere/bin/again
in_folder() { (cd "$1" && shift && "$@"); }
ends 0 'a link' "$lasso_1" '' elsewhere/finder k1
ends 0 'a link to a link, from its folder' "$lasso_1" '' in_folder elsewhere/bin ./again ../../k1
by_path() { PATH=$work/elsewhere/bin:$PATH "$@"; }
ends 0 'a link on the path' "$lasso_1" '' by_path again k1
with_cdpath() { CDPATH=$work/elsewhere "$@"; }
ends 0 'CDPATH, with a bin/ of its own' "$lasso_1" '' with_cdpath in_folder "$root" bin/loopfind "$work/k1"
ends 0 'by sh, from its folder' "$lasso_1" '' in_folder "$root/bin" sh loopfind "$work/k1"

# ---- the examples

example=$root/examples/hold-climb-hold
ends 0 'examples, lasso' "$(cat "$example.answer")"$'\n' '' "$find" "$example.case"
ends 0 'examples, its check' $'pass lasso\n' '' "$check" "$example.case" "$example.answer"
ends 0 'examples, its acts' "$done_1" '' "$list" "$example.case" "$example.acts"
landed=$root/examples/survey-and-land
ends 0 'examples, empty' "$(cat "$landed.answer")"$'\n' '' "$find" "$landed.case"
resting=$root/examples/land-and-rest
ends 0 'examples, a rest loop' "$(cat "$resting.answer")"$'\n' '' "$find" "$resting.case"
ends 0 'examples, its check' $'pass lasso\n' '' "$check" "$resting.case" "$resting.answer"
ends 1 'examples, refused' $'refused 8\n' "loopfind: case: $twice" "$find" "$root/examples/edge-twice.case"
"$root/examples/large" >field.case
"$find" field.case >field.answer
ends 0 'examples, large' $'pass lasso\n' '' "$check" field.case field.answer
"$root/examples/rounds" k1 3 >three.acts
"$root/examples/rounds" k1 4 >four.acts
ends 1 'examples, three rounds' $'refusal 10\nverdict none\nacts 6\nsent 3\ndelivered 3\njoined 0\n' "looplist: acts: $(rule 10)"$'\n' "$list" k1 three.acts
ends 0 'examples, four rounds' "$done_1" '' "$list" k1 four.acts
survey=$root/examples/survey
ends 0 'examples, a chart' $'pass\n' '' "$charts" "$survey.chart"
ends 1 'examples, a chart with a gap' $'refused 18\nmode 2\nflags 2\n' $'mode Survey, flags 0010: no rule\n'"chartcheck: chart: $(rule 18)"$'\n' \
    "$charts" "$survey-gap.chart"
ends 1 'examples, a chart with an overlap' $'refused 19\nmode 2\nflags 5\n' $'mode Survey, flags 0101: more than one rule\n'"chartcheck: chart: $(rule 19)"$'\n' \
    "$charts" "$survey-overlap.chart"

# README.md's commands for a dealer, just as they stand there, from a folder with a bin/ and an examples/; what it says that the
# last one prints; and the files that they leave.
in_readme() { # N: of the README's indented parts, the N-th from the one with casebuild on
    awk -v n="$1" '
        /^    bin\/casebuild / { found = 1 }
        found && /^    / { if (!inside) part++; inside = 1; if (part == n) print substr($0, 5) }
        !/^    / { inside = 0 }
    ' "$root/README.md"
}
mkdir dealer
ln -s "$scripts" dealer/bin
ln -s "$root/examples" dealer/examples
in_readme 1 >dealer/commands
trial 'README.md, the steps' "$photo_steps" '' in_readme 2
ends 0 'README.md, the commands' "$photo_steps" '' in_folder dealer sh -e commands
trial 'README.md, the case' "$(cat "$root/examples/photo-gusts.case")"$'\n' '' cat dealer/case
trial 'README.md, the answer' "$photo_answer" '' cat dealer/answer
