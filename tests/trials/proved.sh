# The proved programs as they stand in target/bin: they always end with status 0, and what they print says all.
# shellcheck shell=bash disable=SC2154,SC2034

find_in() { # NAME OUTPUT CASE: what loopfind prints of the file
    input=$3
    trial "loopfind, $1" "$2" '' "$programs/loopfind"
    input=/dev/null
}

check_of() { # NAME OUTPUT CASE ANSWER
    trial "loopcheck, $1" "$2" '' "$programs/loopcheck" "$3" "$4"
}

check_fails() { # NAME ERRORS ARGUMENT...
    local name=$1 errors=$2
    shift 2
    trial "loopcheck, $name" '' "$errors" "$programs/loopcheck" "$@"
}

list_of() { # NAME OUTPUT CASE ACTS
    trial "looplist, $1" "$2" '' "$programs/looplist" "$3" "$4"
}

list_fails() { # NAME ERRORS ARGUMENT...
    local name=$1 errors=$2
    shift 2
    trial "looplist, $name" '' "$errors" "$programs/looplist" "$@"
}

claim_in() { # NAME OUTPUT CLAIM: what claimcheck prints of the file
    input=$3
    trial "claimcheck, $1" "$2" '' "$programs/claimcheck"
    input=/dev/null
}

chart_of() { # NAME OUTPUT ERRORS CHART: what chartcheck prints of the file, and says of its bad pair
    trial "chartcheck, $1" "$2" "$3" "$programs/chartcheck" "$4"
}

chart_fails() { # NAME ERRORS ARGUMENT...
    local name=$1 errors=$2
    shift 2
    trial "chartcheck, $name" '' "$errors" "$programs/chartcheck" "$@"
}

build_of() { # NAME OUTPUT CHART CLAIM WORKERS
    trial "casebuild, $1" "$2" '' "$programs/casebuild" "$3" "$4" "$5"
}

build_fails() { # NAME ERRORS ARGUMENT...
    local name=$1 errors=$2
    shift 2
    trial "casebuild, $name" '' "$errors" "$programs/casebuild" "$@"
}

steps_of() { # NAME OUTPUT CHART CLAIM ANSWER
    trial "loopsteps, $1" "$2" '' "$programs/loopsteps" "$3" "$4" "$5"
}

steps_fail() { # NAME ERRORS ARGUMENT...
    local name=$1 errors=$2
    shift 2
    trial "loopsteps, $name" '' "$errors" "$programs/loopsteps" "$@"
}

find_in K1 "$lasso_1" k1
find_in K2 "$empty_2" k2
find_in K3 "$lasso_3" k3
find_in K4 "$lasso_3" k4
find_in K5 "$source_only" k5
find_in K6 "$source_only" k6
find_in K8 "$lasso_1" k8
find_in 'K10, of a newer version' $'refused 3\n' k10
find_in K11 $'refused 8\n' k11
find_in 'D, three vertices that rest' "$lasso_d" d

# ---- loopfind: files that are cut, too long or at a limit

file torn.0 ''
file torn.1 versio
head -c -1 k1 >torn.2
head -n 8 k1 >torn.3
sed 's/$/\r/' k1 >returns
{ cat k1; echo; } >more.lines
{ cat k4; head -c 65536 /dev/zero; } | head -c 65536 >long.65536
{ cat k4; head -c 65537 /dev/zero; } | head -c 65537 >long.65537
{ cat k4; head -c 1000000 /dev/zero; } >long.1000000
find_in 'an empty file' $'refused 2\n' torn.0
find_in 'torn in its first word' $'refused 2\n' torn.1
find_in 'torn before its last line feed' $'refused 4\n' torn.2
find_in 'torn between two lines' $'refused 4\n' torn.3
find_in 'carriage returns' $'refused 4\n' returns
find_in 'an empty line at the end' $'refused 4\n' more.lines
find_in '65,536 bytes' $'refused 4\n' long.65536
find_in '65,537 bytes' $'refused 1\n' long.65537
find_in 'a million bytes' $'refused 1\n' long.1000000

# A case of so many vertices, edges (the first of the complete graph) and workers, none accepting.
sized() { # VERTICES EDGES WORKERS
    printf '%s1 %d %d 0 %d\nvertex accepting owner\n' "$names" "$1" "$2" "$3"
    awk -v n="$1" -v m="$2" -v p="$3" 'BEGIN {
        for (v = 0; v < n; v++) print v, 0, v % p
        print "from to"
        for (e = 0; e < m; e++) print int(e / n), e % n
    }'
}
sized 500 2000 16 >full
sized 500 0 1 >vertices.500
sized 501 0 1 >vertices.501
sized 500 2001 1 >edges.2001
sized 500 2000 17 >workers.17
all_reached=$answers$'2 empty 0 0 500\nvertex distance\n'$(awk 'BEGIN { for (v = 0; v < 500; v++) print v, 0 }')$'\n'
find_in '500 vertices, 2,000 edges, 16 workers' "$all_reached" full
find_in '500 vertices, no edge' "$source_only" vertices.500
sed 's/^499 0 3$/499 1 3/' full >edited
find_in '2,000 edges and 496 that rest, the last one accepting' "$answers"$'2 lasso 1 1 0\nedge\n499\n2495\n' edited
sed 's/^0 0 0$/0 1 0/' vertices.500 >edited
find_in '500 vertices that rest, the source accepting' "$lasso_3" edited
find_in '501 vertices' $'refused 5\n' vertices.501
find_in '2,001 edges' $'refused 5\n' edges.2001
find_in '17 workers' $'refused 5\n' workers.17

# ---- loopfind: how it is called

slowly() { { head -c 50 k1; sleep 0.2; tail -c +51 k1; } | "$@"; }
without_input() { "$@" <&-; }
into_full() { "$@" >/dev/full; }
trial 'loopfind, a pipe that comes in parts' "$lasso_1" '' slowly "$programs/loopfind"
trial 'loopfind, an argument' '' $'usage: loopfind < CASE\n' "$programs/loopfind" k1
trial 'loopfind, no input' '' $'standard input: Bad file descriptor\n' without_input "$programs/loopfind"
input=folder
trial 'loopfind, a folder' '' $'standard input: Is a directory\n' "$programs/loopfind"
input=k1
trial 'loopfind, no room' '' $'standard output: No space left on device\n' into_full "$programs/loopfind"
input=/dev/null

# ---- loopcheck

file a1 "$lasso_1"
file a2 "$empty_2"
file a3 "$lasso_3"
check_of 'K1 and its answer' $'pass lasso\n' k1 a1
check_of 'K2 and its answer' $'pass empty\n' k2 a2
check_of 'K3 and its answer' $'pass lasso\n' k3 a3
file longer "$answers"$'2 lasso 3 4 0\nedge\n0\n1\n2\n1\n2\n1\n2\n'
file raised "$answers"$'2 empty 0 0 3\nvertex distance\n0 7\n1 6\n2 6\n'
check_of 'a longer lasso of another tool' $'pass lasso\n' k1 longer
check_of 'numbers of another tool' $'pass empty\n' k2 raised

sed 's/^2$/3/' a1 >edited
check_of 'an edge that is not there' $'refused 13\n' k1 edited
sed '$s/2/1/' a1 >edited
check_of 'an edge that does not follow' $'refused 13\n' k1 edited
sed 's/^2 -1$/2 0/' a2 >edited
check_of 'a distance too high' $'refused 13\n' k2 edited
sed 's/lasso/loop/' a1 >edited
check_of 'another word' $'refused 12\n' k1 edited
sed 's/ -1$/ -0/' a2 >edited
check_of 'minus zero' $'refused 12\n' k2 edited
head -c -1 a1 >edited
check_of 'a torn answer' $'refused 12\n' k1 edited
{ cat a1; echo; } >edited
check_of 'an empty line at the end' $'refused 12\n' k1 edited
check_of 'the answer to another case' $'refused 13\n' k2 a1
check_of 'an empty answer' $'refused 12\n' k1 torn.0
{ cat a1; head -c 65537 /dev/zero; } >edited
check_of 'an answer too long' $'refused 1\n' k1 edited
head -c 65536 edited >edited.front
check_of 'an answer of 65,536 bytes' $'refused 12\n' k1 edited.front
check_of 'a case too long' $'refused 1\n' long.65537 a1
check_of 'a bad case before a bad answer' $'refused 8\n' k11 torn.0
check_of 'the two files swapped' $'refused 3\n' a1 k1

# ---- loopcheck: versions of answers, and rest loops

in_version() { # VERSION ANSWER: the answer in the file, as one of another version
    sed "2s/^2 /$1 /" "$2" >edited
}
for version in 1 2; do
    in_version "$version" a1
    check_of "K1 and its answer of version $version" $'pass lasso\n' k1 edited
    in_version "$version" a2
    check_of "K2 and its answer of version $version" $'pass empty\n' k2 edited
done
in_version 1 a1
check_of 'the two files swapped, version 1' $'refused 4\n' edited k1
for version in 0 3 10 999999999; do
    in_version "$version" a1
    check_of "version $version" $'refused 3\n' k1 edited
done
for version in 01 02 1000000002 -2 2x ''; do
    in_version "$version" a1
    check_of "version '$version', which is no number" $'refused 12\n' k1 edited
done
in_both() { # NAME FIRST SECOND CASE COUNTS LINES: what is said of an answer of version 1, and of version 2
    file edited "${answers}1 $5"$'\n'"$6"
    check_of "$1, version 1" "$2"$'\n' "$4" edited
    file edited "${answers}2 $5"$'\n'"$6"
    check_of "$1, version 2" "$3"$'\n' "$4" edited
}
in_both 'K4 and its rest loop' 'refused 13' 'pass lasso' k4 'lasso 0 1 0' $'edge\n0\n'
in_both 'K4 without its rest loop' 'pass empty' 'refused 13' k4 'empty 0 0 1' $'vertex distance\n0 0\n'
in_both 'K6, whose source rests' 'pass empty' 'pass empty' k6 'empty 0 0 1' $'vertex distance\n0 0\n'
in_both 'K6 and a loop that does not accept' 'refused 13' 'refused 13' k6 'lasso 0 1 0' $'edge\n1\n'
in_both 'D and its answer' 'refused 13' 'pass lasso' d 'lasso 1 1 0' $'edge\n0\n2\n'
in_both 'D and another loop' 'refused 13' 'refused 13' d 'lasso 1 1 0' $'edge\n0\n3\n'
in_both 'D and an edge past its loops' 'refused 13' 'refused 13' d 'lasso 1 1 0' $'edge\n0\n4\n'
in_both 'D and a loop, torn' 'refused 13' 'refused 12' d 'lasso 1 1 0' $'edge\n0\n2\n0'
in_both 'D without its rest loop' 'pass empty' 'refused 13' d 'empty 0 0 2' $'vertex distance\n1 0\n2 0\n'
file far.rest "$names"$'1 2 1 0 1\nvertex accepting owner\n0 0 0\n1 1 0\nfrom to\n0 0\n'
find_in 'one that rests out of reach' "$source_only" far.rest
in_both 'one that rests out of reach' 'pass empty' 'pass empty' far.rest 'empty 0 0 1' $'vertex distance\n0 0\n'
in_both 'the same, listed' 'pass empty' 'refused 13' far.rest 'empty 0 0 2' $'vertex distance\n0 0\n1 0\n'

usage=$'usage: loopcheck CASE ANSWER\n'
check_fails 'no argument' "$usage"
check_fails 'one argument' "$usage" k1
check_fails 'three arguments' "$usage" k1 a1 a1
check_fails 'no such case' $'missing: No such file or directory\n' missing a1
check_fails 'no such answer' $'missing: No such file or directory\n' k1 missing
check_fails 'neither file' $'missing.case: No such file or directory\n' missing.case missing.answer
check_fails 'a folder for the case' $'folder: Is a directory\n' folder a1
check_fails 'a folder for the answer' $'folder: Is a directory\n' k1 folder
check_fails 'a name without letters' $': No such file or directory\n' '' a1
check_fails 'a name too long' $'file name: File name too long\n' k1 "$(printf '%05000d' 0)"
check_fails 'a file below a file' $'k1/a1: Not a directory\n' k1 k1/a1
cp a1 $'n\xff'
check_fails 'a name that is no UTF-8 text' $'n\xff: Invalid or incomplete multibyte or wide character\n' k1 $'n\xff'

# ---- looplist: what an order does

acts() { printf '%s\n' "$@"; }
acts 0 2 1 3 0 4 1 3 >whole
acts 1 0 0 2 4 1 3 0 4 1 3 >idle
acts 0 2 1 3 0 4 1 3 0 1 2 >beyond
acts 0 2 1 3 0 4 1 >short
acts 2 >k9
acts 0 2 1 3 0 4 1 3 5 >out
acts 999999999 >far
acts 0 1 2 3 4 0 1 2 3 4 0 1 2 3 4 >rounds
acts 0 >first
acts 0 3 1 5 0 >joining
acts 0 0 0 >turns
acts 0 0 1 >past.k4

done_1=$'refusal 0\nverdict lasso\nacts 8\nsent 4\ndelivered 4\njoined 0\n'$lasso_1
# What follows the refusal where no act was done.
undone=$'verdict none\nacts 0\nsent 0\ndelivered 0\njoined 0\n'
list_of 'K1, acts that each do something' "$done_1" k1 whole
list_of 'K1, idle acts between' "$done_1" k1 idle
list_of 'K1, acts after the end' "$done_1" k1 beyond
list_of 'K2, three rounds' $'refusal 0\nverdict empty\nacts 6\nsent 3\ndelivered 3\njoined 0\n'"$empty_2" k2 rounds
list_of 'K1, one act too few' $'refusal 10\nverdict none\nacts 7\nsent 4\ndelivered 3\njoined 0\n' k1 short
list_of 'K1, a message that waits' $'refusal 10\nverdict none\nacts 1\nsent 1\ndelivered 0\njoined 0\n' k1 first
list_of 'J, an offer that joins' $'refusal 10\nverdict none\nacts 5\nsent 6\ndelivered 2\njoined 1\n' j joining
list_of 'D, three turns' $'refusal 0\nverdict lasso\nacts 3\nsent 0\ndelivered 0\njoined 0\n'"$lasso_d" d turns
list_of 'D, one turn' $'refusal 10\nverdict none\nacts 1\nsent 0\ndelivered 0\njoined 0\n' d first
list_of 'D, a delivery on a rest loop' $'refusal 9\n'"$undone" d k9
list_of 'K4, two turns' $'refusal 0\nverdict lasso\nacts 2\nsent 0\ndelivered 0\njoined 0\n'"$lasso_3" k4 turns
list_of 'K4, a delivery on its rest loop' $'refusal 9\n'"$undone" k4 past.k4
list_of 'K7, no acts' $'refusal 10\n'"$undone" k1 torn.0
list_of 'K9, one idle act' $'refusal 10\n'"$undone" k1 k9
list_of 'K1, an act out of range after the end' $'refusal 9\n'"$undone" k1 out
list_of 'K1, an act far out of range' $'refusal 9\n'"$undone" k1 far
list_of 'a case of a newer version' $'refusal 3\n'"$undone" k10 whole
list_of 'a case too long' $'refusal 1\n'"$undone" long.65537 whole
list_of 'an empty case before an act out of range' $'refusal 2\n'"$undone" torn.0 far

# ---- looplist: lists that are none

bad_line() { # NAME LINE BYTES
    file bad "$3"
    list_fails "$1" "bad: line $2: expected an act, a number of 1 to 9 digits without leading zeros, and a line feed"$'\n' k1 bad
}
bad_line 'an empty line' 2 $'0\n\n2\n'
bad_line 'an empty line at the end' 3 $'0\n2\n\n'
bad_line 'a word' 1 $'turn\n'
bad_line 'a sign' 1 $'-1\n'
bad_line 'a leading zero' 3 $'0\n2\n01\n'
bad_line 'ten digits' 2 $'0\n1000000000\n'
bad_line 'two numbers on a line' 1 $'0 2\n'
bad_line 'a space before' 1 $' 0\n'
bad_line 'a space behind' 1 $'0 \n'
bad_line 'a carriage return' 1 $'0\r\n2\r\n'
bad_line 'no line feed at the end' 2 $'0\n2'
bad_line 'the first of two bad lines' 2 $'0\nx\ny\n'
list_fails 'a bad list before a bad case' $'bad: line 2: expected an act, a number of 1 to 9 digits without leading zeros, and a line feed\n' k10 bad

same() { awk -v n="$1" -v s="$2" 'BEGIN { for (i = 0; i < n; i++) print s }'; }
for line in 9 10 99 100; do
    bad_line "line $line is bad" "$line" "$(same $((line - 1)) 0)"$'\nx\n'
done
same 400000 0 >most
same 400001 0 >too.many
same 400000 999999999 >most.wide
same 400001 999999999 >too.many.wide
{ same 399999 0; echo x; } >last.bad
head -c 4100000 /dev/zero | tr '\0' 7 >one.line
list_of '400,000 acts' $'refusal 10\nverdict none\nacts 1\nsent 1\ndelivered 0\njoined 0\n' k1 most
list_of '400,000 acts of nine digits' $'refusal 9\n'"$undone" k1 most.wide
list_fails '400,001 acts' $'too.many: more than 400000 acts\n' k1 too.many
list_fails '400,001 acts of nine digits' $'too.many.wide: more than 400000 acts\n' k1 too.many.wide
list_fails 'line 400,000 is bad' $'last.bad: line 400000: expected an act, a number of 1 to 9 digits without leading zeros, and a line feed\n' k1 last.bad
list_fails 'one line without end' $'one.line: line 1: expected an act, a number of 1 to 9 digits without leading zeros, and a line feed\n' k1 one.line

usage=$'usage: looplist CASE ACTS\n'
list_fails 'no argument' "$usage"
list_fails 'one argument' "$usage" k1
list_fails 'three arguments' "$usage" k1 whole whole
list_fails 'no such case' $'missing: No such file or directory\n' missing whole
list_fails 'no such list' $'missing: No such file or directory\n' k1 missing
list_fails 'a folder for the list' $'folder: Is a directory\n' k1 folder

# ---- claimcheck

counts=$'states start propositions\n' states=$'state accepting name\n'
file claim $'HOA: v1\nStates: 2\nStart: 0\nAP: 2 "low" "late"\nAcceptance: 1 Inf(0)\n--BODY--\nState: 0 "hold" {0}\n[0 & !1] 0\n[1] 1\nState: 1\n[t] 1\n--END--\n'
shown_claim=$counts$'2 0 2\n'$states$'0 1 hold\n1 0\n'
claim_in 'a named state and one without a name' "$shown_claim" claim
one_state() { # NAME: a claim of one state, by what stands between its number and its edge
    file named "HOA: v1 States: 1 Start: 0 Acceptance: 1 Inf(0) --BODY-- State: 0 $1 [t] 0 --END--"
}
one_state ''
claim_in 'no name' "${counts}1 0 0"$'\n'"$states"$'0 0\n' named
one_state '""'
claim_in 'an empty name' "${counts}1 0 0"$'\n'"$states"$'0 0 \n' named
one_state '"a\"b c" {0 0}'
claim_in 'a name as stored' "${counts}1 0 0"$'\n'"$states"$'0 1 a\\"b c\n' named
one_state '"'"$(printf '%032d' 0)"'" {}'
claim_in 'a name of 32 bytes' "${counts}1 0 0"$'\n'"$states"'0 0 '"$(printf '%032d' 0)"$'\n' named
one_state '"'"$(printf '%033d' 0)"'"'
claim_in 'a name of 33 bytes' $'refused 15\n' named

# The states from the last to the first, each with a name of 32 bytes; the odd ones accept.
largest() { # STATES
    printf 'HOA: v1\nAP: 8 "a" "b" "c" "d" "e" "f" "g" "h"\nStates: %d\nStart: %d\nAcceptance: 1 Inf(0)\n--BODY--\n' "$1" $(($1 - 1))
    awk -v n="$1" 'BEGIN { for (c = n - 1; c >= 0; c--) printf "State: %d \"%032d\" %s\n[t] 0\n", c, c, c % 2 ? "{0}" : "" }'
    echo '--END--'
}
largest 15 >states.15
largest 16 >states.16
claim_in '15 states and 8 propositions' "${counts}15 14 8"$'\n'"$states$(awk 'BEGIN { for (c = 0; c < 15; c++) printf "%d %d %032d\n", c, c % 2, c }')"$'\n' states.15
claim_in '16 states' $'refused 15\n' states.16

{ cat claim; head -c 16384 /dev/zero | tr '\0' ' '; } >spaced
head -c 16384 spaced >spaced.16384
head -c 16385 spaced >spaced.16385
head -n 11 claim >torn.claim
file comment 'HOA: v1 /* */'
claim_in 'an empty file' $'refused 14\n' torn.0
claim_in 'a case' $'refused 14\n' k1
claim_in 'torn before its last line' $'refused 15\n' torn.claim
claim_in '16,384 bytes' "$shown_claim" spaced.16384
claim_in '16,385 bytes' $'refused 15\n' spaced.16385
claim_in 'a million bytes' $'refused 14\n' long.1000000
claim_in 'a comment' $'refused 16\n' comment

trial 'claimcheck, an argument' '' $'usage: claimcheck < CLAIM\n' "$programs/claimcheck" claim
trial 'claimcheck, no input' '' $'standard input: Bad file descriptor\n' without_input "$programs/claimcheck"
input=folder
trial 'claimcheck, a folder' '' $'standard input: Is a directory\n' "$programs/claimcheck"
input=claim
trial 'claimcheck, no room' '' $'standard output: No space left on device\n' into_full "$programs/claimcheck"
input=/dev/null

# ---- chartcheck: which pair is bad

modes=$'version modes start flags\n' rules=$'mode care value next\n'
faulty=$'refused 17\n'
by_rules() { # NAME OUTPUT ERRORS RULES: a chart of hold, which always climbs, and climb by these rules, on three flags
    file ruled "${modes}1 2 0 3"$'\nname\nhold\nclimb\n'"$rules"$'0 0 0 1\n'"$4"
    chart_of "$1" "$2" "$3" ruled
}
bad_pair() { # NAME REFUSAL MODE FLAGS ERRORS RULES
    by_rules "$1" "refused $2"$'\n'"mode $3"$'\n'"flags $4"$'\n' "$5"$'\n' "$6"
}
by_rules 'a rule for all flags' $'pass\n' '' $'1 0 0 0\n'
cp ruled chart
by_rules 'rules in any order, to any mode' $'pass\n' '' $'1 6 2 1\n1 3 1 0\n1 7 7 1\n1 5 4 0\n1 7 0 1\n'
bad_pair 'no rule' 18 1 4 'mode climb, flags 100: no rule' $'1 4 0 0\n1 5 5 1\n'
bad_pair 'two rules' 19 1 3 'mode climb, flags 011: more than one rule' $'1 4 0 0\n1 4 4 0\n1 3 3 1\n'
bad_pair 'two equal rules' 19 1 0 'mode climb, flags 000: more than one rule' $'1 0 0 0\n1 0 0 0\n'
bad_pair 'three rules' 19 1 7 'mode climb, flags 111: more than one rule' $'1 0 0 0\n1 7 7 0\n1 7 7 1\n'
bad_pair 'two rules, and then none' 19 1 1 'mode climb, flags 001: more than one rule' $'1 4 0 0\n1 5 1 0\n'
bad_pair 'none, and then two rules' 18 1 0 'mode climb, flags 000: no rule' $'1 1 1 0\n1 3 3 0\n'
bad_pair 'a mode without a rule' 18 1 0 'mode climb, flags 000: no rule' ''
bad_pair 'a bad pair of a mode before' 19 0 2 'mode hold, flags 010: more than one rule' $'1 1 1 0\n0 3 2 0\n'
by_rules 'two rules, and then a fault' "$faulty" '' $'1 0 0 0\n1 0 0 0\n1 0 0 2\n'
file none "${modes}1 1 0 2"$'\nname\nLand\n'"$rules"
chart_of 'no rules at all' $'refused 18\nmode 0\nflags 0\n' $'mode Land, flags 00: no rule\n' none
file apart "${modes}1 3 0 1"$'\nname\nHold\nClimb\nLand\n'"$rules"$'0 0 0 0\n2 0 0 2\n'
chart_of 'a mode that no rule leads to' $'refused 18\nmode 1\nflags 0\n' $'mode Climb, flags 0: no rule\n' apart

# ---- chartcheck: rules, names and counts that are none

for line in '1 8 0 0' '1 0 1 0' '1 3 4 0' '1 4 5 0' '2 0 0 0' '1 0 0 2' '1 0 0' '1 0 0 0 0' '1 0  0 0' ' 1 0 0 0' '1 0 0 0 ' \
    $'1 0 0 0\r' $'1\t0 0 0' '1 0 0 00' '1 0 0 -0' '1 0 0 +0' '1 0 0 0x' '1 1000000000 0 0' '1 4294967296 0 0' ''; do
    by_rules "the rule '$line'" "$faulty" '' "$line"$'\n'
done
by_rules 'an empty line at the end' "$faulty" '' $'1 0 0 0\n\n'
by_rules 'an empty line between' "$faulty" '' $'1 1 0 0\n\n1 1 1 0\n'
by_rules 'a byte after the last line feed' "$faulty" '' $'1 0 0 0\n1'

by_name() { # NAME OUTPUT ERRORS NAME RULES: a chart of one mode and eight flags
    file called "${modes}1 1 0 8"$'\nname\n'"$4"$'\n'"$rules$5"
    chart_of "$1" "$2" "$3" called
}
by_name 'a name of 1 byte' $'pass\n' '' 7 $'0 0 0 0\n'
by_name 'a name of 16 bytes' $'refused 19\nmode 0\nflags 130\n' $'mode azAZ09azAZ09azAZ, flags 10000010: more than one rule\n' \
    azAZ09azAZ09azAZ $'0 0 0 0\n0 255 130 0\n'
for name in '' azAZ09azAZ09azAZ0 a-b 'a b' a_b '/' ':' '@' '[' '`' '{' é ' a' 'a ' $'a\r'; do
    by_name "the name '$name'" "$faulty" '' "$name" $'0 0 0 0\n'
done
file equal "${modes}1 2 1 1"$'\nname\nHold\nHold\n'"$rules"$'0 0 0 1\n1 1 0 0\n'
chart_of 'equal names' $'refused 18\nmode 1\nflags 1\n' $'mode Hold, flags 1: no rule\n' equal

by_head() { # OUTPUT LINE: a chart with this line 2, two modes and a rule for each
    file headed "$modes$2"$'\nname\nHold\nLand\n'"$rules"$'0 0 0 1\n1 0 0 1\n'
    chart_of "line 2 is '$2'" "$1" '' headed
}
for line in '1 2 0 1' '1 2 1 8'; do by_head $'pass\n' "$line"; done
for line in '2 2 0 1' '0 2 0 1' '01 2 0 1' '1 2 2 1' '1 2 0 0' '1 2 0 9' '1 1 0 1' '1 3 0 1' '1 0 0 1' '1 2 0' '1 2 0 1 0' \
    '1  2 0 1' '1 2 0 1 ' '1 2 0 1000000000' ''; do
    by_head "$faulty" "$line"
done

# ---- chartcheck: files that are cut, too long or at a limit

# A chart of so many modes and flags by so many rules for one pair each, from the first pair on.
by_pairs() { # MODES FLAGS RULES
    printf '%s1 %d %d %d\nname\n' "$modes" "$1" $(($1 - 1)) "$2"
    awk -v m="$1" -v k="$2" -v n="$3" 'BEGIN {
        for (q = 0; q < m; q++) print "M" q
        print "mode care value next"
        for (i = 0; i < n; i++) print int(i / 2 ^ k), 2 ^ k - 1, i % 2 ^ k, m - 1
    }'
}
by_pairs 2 8 512 >rules.512
by_pairs 2 8 511 >rules.511
{ cat rules.512; echo 1 255 255 0; } >rules.513
by_pairs 32 4 512 >modes.32
by_pairs 32 4 511 >modes.32.gap
by_pairs 33 3 264 >modes.33
by_pairs 1 9 512 >flags.9
{ cat none; same 512 '0 0 0 0'; } >equal.512
{ cat equal.512; echo 0 0 0 0; } >equal.513
chart_of '512 rules, 8 flags' $'pass\n' '' rules.512
chart_of '511 rules' $'refused 18\nmode 1\nflags 255\n' $'mode M1, flags 11111111: no rule\n' rules.511
chart_of '513 rules' "$faulty" '' rules.513
chart_of '32 modes' $'pass\n' '' modes.32
chart_of '32 modes, the last pair' $'refused 18\nmode 31\nflags 15\n' $'mode M31, flags 1111: no rule\n' modes.32.gap
chart_of '33 modes' "$faulty" '' modes.33
chart_of '9 flags' "$faulty" '' flags.9
chart_of '512 equal rules' $'refused 19\nmode 0\nflags 0\n' $'mode Land, flags 00: more than one rule\n' equal.512
chart_of '513 equal rules' "$faulty" '' equal.513

# The chart has 8 lines: line 7 is the rule for hold, and line 8 the one for climb.
for lines in 1 2 3 4 5; do
    head -n "$lines" chart >torn.chart
    chart_of "torn after line $lines" "$faulty" '' torn.chart
    head -c -1 torn.chart >torn.line
    chart_of "torn before the end of line $lines" "$faulty" '' torn.line
done
head -n 6 chart >torn.chart
chart_of 'torn after its last names' $'refused 18\nmode 0\nflags 0\n' $'mode hold, flags 000: no rule\n' torn.chart
head -c -1 torn.chart >torn.line
chart_of 'torn before the end of its last names' "$faulty" '' torn.line
head -n 7 chart >torn.chart
chart_of 'torn between two rules' $'refused 18\nmode 1\nflags 0\n' $'mode climb, flags 000: no rule\n' torn.chart
head -c -1 chart >torn.line
chart_of 'torn before its last line feed' "$faulty" '' torn.line
sed 's/$/\r/' chart >edited
chart_of 'carriage returns' "$faulty" '' edited
{ echo; cat chart; } >edited
chart_of 'an empty line at the front' "$faulty" '' edited
for line in 1 3 6; do
    sed "${line}s/\$/ /" chart >edited
    chart_of "a space behind the names on line $line" "$faulty" '' edited
done
{ cat chart; head -c 65536 /dev/zero; } | head -c 65536 >chart.65536
{ cat chart; same 8200 '1 0 0 0'; } | head -c 65536 >rules.65536
{ cat chart; same 8200 '1 0 0 0'; } | head -c 65537 >rules.65537
chart_of 'an empty file' "$faulty" '' torn.0
chart_of 'a case' "$faulty" '' k1
chart_of '65,536 bytes' "$faulty" '' chart.65536
chart_of '65,536 bytes of rules' "$faulty" '' rules.65536
chart_of '65,537 bytes of rules' "$faulty" '' rules.65537
chart_of 'a million bytes' "$faulty" '' long.1000000

# ---- chartcheck: how it is called

usage=$'usage: chartcheck CHART\n'
chart_fails 'no argument' "$usage"
chart_fails 'two arguments' "$usage" chart chart
chart_fails 'no such file' $'missing: No such file or directory\n' missing
chart_fails 'a folder' $'folder: Is a directory\n' folder
chart_fails 'a name without letters' $': No such file or directory\n' ''
chart_fails 'a name too long' $'file name: File name too long\n' "$(printf '%05000d' 0)"
chart_fails 'a file below a file' $'chart/chart: Not a directory\n' chart/chart
chart_fails 'no file named -' $'-: No such file or directory\n' -
trial 'chartcheck, no room' '' $'standard output: No space left on device\n' into_full "$programs/chartcheck" chart
trial 'chartcheck, a bad pair and no room' '' $'standard output: No space left on device\nmode Land, flags 00: no rule\n' \
    into_full "$programs/chartcheck" none

# ---- casebuild: what is built

# A claim on standard output. A proposition has no letter in its name: names of propositions mean nothing.
hoa() { # STATES START PROPOSITIONS BODY
    printf 'HOA: v1\nStates: %d\nStart: %d\nAP: %d%s\nAcceptance: 1 Inf(0)\n--BODY--\n%s--END--\n' \
        "$1" "$2" "$3" "$(same "$3" ' ""' | tr -d '\n')" "$4"
}
marks=$'vertex accepting owner\n'
duo=$modes$'1 2 0 2\nname\nHold\nClimb\n'$rules
file duo "$duo"$'0 1 1 1\n0 1 0 0\n1 1 1 1\n1 1 0 0\n'
hoa 2 0 2 $'State: 0 "watch"\n[t] 0\n[!1] 1\nState: 1 {0}\n[!1] 1\n' >watch
duo_edges=$'from to\n0 0\n0 1\n0 2\n0 3\n1 1\n1 3\n2 0\n2 1\n2 2\n2 3\n3 1\n3 3\n'
built_1="${names}1 4 12 0 1"$'\n'"$marks"$'0 0 0\n1 1 0\n2 0 0\n3 1 0\n'$duo_edges
built_2="${names}1 4 12 0 2"$'\n'"$marks"$'0 0 0\n1 1 1\n2 0 0\n3 1 1\n'$duo_edges
build_of 'an example' "$built_2" duo watch 2
build_of '1 worker' "$built_1" duo watch 1
build_of '3 workers' "${names}1 4 12 0 3"$'\n'"$marks"$'0 0 0\n1 1 1\n2 0 2\n3 1 0\n'"$duo_edges" duo watch 3
build_of '16 workers' "${names}1 4 12 0 16"$'\n'"$marks"$'0 0 0\n1 1 1\n2 0 2\n3 1 3\n'"$duo_edges" duo watch 16

# Three modes and two states, both starts the last ones, and the states listed from the last to the first.
file trio "${modes}1 3 2 1"$'\nname\nA\nB\nC\n'"$rules"$'0 0 0 1\n1 1 0 1\n1 1 1 2\n2 1 1 0\n2 1 0 2\n'
hoa 2 1 1 $'State: 1 "wait"\n[!0] 1\n[0] 0\nState: 0 "on" {0}\n[0] 0\n' >waiting
build_of 'starts that are not 0' "${names}1 6 9 5 4"$'\n'"$marks"$'0 1 0\n1 0 1\n2 1 2\n3 0 3\n4 1 0\n5 0 1
from to\n0 2\n1 2\n1 3\n2 4\n3 3\n3 4\n4 0\n5 0\n5 5\n' trio waiting 4

file one "${modes}1 1 0 1"$'\nname\na\n'"$rules"$'0 0 0 0\n'
for edges in '' '[f] 0' '[0 & !0] 0'; do
    hoa 1 0 1 "State: 0 {0} $edges"$'\n' >dead
    build_of "a state with '$edges' alone" "${names}1 1 0 0 1"$'\n'"$marks"$'0 0 0\nfrom to\n' one dead 1
done
hoa 1 0 1 $'State: 0 [!0] 0 [0] 0 [t] 0 [t] 0\n' >often
build_of 'an edge that is allowed often' "${names}1 1 1 0 1"$'\n'"$marks"$'0 0 0\nfrom to\n0 0\n' one often 1

# Flag 7 leads from A to B; each label is true on one combination of all.
file eight "${modes}1 2 0 8"$'\nname\nA\nB\n'"$rules"$'0 128 0 0\n0 128 128 1\n1 0 0 1\n'
hoa 1 0 8 $'State: 0 [!0 & !1 & !2 & !3 & !4 & !5 & !6 & !7] 0\n' >all.off
hoa 1 0 8 $'State: 0 [0 & 1 & 2 & 3 & 4 & 5 & 6 & 7] 0\n' >all.on
hoa 1 0 8 $'State: 0 [0 & !1 & 2 & !3 & 4 & !5 & 6 & !7] 0\n' >some.on
two_modes="${names}1 2 2 0 1"$'\n'"$marks"$'0 0 0\n1 0 0\nfrom to\n'
build_of 'the first combination alone' "$two_modes"$'0 0\n1 1\n' eight all.off 1
build_of 'the last combination alone' "$two_modes"$'0 1\n1 1\n' eight all.on 1
build_of 'a combination between' "$two_modes"$'0 0\n1 1\n' eight some.on 1

# ---- casebuild: cases at a limit

# A chart of so many modes on three flags. The last S of them have N next modes each, and those before them one more; these
# are the first ones, and the last of them stands for the combinations that are left.
spread() { # MODES N S
    printf '%s1 %d 0 3\nname\n' "$modes" "$1"
    awk -v m="$1" -v n="$2" -v s="$3" 'BEGIN {
        for (q = 0; q < m; q++) print "M" q
        print "mode care value next"
        for (q = 0; q < m; q++) for (f = 0; f < 8; f++) {
            most = q < m - s ? n : n - 1
            print q, 7, f, f < most ? f : most
        }
    }'
}
# The body of a claim of 10 states with the first of all edges between them, each twice.
between() { # EDGES
    awk -v n="$1" 'BEGIN {
        for (c = 0; c < 10; c++) {
            print "State: " c (c == 9 ? " {0}" : "")
            for (d = 0; d < 10; d++) if (10 * c + d < n) print "[t] " d "\n[0 | !0] " d
        }
    }'
}
spread 5 4 5 >next.20
spread 5 4 2 >next.23
hoa 10 0 3 "$(between 100)"$'\n' >edges.100
hoa 10 0 3 "$(between 87)"$'\n' >edges.87
most_edges=$(awk 'BEGIN {
    print "1 50 2000 0 7\nvertex accepting owner"
    for (v = 0; v < 50; v++) print v, v % 10 == 9, v % 7
    print "from to"
    for (v = 0; v < 50; v++) for (w = 0; w < 40; w++) print v, w
}')
build_of '20 × 100 = 2,000 edges' "$names$most_edges"$'\n' next.20 edges.100 7
build_of '23 × 87 = 2,001 edges' $'refused 21\n' next.23 edges.87 7

# Each mode leads to the next one, and the last to the first.
ring() { # MODES FLAGS
    printf '%s1 %d %d %d\nname\n' "$modes" "$1" $(($1 - 1)) "$2"
    awk -v m="$1" 'BEGIN {
        for (q = 0; q < m; q++) printf "%016d\n", q
        print "mode care value next"
        for (q = 0; q < m; q++) print q, 0, 0, (q + 1) % m
    }'
}
# Every state of the claim leads to state 0, so of each mode only that one is reached, and of the last mode state 14 too.
ring 32 8 >ring.32
most_vertices=$(awk 'BEGIN {
    print "1 480 480 479 16\nvertex accepting owner"
    for (v = 0; v < 480; v++) print v, v % 15 % 2, v % 16
    print "from to"
    for (v = 0; v < 480; v++) print v, (int(v / 15) + 1) % 32 * 15
}')
in_reach=$(awk 'BEGIN { for (q = 0; q < 32; q++) print q * 15, 0; print 479, 0 }')$'\n'
most_reached=$answers$'2 empty 0 0 33\nvertex distance\n'$in_reach
build_of '32 × 15 = 480 vertices' "$names$most_vertices"$'\n' ring.32 states.15 16
"$programs/casebuild" ring.32 states.15 16 >ring.case
find_in 'a case of 480 vertices' "$most_reached" ring.case

build_of 'a claim of 16,384 bytes' "${names}1 4 10 0 1"$'\n'"$marks"$'0 1 0\n1 0 0\n2 1 0\n3 0 0
from to\n0 1\n0 2\n0 3\n1 1\n1 3\n2 1\n2 2\n2 3\n3 1\n3 3\n' duo spaced.16384 1

# ---- loopsteps: what is listed

lasso_of() { # STEM CYCLE EDGE...: an answer on standard output
    printf '%s2 lasso %d %d 0\nedge\n' "$answers" "$1" "$2"
    printf '%d\n' "${@:3}"
}
file duo.case "$built_2"
file duo.answer "$answers"$'2 lasso 1 1 0\nedge\n1\n4\n'
find_in 'the case of an example' "$answers"$'2 lasso 1 1 0\nedge\n1\n4\n' duo.case
duo_steps=$'Hold watch\nHold 1\n'
steps_of 'an example' "$duo_steps" duo watch duo.answer
in_version 1 duo.answer
steps_of 'an answer of version 1' "$duo_steps" duo watch edited
lasso_of 3 2 0 0 1 4 4 >edited
steps_of 'edges that come again' $'Hold watch\nHold watch\nHold watch\nHold 1\nHold 1\n' duo watch edited
lasso_of 2 2 2 9 10 5 >edited
steps_of 'a lasso by other modes' $'Hold watch\nClimb watch\nClimb 1\nHold 1\n' duo watch edited
lasso_of 1 3 7 0 3 6 >edited
steps_of 'starts that are not 0' $'C wait\nA on\nB on\nC on\n' trio waiting edited

# From accepting states the claim goes on to one that is not, and stays there.
hoa 2 0 2 $'State: 0 {0} [!1] 1\nState: 1 [t] 1\n' >passing
passed=$answers$'2 empty 0 0 3\nvertex distance\n0 0\n1 -1\n3 -1\n'
file passing.answer "$passed"
build_of 'a case without a lasso' "${names}1 4 8 0 2"$'\n'"$marks"$'0 1 0\n1 0 1\n2 1 0\n3 0 1
from to\n0 1\n0 3\n1 1\n1 3\n2 1\n2 3\n3 1\n3 3\n' duo passing 2
"$programs/casebuild" duo passing 2 >passing.case
find_in 'the same' "$passed" passing.case
steps_of 'an empty that passes' '' duo passing passing.answer
file edited "$answers"$'2 empty 0 0 3\nvertex distance\n0 500\n1 -500\n3 -500\n'
steps_of 'numbers of another tool' '' duo passing edited
file most.reached "$most_reached"
steps_of 'an empty of 480 vertices' '' ring.32 states.15 most.reached

# State 1 accepts, but there the claim stops: vertices 1 and 3 rest, by edges 8 and 9, and do not accept.
hoa 2 0 2 $'State: 0 [t] 0 [!1] 1\nState: 1 {0}\n' >stops
stopped=$answers$'2 empty 0 0 4\nvertex distance\n0 0\n1 0\n2 0\n3 0\n'
build_of 'a claim that stops' "${names}1 4 8 0 2"$'\n'"$marks"$'0 0 0\n1 0 1\n2 0 0\n3 0 1
from to\n0 0\n0 1\n0 2\n0 3\n2 0\n2 1\n2 2\n2 3\n' duo stops 2
"$programs/casebuild" duo stops 2 >stops.case
find_in 'the same' "$stopped" stops.case
file stopped "$stopped"
for version in 1 2; do
    in_version "$version" stopped
    steps_of "the same, version $version" '' duo stops edited
    lasso_of 1 1 1 8 >stopping
    in_version "$version" stopping
    steps_of "a loop where the claim stops, version $version" $'refused 13\n' duo stops edited
done

by_state() { # NAME OUTPUT STATE: what is listed of a, and of a claim of one state with this between its number and its mark
    hoa 1 0 1 "State: 0 $3 {0} [t] 0"$'\n' >stated
    steps_of "$1" "$2" one stated a3
}
long_name=$(printf '%032d' 7)
by_state 'no name' $'a 0\n' ''
by_state 'an empty name' $'a \n' '""'
by_state 'a name as stored' $'a a\\"b c\\\\\n' '"a\"b c\\"'
by_state 'a name of two spaces' $'a   \n' '"  "'
by_state 'a name of a tab, a carriage return and a byte above 127' $'a \t\r\xff\n' $'"\t\r\xff"'
by_state 'a name of 32 bytes' "a $long_name"$'\n' "\"$long_name\""
by_state 'a name of 33 bytes' $'refused 15\n' "\"0$long_name\""
hoa 1 0 1 $'State: 0 "0#0" {0} [t] 0\n' | tr '#' '\0' >stated
seen() { "$@" | tr '\0' '#'; }
trial 'loopsteps, a name with a zero byte' $'a 0#0\n' '' seen "$programs/loopsteps" one stated a3

numbered=$(awk 'BEGIN { for (c = 0; c < 15; c++) print "State: " c (c == 14 ? " {0}" : "") " [t] " (c + 1) % 15 }')
hoa 15 0 1 "$numbered"$'\n' >numbers
lasso_of 0 15 {0..14} >edited
steps_of '15 states without names' "$(printf 'a %d\n' {0..14})"$'\n' one numbers edited
ring 1 1 >wide
hoa 1 0 1 "State: 0 \"$long_name\" {0} [t] 0"$'\n' >stated
{ printf '%s2 lasso 500 500 0\nedge\n' "$answers"; same 1000 0; } >edited
steps_of '50,000 bytes' "$(same 1000 "$(printf '%016d' 0) $long_name")"$'\n' wide stated edited
{ printf '%s2 lasso 501 500 0\nedge\n' "$answers"; same 1001 0; } >edited
steps_of '1,001 edges' $'refused 12\n' wide stated edited
lasso_of 0 2 9 360 >edited
steps_of '2,000 edges' $'M0 0\nM0 9\n' next.20 edges.100 edited

# ---- casebuild and loopsteps: the examples, as a dealer uses them

photo=$root/examples/photo.chart gusts=$root/examples/claim-gusts-no-photo.hoa
photo_answer=$answers$'2 lasso 1 2 0\nedge\n2\n10\n5\n'
photo_steps=$'Hold watch\nClimb after calm\nHold after wind\n'
build_and_find() { "$programs/casebuild" "$@" | "$programs/loopfind"; }
build_of 'the example of docs/FORMATS.md' "$(cat "$root/examples/photo-gusts.case")"$'\n' "$photo" "$gusts" 4
for workers in {1..16}; do
    trial "casebuild and loopfind, $workers workers" "$photo_answer" '' build_and_find "$photo" "$gusts" "$workers"
done
file photo.answer "$photo_answer"
steps_of 'the example of docs/FORMATS.md' "$photo_steps" "$photo" "$gusts" photo.answer
trial 'examples, the answer of a chart and a claim' "$photo_answer" '' cat "$root/examples/photo-gusts.answer"
trial 'examples, the steps of a chart and a claim' "$photo_steps" '' cat "$root/examples/photo-gusts.steps"

# ---- casebuild and loopsteps: refusals, and which of two goes first

# No case is built, nor are steps listed whatever the answer is; workers out of range go before all of it.
neither() { # NAME OUTPUT CHART CLAIM
    local answer workers
    build_of "$1" "$2" "$3" "$4" 1
    for workers in 0 17; do build_of "$1, and $workers workers" $'refused 5\n' "$3" "$4" "$workers"; done
    for answer in torn.0 answer.long answer.newer answer.false; do
        steps_of "$1, and $answer" "$2" "$3" "$4" "$answer"
    done
}
{ cat duo.answer; head -c 65537 /dev/zero; } | head -c 65537 >answer.long
sed 's/^2 lasso/3 lasso/' duo.answer >answer.newer
sed 's/^4$/5/' duo.answer >answer.false

duo_rules=$'0 1 1 1\n0 1 0 0\n1 1 0 0\n'
file duo.gap "$duo$duo_rules"$'1 3 1 1\n'
file duo.overlap "$duo$duo_rules"$'1 1 1 1\n1 3 2 1\n'
file duo.faulty "$duo$duo_rules"$'1 1 1 2\n'
duo_gap=$'refused 18\nmode 1\nflags 3\n' duo_overlap=$'refused 19\nmode 1\nflags 2\n'
hoa 1 0 3 $'State: 0 [t] 0\n' >three.flags
hoa 1 0 1 $'State: 0 [t] 0\n' >one.flag
file no.flag 'HOA: v1 States: 1 Start: 0 Acceptance: 1 Inf(0) --BODY-- State: 0 [t] 0 --END--'
head -n 9 watch >claim.15
{ head -n 9 watch; echo '/* */'; } >claim.16
for claim in watch torn.0 claim.15 claim.16 three.flags; do
    neither "a fault in the chart, the claim $claim" "$faulty" duo.faulty "$claim"
    neither "no rule in the chart, the claim $claim" "$duo_gap" duo.gap "$claim"
    neither "two rules in the chart, the claim $claim" "$duo_overlap" duo.overlap "$claim"
done
file edited "$duo$duo_rules"$'1 3 1 2\n'
neither 'a fault, and no rule' "$faulty" edited watch
file edited "$duo$duo_rules"$'1 1 1 1\n1 3 2 2\n'
neither 'a fault, and two rules' "$faulty" edited watch
file edited "$duo$duo_rules"$'0 3 3 0\n'
neither 'two rules, and then none' $'refused 19\nmode 0\nflags 3\n' edited watch
file edited "$duo$duo_rules"$'1 3 3 1\n1 3 2 1\n'
neither 'none, and then two rules' $'refused 18\nmode 1\nflags 1\n' edited watch
neither 'an empty chart and an empty claim' "$faulty" torn.0 torn.0
neither 'the two files swapped' "$faulty" watch duo
neither 'an empty claim' $'refused 14\n' duo torn.0
neither 'a chart for the claim' $'refused 14\n' duo duo
neither 'a torn claim' $'refused 15\n' duo claim.15
neither 'a claim with a comment' $'refused 16\n' duo claim.16
{ cat claim.16; echo 'State: 9'; } >claim.16.15
{ cat claim.15; echo 'State: 9 /* */'; } >claim.15.16
neither 'a comment, and then a fault' $'refused 16\n' duo claim.16.15
neither 'a fault, and then a comment' $'refused 15\n' duo claim.15.16
for claim in no.flag one.flag three.flags; do neither "2 flags, the claim $claim" $'refused 20\n' duo "$claim"; done
neither '3 flags, and a claim for 2' $'refused 20\n' chart watch
sed 's/^HOA:/HOA/' three.flags >edited
neither '2 flags, and what is no claim for 3' $'refused 14\n' duo edited
head -n -1 three.flags >edited
neither '2 flags, and a torn claim for 3' $'refused 15\n' duo edited
sed 's/^HOA: v1/& Alias: @a t/' three.flags >edited
neither '2 flags, and a claim for 3 with an alias' $'refused 16\n' duo edited

neither '2,001 edges' $'refused 21\n' next.23 edges.87
head -n -1 next.23 >edited
neither '2,001 edges, and no rule' $'refused 18\nmode 4\nflags 7\n' edited edges.87
{ cat next.23; echo 3 7 6 0; } >edited
neither '2,001 edges, and two rules' $'refused 19\nmode 3\nflags 6\n' edited edges.87
{ cat next.23; echo 3 7 6 5; } >edited
neither '2,001 edges, and a fault in the chart' "$faulty" edited edges.87
sed 's/^HOA:/HOA/' edges.87 >edited
neither '2,001 edges, and no claim' $'refused 14\n' next.23 edited
head -n -1 edges.87 >edited
neither '2,001 edges, and a torn claim' $'refused 15\n' next.23 edited
{ cat edges.87; echo '/* */'; } >edited
neither '2,001 edges, and a comment' $'refused 16\n' next.23 edited
hoa 10 0 4 "$(between 87)"$'\n' >edited
neither '2,001 edges, and a flag too few' $'refused 20\n' next.23 edited

neither 'a claim of 16,385 bytes' $'refused 15\n' duo spaced.16385
{ cat claim; head -c 1000000 /dev/zero | tr '\0' ' '; } >spaced.1000000
neither 'a claim of a million bytes' $'refused 15\n' duo spaced.1000000
neither 'a million bytes that are no claim' $'refused 14\n' duo long.1000000
{ cat duo; same 8200 '1 0 0 0'; } | head -c 65537 >edited
neither 'a chart of 65,537 bytes' "$faulty" edited watch
neither 'a chart of a million bytes' "$faulty" long.1000000 watch

# ---- loopsteps: answers that do not pass

answer_of() { # NAME REFUSAL: an answer, in the file edited, to the case of duo and watch
    steps_of "$1" "refused $2"$'\n' duo watch edited
}
steps_of 'an empty answer' $'refused 12\n' duo watch torn.0
steps_of '65,537 bytes' $'refused 1\n' duo watch answer.long
steps_of 'a newer version' $'refused 3\n' duo watch answer.newer
steps_of 'a cycle that does not come back' $'refused 13\n' duo watch answer.false
sed 's/^2 lasso/3 lasso/' answer.long >edited
answer_of '65,537 bytes of a newer version' 1
head -c 65536 answer.long >edited
answer_of '65,536 bytes' 12
sed 's/^2 lasso/3 lasso/' answer.false >edited
answer_of 'a newer version, and a cycle that does not come back' 3
sed 's/lasso/loop/' answer.newer >edited
answer_of 'a newer version, and another word' 3
sed 1s/version/Version/ answer.newer >edited
answer_of 'a newer version, and other names' 12
sed 's/^3 lasso/02 lasso/' answer.newer >edited
answer_of 'a version that is no number' 12
{ cat answer.false; echo; } >edited
answer_of 'a cycle that does not come back, and an empty line' 12
head -c -1 duo.answer >edited
answer_of 'a torn answer' 12
sed 's/$/\r/' duo.answer >edited
answer_of 'carriage returns' 12
cp duo.case edited
answer_of 'the case for the answer' 12
lasso_of 1 1 1 12 >edited
answer_of 'an edge that is not there' 13
lasso_of 1 1 4 4 >edited
answer_of 'a walk from elsewhere' 13
lasso_of 1 1 0 0 >edited
answer_of 'a cycle of a state that is not accepting' 13
file edited "$answers"$'2 empty 0 0 4\nvertex distance\n0 0\n1 0\n2 0\n3 0\n'
answer_of 'an empty where there is a lasso' 13
steps_of 'an empty that leaves a vertex out' $'refused 13\n' duo passing a2
steps_of 'the answer to another chart' $'refused 13\n' duo passing duo.answer

# ---- casebuild and loopsteps: how they are called

usage=$'usage: casebuild CHART CLAIM WORKERS\n'
build_fails 'no argument' "$usage"
build_fails 'two arguments' "$usage" duo watch
build_fails 'four arguments' "$usage" duo watch 1 1
for workers in '' x 01 00 1x x1 +1 -1 ' 1' '1 ' 1.0 1000000000 4294967297 18446744073709551617 "$(printf '%05000d' 1)"; do
    build_fails "the workers '${workers:0:20}'" "$usage" duo watch "$workers"
    build_fails "the workers '${workers:0:20}', and no files" "$usage" missing missing "$workers"
done
for workers in 0 17 100 257 65537 999999999; do
    build_of "$workers workers" $'refused 5\n' duo watch "$workers"
    build_of "$workers workers, and no files" $'refused 5\n' missing missing "$workers"
done
usage=$'usage: loopsteps CHART CLAIM ANSWER\n'
steps_fail 'no argument' "$usage"
steps_fail 'two arguments' "$usage" duo watch
steps_fail 'four arguments' "$usage" duo watch duo.answer duo.answer

too_long=$(printf '%05000d' 0)
both_fail() { # NAME ERRORS CHART CLAIM
    build_fails "$1" "$2" "$3" "$4" 1
    steps_fail "$1" "$2" "$3" "$4" duo.answer
}
both_fail 'no such chart' $'missing: No such file or directory\n' missing watch
both_fail 'no such claim' $'missing: No such file or directory\n' duo missing
both_fail 'neither chart nor claim' $'missing.chart: No such file or directory\n' missing.chart missing.claim
both_fail 'an empty chart, and no such claim' $'missing: No such file or directory\n' torn.0 missing
both_fail 'a folder for the chart' $'folder: Is a directory\n' folder watch
both_fail 'a folder for the claim' $'folder: Is a directory\n' duo folder
both_fail 'a name without letters' $': No such file or directory\n' '' watch
both_fail 'a name too long' $'file name: File name too long\n' duo "$too_long"
both_fail 'a file below a file' $'duo/duo: Not a directory\n' duo/duo watch
both_fail 'no file named -' $'-: No such file or directory\n' - watch
steps_fail 'no such answer' $'missing: No such file or directory\n' duo watch missing
steps_fail 'no such claim and answer' $'missing.claim: No such file or directory\n' duo missing.claim missing.answer
steps_fail 'an empty chart, and no such answer' $'missing: No such file or directory\n' torn.0 watch missing
steps_fail 'a folder for the answer' $'folder: Is a directory\n' duo watch folder
steps_fail 'a name too long for the answer' $'file name: File name too long\n' duo watch "$too_long"
no_room=$'standard output: No space left on device\n'
trial 'casebuild, no room' '' "$no_room" into_full "$programs/casebuild" duo watch 2
trial 'casebuild, refused and no room' '' "$no_room" into_full "$programs/casebuild" duo.gap watch 2
trial 'loopsteps, no room' '' "$no_room" into_full "$programs/loopsteps" duo watch duo.answer
trial 'loopsteps, refused and no room' '' "$no_room" into_full "$programs/loopsteps" duo watch torn.0
trial 'loopsteps, no room, and nothing to print' '' '' into_full "$programs/loopsteps" duo passing passing.answer
