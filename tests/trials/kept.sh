# The bench runs that are kept, as files, and what is said of them. J is a case by whose lists an offer joins a waiting one;
# in D vertices 0, 2 and 3 rest, by edges 1, 2 and 3.
# shellcheck shell=bash disable=SC2034

names=$'version vertices edges source workers\n'
answers=$'version verdict stem cycle reached\n'
file k1 "$names"$'1 3 3 0 2\nvertex accepting owner\n0 0 0\n1 1 1\n2 0 0\nfrom to\n0 1\n1 2\n2 1\n'
file k2 "$names"$'1 3 3 0 2\nvertex accepting owner\n0 1 0\n1 0 1\n2 0 0\nfrom to\n0 1\n1 2\n2 1\n'
file k3 "$names"$'1 1 1 0 1\nvertex accepting owner\n0 1 0\nfrom to\n0 0\n'
file k4 "$names"$'1 1 0 0 1\nvertex accepting owner\n0 1 0\nfrom to\n'
file k5 "$names"$'1 1 1 0 1\nvertex accepting owner\n0 0 0\nfrom to\n0 0\n'
file k6 "$names"$'1 2 1 0 1\nvertex accepting owner\n0 0 0\n1 1 0\nfrom to\n1 1\n'
file k8 "$names"$'1 3 3 0 1\nvertex accepting owner\n0 0 0\n1 1 0\n2 0 0\nfrom to\n0 1\n1 2\n2 1\n'
file k10 "$names"$'2 3 3 0 2\nvertex accepting owner\n0 0 0\n1 1 1\n2 0 0\nfrom to\n0 1\n1 2\n2 1\n'
file k11 "$names"$'1 3 4 0 2\nvertex accepting owner\n0 0 0\n1 1 1\n2 0 0\nfrom to\n0 1\n1 2\n1 2\n2 1\n'
file j "$names"$'1 3 4 0 3\nvertex accepting owner\n0 0 0\n1 1 1\n2 0 2\nfrom to\n0 1\n0 2\n1 0\n1 2\n'
file d "$names"$'1 4 1 1 1\nvertex accepting owner\n0 0 0\n1 0 0\n2 1 0\n3 0 0\nfrom to\n1 2\n'

lasso_1=$answers$'2 lasso 1 2 0\nedge\n0\n1\n2\n'
empty_2=$answers$'2 empty 0 0 3\nvertex distance\n0 0\n1 -1\n2 -1\n'
lasso_3=$answers$'2 lasso 0 1 0\nedge\n0\n'
lasso_d=$answers$'2 lasso 1 1 0\nedge\n0\n2\n'
source_only=$answers$'2 empty 0 0 1\nvertex distance\n0 0\n'

