begin_version
3
end_version
begin_metric
0
end_metric
8
begin_variable
var0
0
2
Atom lit(yard)
NegatedAtom lit(yard)
end_variable
begin_variable
var1
0
2
Atom lit(hall)
NegatedAtom lit(hall)
end_variable
begin_variable
var2
-1
4
Atom holding(f1)
Atom in(f1, feed)
Atom in(f1, link)
Atom lying(f1)
end_variable
begin_variable
var3
-1
2
Atom free(feed)
NegatedAtom free(feed)
end_variable
begin_variable
var4
-1
2
Atom free(link)
NegatedAtom free(link)
end_variable
begin_variable
var5
-1
4
Atom holding(f2)
Atom in(f2, feed)
Atom in(f2, link)
Atom lying(f2)
end_variable
begin_variable
var6
-1
2
Atom handempty()
NegatedAtom handempty()
end_variable
begin_variable
var7
1
2
Atom outage()
NegatedAtom outage()
end_variable
3
begin_mutex_group
3
3 0
2 1
5 1
end_mutex_group
begin_mutex_group
3
4 0
2 2
5 2
end_mutex_group
begin_mutex_group
3
6 0
2 0
5 0
end_mutex_group
begin_state
1
1
3
0
0
3
0
1
end_state
begin_goal
1
7 1
end_goal
10
begin_operator
pull f1 feed
0
3
0 3 -1 0
0 6 0 1
0 2 1 0
1
end_operator
begin_operator
pull f1 link
0
3
0 4 -1 0
0 6 0 1
0 2 2 0
1
end_operator
begin_operator
pull f2 feed
0
3
0 3 -1 0
0 6 0 1
0 5 1 0
1
end_operator
begin_operator
pull f2 link
0
3
0 4 -1 0
0 6 0 1
0 5 2 0
1
end_operator
begin_operator
put f1 feed
1
1 1
3
0 3 0 1
0 6 -1 0
0 2 0 1
1
end_operator
begin_operator
put f1 link
1
1 1
3
0 4 0 1
0 6 -1 0
0 2 0 2
1
end_operator
begin_operator
put f2 feed
1
1 1
3
0 3 0 1
0 6 -1 0
0 5 0 1
1
end_operator
begin_operator
put f2 link
1
1 1
3
0 4 0 1
0 6 -1 0
0 5 0 2
1
end_operator
begin_operator
take f1
0
2
0 6 0 1
0 2 3 0
1
end_operator
begin_operator
take f2
0
2
0 6 0 1
0 5 3 0
1
end_operator
11
begin_rule
0
1 0 1
end_rule
begin_rule
0
0 0 1
end_rule
begin_rule
1
2 1
1 1 0
end_rule
begin_rule
2
2 2
1 0
0 1 0
end_rule
begin_rule
2
2 2
0 0
1 1 0
end_rule
begin_rule
1
5 1
1 1 0
end_rule
begin_rule
2
5 2
1 0
0 1 0
end_rule
begin_rule
2
5 2
0 0
1 1 0
end_rule
begin_rule
2
1 0
0 0
7 0 1
end_rule
begin_rule
1
1 1
7 1 0
end_rule
begin_rule
1
0 1
7 1 0
end_rule
