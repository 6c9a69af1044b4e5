begin_version
3
end_version
begin_metric
1
end_metric
2
begin_variable
var0
-1
3
Atom a()
Atom b()
Atom c()
end_variable
begin_variable
var1
7
2
Atom d()
NegatedAtom d()
end_variable
1
begin_mutex_group
2
0 1
1 0
end_mutex_group
begin_state
2
1
end_state
begin_goal
2
1 0
1 0
end_goal
1
begin_operator
go on
1
0 2
2
2 0 1 1 0 0 2 1
0 0 -1 0
9
end_operator
2
begin_rule
2
0 0
0 2
1 1 0
end_rule
begin_rule
0
1 -1 1
end_rule
