begin_version
3
end_version
begin_metric
0
end_metric
3
begin_variable
var0
-1
2
Atom a()
NegatedAtom a()
end_variable
begin_variable
var1
0
2
Atom b()
NegatedAtom b()
end_variable
begin_variable
var2
0
2
Atom c()
NegatedAtom c()
end_variable
0
begin_state
0
1
1
end_state
begin_goal
2
1 1
2 1
end_goal
0
3
begin_rule
1
2 0
1 1 0
end_rule
begin_rule
1
1 0
2 1 0
end_rule
begin_rule
0
1 0 1
end_rule
