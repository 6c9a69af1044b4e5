begin_version
3
end_version
begin_metric
0
end_metric
3
begin_variable
var0
-1
2
Atom power()
NegatedAtom power()
end_variable
begin_variable
var1
0
2
Atom lit(left)
NegatedAtom lit(left)
end_variable
begin_variable
var2
0
2
Atom lit(right)
NegatedAtom lit(right)
end_variable
0
begin_state
1
1
1
end_state
begin_goal
1
1 0
end_goal
1
begin_operator
switch-on 
0
1
0 0 1 0
1
end_operator
2
begin_rule
2
0 0
2 1
1 1 0
end_rule
begin_rule
2
0 0
1 1
2 1 0
end_rule
