begin_version
3
end_version
begin_metric
0
end_metric
1
begin_variable
var0
-1
3
Atom at(a)
Atom at(b)
Atom at(c)
end_variable
0
begin_state
0
end_state
begin_goal
1
0 2
end_goal
2
begin_operator
first
0
1
0 0 0 1
0
end_operator
begin_operator
second
0
1
0 0 1 2
5
end_operator
0
