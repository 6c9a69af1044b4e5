begin_version
3
end_version
begin_metric
0
end_metric
2
begin_variable
var0
-1
2
Atom x(0)
Atom x(1)
end_variable
begin_variable
var1
-1
2
Atom y(0)
Atom y(1)
end_variable
0
begin_state
0
0
end_state
begin_goal
1
0 1
end_goal
1
begin_operator
try
0
2
0 0 0 1
1 0 1 1 1 0
1
end_operator
0
