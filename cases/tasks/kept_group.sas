begin_version
3
end_version
begin_metric
0
end_metric
3
begin_variable
var0
-1
2
Atom x(0)
Atom x(1)
end_variable
begin_variable
var1
-1
2
Atom y(0)
Atom y(1)
end_variable
begin_variable
var2
-1
2
Atom z(0)
Atom z(1)
end_variable
1
begin_mutex_group
2
0 0
1 0
end_mutex_group
begin_state
1
0
0
end_state
begin_goal
0
end_goal
1
begin_operator
shift
0
2
0 0 -1 0
0 1 0 1
1
end_operator
0
