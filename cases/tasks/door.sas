begin_version
3
end_version
begin_metric
1
end_metric
2
begin_variable
var0
-1
2
Atom side(left)
Atom side(right)
end_variable
begin_variable
var1
-1
2
Atom closed()
Atom opened()
end_variable
0
begin_state
1
0
end_state
begin_goal
1
1 1
end_goal
2
begin_operator
open door
1
0 0
1
0 1 -1 1
3
end_operator
begin_operator
open door
1
0 1
1
0 1 -1 1
4
end_operator
0
