begin_version
3
end_version
begin_metric
0
end_metric
3
begin_variable
var0
-1
3
Atom at(a, hall)
Atom at(a, doorway)
Atom at(a, room)
end_variable
begin_variable
var1
-1
3
Atom at(b, hall)
Atom at(b, doorway)
Atom at(b, room)
end_variable
begin_variable
var2
-1
2
Atom clear(doorway)
NegatedAtom clear(doorway)
end_variable
2
begin_mutex_group
3
0 1
1 1
2 0
end_mutex_group
begin_mutex_group
3
0 0
0 1
0 2
end_mutex_group
begin_state
0
0
0
end_state
begin_goal
2
0 2
1 2
end_goal
5
begin_operator
enter a
0
2
0 0 0 1
0 2 0 1
1
end_operator
begin_operator
enter b
0
2
0 1 0 1
0 2 0 1
1
end_operator
begin_operator
leave a
0
2
0 0 1 2
0 2 1 0
1
end_operator
begin_operator
leave b
0
2
0 1 1 2
0 2 1 0
1
end_operator
begin_operator
shove b
0
1
0 1 0 1
1
end_operator
0
