# Converts the plan of another planner to the form that `sas` reads:
#
#   awk -f examples/plan.awk output.sas other.plan > sas_plan
#
# A step is `(go a b)`. A time or a number may stand before it (`0.000: `, `step 0: `, `1. `), and a duration after it (`[1.000]`). The
# parentheses may be missing after a number, and if the task has an operator of that name. A line may have several steps, and all steps may
# be one list, `((go a b) (go b c))`. Comments from `;` on, empty lines and a byte order mark are dropped.
#
# All else is refused: nothing is printed, standard error names the line, and the exit status is 1. Numbers as in `step 0: ` and `1. ` have
# to follow each other, from 0 or 1. Others are times, and may not fall.
#
# A plan that was cut off is refused if its last line has no end, a bracket isn't closed, or no step is left. A cut between two lines can't
# be seen, since other planners don't mark the end of a plan.
#
# PDDL doesn't distinguish upper and lower case, so a step gets the name that the task has, also `go ` with its space for `(go)`. A name
# that the task doesn't have is kept in lower case; `sas plan` names the step.
#
# The cost line is written anew, as the sum of the costs of the first operators of these names. A cost in the other plan is dropped, so a
# wrong one isn't noticed. If several operators have one name and different costs, the sum may be wrong. `sas plan` then prints the right
# one.

function refuse(why) {
    print "plan.awk: " why > "/dev/stderr"
    exit 1
}

function refuse_line(why) { refuse("line " line ": " why) }

# Returns a name in lower case, with one space between its words.
function folded(name) {
    name = tolower(name)
    gsub(/[ \t]+/, " ", name)
    gsub(/^ | $/, "", name)
    return name
}

# Keeps the cost of the first operator of a name, and the first of the names that are the same when folded.
function add_operator(name, cost,    key) {
    if (name in costs) return
    costs[name] = cost
    key = folded(name)
    if (key in names) is_ambiguous[key] = 1
    else names[key] = name
}

# Reads the metric and the operators of a task.
function read_task(file,    text, before, name, number) {
    while ((getline text < file) > 0) {
        sub(/\r$/, "", text)
        if (++number == 5) metric = text
        if (before == "begin_operator") name = text
        if (text == "end_operator") add_operator(name, before)
        before = text
    }
    if (metric !~ /^[01]$/) refuse("cannot read a task: " file)
}

# Reads a plan as one record, which keeps the end of its last line, and returns it.
function plan_text(file,    text, more) {
    RS = "\001"
    if ((getline text < file) < 0) refuse("cannot read the plan: " file)
    if ((getline more < file) > 0) refuse("the plan isn't text")
    return text
}

# Takes what was matched off the front of the rest of a line, and the blanks after it. Returns whether anything was.
function take(is_matched) {
    if (!is_matched) return 0
    taken = substr(rest, 1, RLENGTH)
    rest = substr(rest, RLENGTH + 1)
    sub(/^[ \t]+/, "", rest)
    return 1
}

# Checks the number before a step. After `step 0:` or `1.` all numbers count steps, else they are times.
function check_number(label) {
    is_counting = is_counting || label !~ /^[0-9.]+[ \t]*:/
    gsub(/[^0-9.]/, "", label)
    if (count == 0) first = label + 0
    if (is_counting ? (first > 1 || label + 0 != first + count) : label + 0 < time) refuse_line("steps are missing or in another order")
    time = label + 0
}

# Adds a step of this name.
function add_step(name,    key) {
    key = folded(name)
    if (!(name in costs) && key in is_ambiguous) refuse_line("several operators have this name, but for case and spaces")
    if (!(name in costs)) name = (key in names) ? names[key] : key
    steps[++count] = name
    sum += (metric == 0 ? 1 : (name in costs) ? costs[name] : 0)
}

# Takes a step off the rest of a line: `0.000: (GO A B) [1.000]`, `step 0: GO A B` and `(go a b)` are the same step.
function take_step(    has_number) {
    has_number = take(match(rest, /^([Ss][Tt][Ee][Pp][ \t]*)?[0-9]+([.][0-9]+)?[ \t]*:/)) || take(match(rest, /^[0-9]+[.)][ \t]/))
    if (has_number) check_number(taken)
    if (take(match(rest, /^[(][^();]*[^(); \t][^();]*[)]/))) add_step(substr(taken, 2, length(taken) - 2))
    else if (take(match(rest, /^[A-Za-z][^][(){}:,;]*/)) && rest ~ /^($|[[;])/ && (has_number || folded(taken) in names)) add_step(taken)
    else refuse_line("not a step")
    take(match(rest, /^[[][^][()]*[]]/))
}

# Takes the bracket that opens a list, if the rest of a line begins with it.
function take_opening() { return list == "" && count == 0 && rest ~ /^[(][ \t]*([(;]|$)/ && take(match(rest, /^[(]/)) }

# Takes the steps of a line, and the brackets of a list.
function take_line(text) {
    sub(/\r$/, "", text)
    sub(/^[ \t]+/, "", text)
    rest = text
    while (rest !~ /^(;|$)/) {
        if (take_opening()) list = "open"
        else if (list == "open" && take(match(rest, /^[)]/))) list = "closed"
        else if (list == "closed") refuse_line("text after the list")
        else take_step()
    }
}

BEGIN {
    if (ARGC != 3) refuse("usage: awk -f plan.awk TASK PLAN")
    read_task(ARGV[1] == "-" ? "/dev/stdin" : ARGV[1])
    last = split(plan_text(ARGV[2] == "-" ? "/dev/stdin" : ARGV[2]), lines, "\n")
    sub(/^\357\273\277/, "", lines[1])
    for (line = 1; line < last; line++) take_line(lines[line])
    if (lines[last] != "") refuse_line("the line has no end")
    if (list == "open") refuse("the list isn't closed")
    if (count == 0) refuse("there is no step")
    for (line = 1; line <= count; line++) print "(" steps[line] ")"
    printf "; cost = %.0f (%s cost)\n", sum, (metric == 1 ? "general" : "unit")
}
