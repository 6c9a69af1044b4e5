// prints the statuses of calls of C++ without exceptions
#include "sas.hpp"
#include <cstdio>
int main() {
    sas::Task task("");
    const sas::Answer answer = sas::check(""), other = task.plan_operators({1}, 1);
    std::printf("%d %d %d %d\n", int(answer.status), int(answer.verdict()), int(other.status), task.is_held());
}
