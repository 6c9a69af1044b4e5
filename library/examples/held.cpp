// held TASK PLAN..: whether each plan solves the task, which is read once, and why not. Prints the name of each plan and what
// `sas plan --why` prints. The exit status is 0 if all are valid, 1 if one isn't or the task is refused, 3 if there is no answer.
#include "sas.hpp"
#include <cstdint>
#include <exception>
#include <fstream>
#include <iostream>
#include <sstream>
#include <stdexcept>
#include <string>
#include <vector>

static std::string read_file(const std::string &name) {
    std::ifstream file(name, std::ios::binary);
    std::ostringstream text;
    if (!file || (file.peek() != EOF && !(text << file.rdbuf()))) {
        throw std::runtime_error("cannot read: " + name);
    }
    return text.str();
}

// The operators of a plan's steps, by their numbers. A planner knows them without a trace.
static std::vector<std::uint32_t> operators_of(const sas::Answer &trace) {
    std::vector<std::uint32_t> numbers;
    for (const sas::Step &step : trace.trace_steps()) {
        numbers.push_back(step.op);
    }
    return numbers;
}

int main(int count, char **words) try {
    if (count < 3) {
        std::cerr << "usage: held TASK PLAN..\n";
        return 2;
    }
    sas::Task task(read_file(words[1]));
    int status = 0;
    for (int place = 2; place < count; place++) {
        const std::string plan = read_file(words[place]);
        const sas::Answer answer = task.plan_why(plan);
        std::cout << words[place] << ": " << answer << '\n';
        // by numbers, a planner judges a plan without writing it
        if (answer && task.plan_operators(operators_of(task.trace(plan)), *answer.cost()).text != answer.text) {
            throw std::logic_error("another answer by numbers");
        }
        status = answer ? status : 1;
    }
    return status;
} catch (const sas::Refused &refusal) {
    std::cout << refusal.answer << '\n';
    return 1;
} catch (const std::exception &fault) {
    std::cerr << "held: " << fault.what() << '\n';
    return 3;
}
