// planner TASK: a planner's loop, for packages.py. It reads examples/fuses.sas once, and judges one plan after another until one is valid.
// Of each it prints the answer, and of the last one what its last step does. From the step that fails it tries other steps. Each answer
// has to be the one over the bytes of the task. A valid plan has to be so by the numbers of its operators, too, and with another one not.
#include <sas.hpp>
#include <fstream>
#include <iostream>
#include <iterator>
#include <vector>

static std::string read_file(const char *name) {
    std::ifstream file(name, std::ios::binary);
    return {std::istreambuf_iterator<char>(file), {}};
}

static std::string text_of(const std::vector<std::string> &steps) {
    std::string text;
    for (const std::string &step : steps) {
        text += "(" + step + ")\n";
    }
    return text + "; cost = " + std::to_string(steps.size()) + " (unit cost)\n";
}

static bool same(const sas::Answer &one, const sas::Answer &other) {
    return one.status == other.status && one.text == other.text;
}

// Prints the last step of a trace. Returns the numbers of the operators.
static std::vector<std::uint32_t> tell_last(const sas::Answer &trace) {
    std::vector<std::uint32_t> numbers;
    sas::Step last;
    for (const sas::Step &step : trace.trace_steps()) {
        numbers.push_back(step.op);
        last = step;
    }
    std::cout << last << '\n';
    for (const sas::Change &change : last.changes) {
        std::cout << change << '\n';
    }
    return numbers;
}

static bool is_by_numbers(sas::Task &task, std::vector<std::uint32_t> numbers, const sas::Answer &answer) {
    const sas::Answer by_numbers = task.plan_operators(numbers, answer.cost().value());
    numbers.push_back(1000);
    const sas::Answer more = task.plan_operators({numbers.data(), numbers.size()}, answer.cost().value());
    std::cout << more << '\n';
    return same(by_numbers, answer) && more.failing_step() == numbers.size();
}

int main(int, char **words) {
    const std::string file = read_file(words[1]);
    const std::vector<std::string> wanted = {"take f1", "put f1 link", "take f2", "put f2 feed"};
    std::vector<std::string> steps = {"take f1", "take f2"};
    sas::Task task(file);
    while (steps.size() <= wanted.size()) {
        const std::string plan = text_of(steps);
        const sas::Answer answer = task.plan(plan), why = task.plan_why(plan), trace = task.trace(plan);
        if (!same(answer, sas::plan(file, plan)) || !same(why, sas::plan_why(file, plan)) || !same(trace, sas::trace(file, plan))) {
            return 1;
        }
        std::cout << answer << '\n';
        if (answer.verdict() == sas::Verdict::valid) {
            return !is_by_numbers(task, tell_last(trace), answer) || sas::version() != SAS_VERSION ? 2 : 0;
        }
        const sas::Reasons reasons = why.reasons();
        steps.resize(reasons.step ? reasons.step->number - 1 : steps.size());
        steps.push_back(wanted.at(steps.size()));
    }
    return 3;
}
