// library TASK PLAN: makes each call of sas.hpp, for library_wrappers.py. Of each answer it prints the call's name, 0 or 1 as the status of
// `sas`, its steps and its cost, or 0 where there are none, and the text; or the name and which exception was thrown. A call that takes a
// limit gets that of its answer's size, after lower ones, which have to be refused.
#include "sas.hpp"
#include <fstream>
#include <iostream>
#include <iterator>
#include <type_traits>
#include <vector>

static_assert(!std::is_copy_constructible_v<sas::Task> && !std::is_copy_assignable_v<sas::Task>);
static_assert(std::is_nothrow_move_constructible_v<sas::Task> && std::is_nothrow_move_assignable_v<sas::Task>);

static_assert(std::is_same_v<decltype(sas::version()), std::string_view>);

static std::string read_file(const char *name) {
    std::ifstream file(name, std::ios::binary);
    return {std::istreambuf_iterator<char>(file), {}};
}

static void write(const sas::Answer &answer) {
    std::cout << (answer.status == sas::Status::yes ? 0 : 1) << ' ' << answer.steps().value_or(0) << ' ';
    std::cout << answer.cost().value_or(0) << '\n' << answer.text;
}

static void write(const sas::State &state) {
    std::cout << (state.status == sas::Status::yes ? 0 : 1);
    for (const std::uint32_t value : state.values) {
        std::cout << ' ' << value;
    }
    std::cout << '\n';
}

template <class Call> static void tell(const char *name, Call call) {
    std::cout << name << ' ';
    try {
        write(call());
    } catch (const std::bad_alloc &) {
        std::cout << "out of memory\n";
    } catch (const sas::InputTooLong &) {
        std::cout << "input too long\n";
    } catch (const sas::NoTask &) {
        std::cout << "no task\n";
    }
}

// makes a call whose answer is longer than the limit
template <class Call> static void refuse(Call call, std::size_t limit, std::size_t size) {
    try {
        const sas::Answer answer = call(sas::Limit{limit});
    } catch (const sas::AnswerTooLong &fault) {
        if (fault.size == size && fault.what() == "sas: answer too long: " + std::to_string(size) + " bytes") {
            return;
        }
    }
    throw std::logic_error("another answer over the limit");
}

// makes a call without a limit, and with limits
template <class Call> static void tell_limited(const char *name, Call call) {
    tell(name, [&] {
        const std::size_t size = call(sas::Limit{}).text.size();
        for (const std::size_t limit : {std::size_t(0), size / 2, size - 1}) {
            if (limit < size) {
                refuse(call, limit, size);
            }
        }
        return call(sas::Limit{size});
    });
}

// the calls about a plan of a task, in turn
static void tell_held(const char *name, sas::Task &task, const std::string &plan) {
    tell(name, [&] { return task.plan(plan); });
    tell_limited("held plan_why", [&](sas::Limit limit) { return task.plan_why(plan, limit); });
    tell_limited("held trace", [&](sas::Limit limit) { return task.trace(plan, limit); });
    const std::vector<std::uint32_t> numbers = {0};
    tell("held operators", [&] { return task.plan_operators(numbers, 1); });
    const std::vector<std::uint32_t> none, wrong = {1000000};
    for (const auto &start : {none, wrong, task.is_held() ? task.run_state({}).values : none}) {
        tell("held run", [&] { return task.run(numbers, 1, start); });
        tell_limited("held run_trace", [&](sas::Limit limit) { return task.run_trace(numbers, 1, start, limit); });
        tell("held run_state", [&] { return task.run_state(numbers, start); });
    }
}

int main(int, char **words) {
    const std::string task = read_file(words[1]), plan = read_file(words[2]);
    tell("plan", [&] { return sas::plan(task, plan); });
    tell_limited("plan_why", [&](sas::Limit limit) { return sas::plan_why(task, plan, limit); });
    tell_limited("trace", [&](sas::Limit limit) { return sas::trace(task, plan, limit); });
    tell("check", [&] { return sas::check(task); });
    tell_limited("check_why", [&](sas::Limit limit) { return sas::check_why(task, limit); });
    tell_limited("mutex", [&](sas::Limit limit) { return sas::mutex(task, limit); });
    tell_limited("mutex_why", [&](sas::Limit limit) { return sas::mutex_why(task, limit); });
    tell_limited("show", [&](sas::Limit limit) { return sas::show(task, limit); });
    tell_limited("print", [&](sas::Limit limit) { return sas::print(task, limit); });
    tell_limited("steps", [&](sas::Limit limit) { return sas::steps(plan, limit); });
    tell("empty", [&] { return sas::plan(std::string_view(), std::string_view()); });

    try {
        tell("constructed", [&] { return sas::Task(task).plan(plan); });
    } catch (const sas::Refused &refusal) {
        std::cout << refusal.what() << '\n';
    }
    sas::Task first;
    tell_held("none", first, plan);
    tell("read", [&] { return first.read(task); });
    tell_held(first.is_held() ? "held" : "not held", first, plan);
    sas::Task second = std::move(first);
    tell_held("moved from", first, plan);
    tell_held("moved to", second, plan);
    tell("read", [&] { return first.read(task); });
    second = std::move(first);
    tell("moved from", [&] { return first.plan(plan); });
    tell("moved to", [&] { return second.plan(plan); });
    tell("read", [&] { return second.read(plan); });
    tell("refused", [&] { return second.plan(plan); });
}
