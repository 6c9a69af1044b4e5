// ranges TASK: judges a plan of examples/fuses.sas by the numbers of its operators, for library_wrappers.py, in ranges of each kind. Prints
// each answer. Ranges of other types, and those that aren't contiguous, don't convert.
#include <sas.hpp>
#include <array>
#include <deque>
#include <fstream>
#include <iostream>
#include <iterator>
#include <vector>
#if __cplusplus >= 202002L
#include <ranges>
#include <span>
#endif

template <class Range> constexpr bool takes = std::is_convertible_v<Range, sas::Operators>;
template <class Number>
constexpr bool takes_of = takes<std::vector<Number>> || takes<std::array<Number, 2>> || takes<Number (&)[2]> ||
                          takes<std::initializer_list<Number>>;

static_assert(takes_of<std::uint32_t> && takes_of<std::int32_t>);
static_assert(!takes_of<std::uint64_t> && !takes_of<std::int64_t> && !takes_of<std::size_t> && !takes_of<long>);
static_assert(!takes_of<std::uint16_t> && !takes_of<std::int16_t> && !takes_of<std::uint8_t> && !takes_of<bool> && !takes_of<char>);
static_assert(!takes_of<float> && !takes_of<double> && !takes_of<char32_t> && !takes_of<std::string> && !takes_of<std::uint32_t *>);
static_assert(!takes<std::deque<std::uint32_t>> && !takes<std::string> && !takes<std::uint32_t> && !takes<std::uint32_t *>);
static_assert(!std::is_constructible_v<sas::Operators, const std::uint64_t *, std::size_t>);

// a container of a planner's own
struct Own {
    std::vector<int> numbers;
    const int *data() const { return numbers.data(); }
    int size() const { return static_cast<int>(numbers.size()); }
};

template <class Range> static void judge(sas::Task &task, Range &&numbers) {
    std::cout << task.plan_operators(std::forward<Range>(numbers), 4) << '\n';
}

int main(int, char **words) {
    std::ifstream file(words[1], std::ios::binary);
    sas::Task task(std::string(std::istreambuf_iterator<char>(file), {}));
    std::vector<std::uint32_t> numbers = {8, 5, 9, 6};
    const std::vector<int> is_signed = {8, 5, 9, 6};
    std::uint32_t array[] = {8, 5, 9, 6};
    const int is_constant[] = {8, 5, 9, 6};
    const std::initializer_list<std::uint32_t> list = {8, 5, 9, 6};
    judge(task, numbers);
    judge(task, std::as_const(numbers));
    judge(task, std::vector<std::uint32_t>(numbers));
    judge(task, is_signed);
    judge(task, array);
    judge(task, is_constant);
    judge(task, std::array<std::uint32_t, 4>{8, 5, 9, 6});
    judge(task, std::array<const int, 4>{8, 5, 9, 6});
    judge(task, list);
    judge(task, Own{is_signed});
    judge(task, sas::Operators(numbers));
    std::cout << task.plan_operators({8, 5, 9, 6}, 4) << '\n' << task.plan_operators({numbers.data(), numbers.size()}, 4) << '\n';
#if __cplusplus >= 202002L
    judge(task, std::span(numbers));
    judge(task, std::span<const std::uint32_t, 4>(array));
    judge(task, std::span(is_signed));
    judge(task, std::ranges::subrange(array));
#endif
    judge(task, std::vector<int>{8, 5, 9, -6});
    judge(task, std::vector<std::uint32_t>());
    std::cout << task.plan_operators({}, 4) << '\n' << task.plan_operators({nullptr, 0}, 4) << '\n';
}
