// More values of answers: the steps of a trace, the summary of a task, the verdicts on its mutex groups, and why a file is refused.
// sas_answers.hpp includes this file.
#ifndef SAS_VALUES_HPP
#define SAS_VALUES_HPP

#include "sas_answers.hpp"

namespace sas {

#ifndef __cpp_exceptions
inline namespace without_exceptions {
#endif

// The steps of a trace, each read from the text when it is asked for. A range, and its own iterator.
class Steps {
public:
    using iterator_category = std::input_iterator_tag;
    using value_type = Step;
    using difference_type = std::ptrdiff_t;
    using pointer = const Step *;
    using reference = const Step &;

    Steps() = default;
    explicit Steps(std::string_view rest) : rest_(rest) { ++*this; }

    [[nodiscard]] Steps begin() const { return *this; }
    [[nodiscard]] Steps end() const { return {}; }
    reference operator*() const noexcept { return step_; }
    pointer operator->() const noexcept { return &step_; }
    Steps &operator++() {
        std::uint64_t number = 0;
        Change change;
        is_there_ = detail::matches(detail::next_line(rest_), "step ", number, " ", step_.op, " ", step_.cost, " ", step_.name);
        step_.changes.clear();
        for (std::string_view rest = rest_; detail::take_change(rest, change); rest_ = rest) {
            step_.changes.push_back(change);
        }
        return *this;
    }
    Steps operator++(int) { return std::exchange(*this, ++Steps(*this)); }
    friend bool operator==(const Steps &one, const Steps &other) noexcept {
        return one.is_there_ == other.is_there_ && (!one.is_there_ || one.rest_.size() == other.rest_.size());
    }
    friend bool operator!=(const Steps &one, const Steps &other) noexcept { return !(one == other); }

private:
    // whether there is a step, and what comes after it
    bool is_there_ = false;
    Step step_ = {};
    std::string_view rest_ = {};
};

// What a task is about: its metric, which is 1 if the operators' cost lines are used, else 0; how many there are of what (the derived ones
// are variables, too); the value of each variable in the state section, and the facts of the goal.
struct Summary {
    std::uint64_t metric = 0, variables = 0, derived = 0, groups = 0, operators = 0, rules = 0;
    std::vector<Fact> initial = {}, goal = {};
};

// Whether a mutex group is shown to be exclusive. If not, why: it has a fact on a derived variable, two of its facts hold in the initial
// state, or an operator may break it.
enum class GroupVerdict { exclusive, derived, initial_state, op };

// The verdict on a mutex group. What follows the operator is in answers of `mutex_why` alone.
struct Group {
    std::uint64_t number = 0;
    GroupVerdict verdict = GroupVerdict::exclusive;
    std::optional<std::uint32_t> op = {};        // the operator that may break it
    std::optional<std::uint64_t> line = {};      // the line of the task file at which the operator begins
    std::optional<std::string_view> name = {};   // the name of the operator
    bool shown = false;
    std::vector<Fact> facts = {};                // the fact on a derived variable, or the two facts that hold
    std::vector<Effect> effects = {};            // the operator's effects that set facts of the group: two, or one if a fact may remain
    std::optional<Fact> may_remain = {};
};

// What stood where a file is refused: a line with other bytes, an empty line, a line without its end, or the end of the file.
enum class Found { text, empty_line, unfinished, end_of_file };

// A number of a line that may not stand there: its place in the line, from 1, and the numbers that may.
struct WrongNumber {
    std::uint64_t number = 0;
    std::int64_t lowest = 0, highest = 0;
};

// The line of a file that has the number of a list's items, and that number.
struct ListCount {
    std::uint64_t line = 0, items = 0;
};

// Why a file is refused. What follows the word is in answers of `plan_why`, `check_why` and `mutex_why` alone.
struct Refusal {
    std::string_view word = {};                     // what is wrong, such as `keyword` or `layer order`
    std::optional<std::uint64_t> line = {};         // of a task that isn't layered: at which the operator or the rule begins
    std::optional<std::string_view> place = {};     // the part of the task, such as `operator 3`
    std::optional<std::string_view> expected = {};
    std::optional<WrongNumber> wrong_number = {};
    std::optional<ListCount> list_count = {};
    std::optional<Found> found = {};
    std::optional<std::string_view> text = {};      // of the line that stood there: its first 64 bytes, without control characters
    std::optional<std::string_view> hint = {};
};

namespace detail {

// Takes the facts off the front of a summary whose lines begin with these words.
inline void take_facts(std::string_view &rest, const char *words, std::vector<Fact> &to) {
    Fact fact;
    for (std::string_view after = rest; matches(next_line(after), words, fact); rest = after) {
        fact.shown = false;
        to.push_back(fact);
    }
}

// Reads the line about a group.
inline bool is_group(std::string_view line, Group &it) noexcept {
    std::uint32_t op = 0;
    if (matches(line, "group ", it.number, " not shown: operator ", op)) {
        it.verdict = GroupVerdict::op;
        it.op = op;
        return true;
    }
    it.verdict = ends(line, " derived") ? GroupVerdict::derived : ends(line, " exclusive") ? GroupVerdict::exclusive : GroupVerdict::initial_state;
    return matches(line, "group ", it.number, " exclusive") || matches(line, "group ", it.number, " derived") ||
           matches(line, "group ", it.number, " not shown: initial state");
}

// Adds a line to the reasons of a verdict on a group. A line of a later version is skipped.
inline void add(Group &to, std::string_view line) {
    SimilarOperator op;
    Effect effect;
    Fact fact;
    if (matches(line, "  operator ", op)) {
        to.line = op.line;
        to.name = op.name;
        to.shown = op.shown;
    } else if (matches(line, "  effect ", effect.number, " sets ", effect.fact)) {
        to.effects.push_back(effect);
    } else if (matches(line, "  derived ", fact) || matches(line, "  holds ", fact)) {
        to.facts.push_back(fact);
    } else if (matches(line, "  may remain ", fact)) {
        to.may_remain = fact;
    }
}

// Adds a line to the reasons why a file is refused. A line of a later version is skipped.
inline void add(Refusal &to, std::string_view line) {
    std::string_view words;
    WrongNumber number;
    ListCount count;
    std::uint64_t item = 0, at = 0;
    if (matches(line, "  at ", words)) {
        to.place = words;
    } else if (matches(line, "  expected ", words)) {
        to.expected = words;
    } else if (matches(line, "  number ", number.number, " must be ", number.lowest, " to ", number.highest)) {
        to.wrong_number = number;
    } else if (matches(line, "  line ", count.line, " counts ", count.items)) {
        to.list_count = count;
    } else if (matches(line, "  found ", words) || matches(line, "  unfinished ", words)) {
        to.found = starts(line, "  found ") ? Found::text : Found::unfinished;
        to.text = words;
    } else if (line == "  empty line" || line == "  end of file") {
        to.found = line == "  empty line" ? Found::empty_line : Found::end_of_file;
    } else if (matches(line, "  hint ", words)) {
        to.hint = words;
    } else if (!to.line && (matches(line, "  operator ", item, " line ", at, " ", words) || matches(line, "  rule ", item, " line ", at, " ", words))) {
        to.line = at;
    }
}

} // namespace detail

inline std::ostream &operator<<(std::ostream &out, GroupVerdict it) {
    constexpr const char *words[] = {"exclusive", "derived", "not shown: initial state", "not shown: operator"};
    return out << words[static_cast<int>(it)];
}
inline std::ostream &operator<<(std::ostream &out, Found it) {
    constexpr const char *words[] = {"found", "empty line", "unfinished", "end of file"};
    return out << words[static_cast<int>(it)];
}

inline Steps Answer::trace_steps() const & {
    const std::size_t at = is_trace() ? text.find("\nstep ") : text.npos;
    return Steps(at == text.npos ? "" : std::string_view(text).substr(at + 1));
}

inline std::optional<std::uint64_t> Answer::sum() const {
    std::uint64_t sum = 0, number = 0;
    if (is_trace()) {
        for (const Step &step : trace_steps()) {
            sum += step.cost;
        }
        return sum;
    }
    const bool is_so = detail::matches(headline(), "plan valid: ", number, " steps, cost ", sum) ||
                       detail::matches(headline(), "plan invalid: cost is ", sum, ", not ", number);
    return is_so ? std::optional(sum) : std::nullopt;
}

inline std::optional<Summary> Answer::summary() const & {
    Summary it;
    std::string_view rest = text;
    const auto number = [&](const char *word, std::uint64_t &to) { return detail::matches(detail::next_line(rest), word, to); };
    if (!number("metric ", it.metric) || !number("variables ", it.variables) || !number("derived ", it.derived) ||
        !number("groups ", it.groups) || !number("operators ", it.operators) || !number("rules ", it.rules)) {
        return std::nullopt;
    }
    detail::take_facts(rest, "initial ", it.initial);
    detail::take_facts(rest, "goal ", it.goal);
    return it;
}

inline std::vector<Group> Answer::groups() const & {
    std::vector<Group> all;
    for (std::string_view rest = std::string_view(text).substr(detail::starts(text, "group ") ? 0 : text.size()); !rest.empty();) {
        const std::string_view line = detail::next_line(rest);
        if (Group group; detail::is_group(line, group)) {
            all.push_back(group);
        } else if (!all.empty()) {
            detail::add(all.back(), line);
        }
    }
    return all;
}

inline std::optional<Refusal> Answer::refusal() const & {
    Refusal it;
    std::uint64_t line = 0;
    std::string_view rest = text, why = detail::next_line(rest);
    if (!refused_file() || is_trace()) {
        return std::nullopt;
    }
    why.remove_prefix(why.find(": ") + 2);
    if (detail::matches(why, "line ", line, ": ", it.word)) {
        it.line = line;
    } else {
        const std::size_t at = std::min(why.find(": "), why.size());
        it.place = why.substr(0, at);
        it.word = why.substr(std::min(at + 2, why.size()));
    }
    while (!rest.empty()) {
        detail::add(it, detail::next_line(rest));
    }
    return it;
}

#ifndef __cpp_exceptions
} // namespace without_exceptions
#endif

} // namespace sas

#endif
