// The answers of libsas for C++17, as values. sas.hpp includes this file.
#ifndef SAS_ANSWERS_HPP
#define SAS_ANSWERS_HPP

#if __cplusplus < 201703L
#error "sas.hpp requires C++17 or later: compile with -std=c++17"
#else

#include <charconv>
#include <cstddef>
#include <cstdint>
#include <iterator>
#include <optional>
#include <ostream>
#include <string>
#include <string_view>
#include <system_error>
#include <type_traits>
#include <utility>
#include <vector>

namespace sas {

#ifndef __cpp_exceptions
// a program may have files that are compiled with exceptions, and others without
inline namespace without_exceptions {
#endif

// Yes or no. Without exceptions, also why there is no answer.
enum class Status { yes, no, out_of_memory, input_too_long, no_task, answer_too_long };

// What an answer says: of a plan valid, invalid or refused; of other requests yes, no or refused. Without exceptions there may be no
// answer.
enum class Verdict { valid, invalid, refused, yes, no, none };

// A file that is refused.
enum class File { task, plan };

// What fails: a step that isn't applicable, names no operator, has the number of none, or has effects that conflict; a fact of the goal; the
// cost; or the state that a run starts in.
enum class Failure { not_applicable, no_such_name, no_such_number, conflict, goal, cost, state };

// The values below are views of an answer's text. The answer has to outlive them, and isn't changed or moved. Steps and lines count from
// 1, all others from 0. Names may have any bytes; those in reasons are safe for a terminal. `shown` tells whether a reason shows another name
// than the file has: without control characters, or cut off after 256 bytes.

// A value of a variable, and the name of the value.
struct Fact {
    std::uint32_t variable = 0, value = 0;
    std::string_view name = {};
    bool shown = false;
};

// A variable that a step changed, and the name of its new value.
struct Change {
    std::uint32_t variable = 0, old_value = 0, new_value = 0;
    std::string_view name = {};
};

// A step of a trace: the operator that it means, the operator's cost and name, and what the step changed.
struct Step {
    std::uint32_t op = 0;
    std::uint64_t cost = 0;
    std::string_view name = {};
    std::vector<Change> changes = {};
};

// A step of a plan.
struct NamedStep {
    std::uint64_t number = 0;
    std::string_view name = {};
    bool shown = false;
};

// An operator whose name has the words of a step's name, in the same order or in another, and the line of the task file at which it begins.
struct SimilarOperator {
    std::uint32_t op = 0;
    std::uint64_t line = 0;
    std::string_view name = {};
    bool shown = false;
};

// A rule that derives a fact, or, if it isn't firing, requires a fact that fails.
struct Rule {
    std::uint32_t number = 0;
    bool is_firing = false;
    Fact fact = {};
};

// Why a required fact fails: what holds in its place, and since which step. That is none if the variable has its initial value.
struct Cause {
    Fact required = {}, actual = {};
    std::optional<NamedStep> since = {};
    std::vector<Rule> rules = {};
    bool no_rule = false; // no rule derives the required value
};

// An operator that isn't applicable, with a cause for each precondition that fails.
struct BlockedOperator {
    std::uint32_t op = 0;
    std::uint64_t line = 0;
    std::vector<Cause> causes = {};
};

// An effect that fires, and the fact that it sets.
struct Effect {
    std::uint32_t number = 0;
    Fact fact = {};
};

// An operator, two of whose effects set one variable to different values.
struct Conflict {
    std::uint32_t op = 0;
    std::uint64_t line = 0;
    std::vector<Effect> effects = {};
};

// A fact of the goal that fails.
struct GoalFact {
    std::uint64_t index = 0;
    Cause cause = {};
};

// What follows if the step that fails is made anyway, and the steps after it: how many of these fail, the first five of them, and how many
// goal facts fail after the last.
struct MadeAnyway {
    std::uint64_t failing_later = 0, later = 0;
    std::vector<NamedStep> first_failing = {};
    std::uint64_t failing_goal = 0, goal = 0;
};

// What the cost of a plan is made of: the metric, the number of steps, and the sum of their operators' cost lines.
struct CostFacts {
    std::uint64_t metric = 0, steps = 0, cost_lines = 0;
};

// A step whose name no operator has, and an operator that may be meant.
struct UnknownStep {
    NamedStep step = {};
    std::optional<SimilarOperator> similar_operator = {};
};

// The first step that could also be a later operator of its name, and the first such operator.
struct CouldAlsoBe {
    std::uint64_t step = 0;
    std::uint32_t op = 0;
};

// The reasons why a plan isn't valid. Which are there depends on the verdict. Of a file that is refused, it is only the hint.
struct Reasons {
    std::optional<NamedStep> step = {};
    std::optional<SimilarOperator> similar_operator = {};
    std::vector<UnknownStep> further_steps = {}; // up to four of the other steps that name no operator
    std::vector<BlockedOperator> operators = {};
    std::optional<Conflict> conflict = {};
    std::optional<MadeAnyway> if_made = {};
    std::optional<std::uint64_t> failing = {}, total = {}; // of `K of N steps name no operator`, or of `K of N goal facts fail`
    std::vector<GoalFact> goal_facts = {};
    std::optional<CostFacts> cost = {};
    std::optional<std::uint64_t> unknown_number = {}; // of the step, if no operator has it
    std::optional<std::string_view> hint = {};
    std::optional<CouldAlsoBe> could_also_be = {};
    std::string_view text = {}; // all lines of the reasons, also those that only a later version has
};

namespace detail {

inline bool starts(std::string_view text, std::string_view words) noexcept { return text.substr(0, words.size()) == words; }

inline bool ends(std::string_view text, std::string_view words) noexcept {
    return text.size() >= words.size() && text.substr(text.size() - words.size()) == words;
}

// Takes a line off the front of a text.
inline std::string_view next_line(std::string_view &text) noexcept {
    const std::string_view line = text.substr(0, text.find('\n'));
    text.remove_prefix(line.size() + (line.size() < text.size()));
    return line;
}

// Takes the name of a reason, which is all that is left of a line. If it isn't as in the file, a byte of it is `\\xHH`, or it is cut off.
template <class Named> bool take_shown(std::string_view &line, Named &it) noexcept {
    it.name = std::exchange(line, {});
    it.shown = it.name.find('\\') != it.name.npos || it.name.size() > 256;
    return true;
}

// Takes a part off the front of a line: words, a number, a fact, or a name, which is all that is left.
template <class Part> bool take(std::string_view &line, Part &part) noexcept {
    if constexpr (std::is_integral_v<Part>) {
        const auto [end, fault] = std::from_chars(line.data(), line.data() + line.size(), part);
        line.remove_prefix(static_cast<std::size_t>(end - line.data()));
        return fault == std::errc();
    } else if constexpr (std::is_same_v<Part, Fact>) {
        return take(line, part.variable) && take(line, " ") && take(line, part.value) && take(line, " ") && take_shown(line, part);
    } else if constexpr (std::is_same_v<Part, NamedStep>) {
        return take(line, part.number) && take(line, " ") && take_shown(line, part);
    } else if constexpr (std::is_same_v<Part, SimilarOperator>) {
        return take(line, part.op) && take(line, " line ") && take(line, part.line) && take(line, " ") && take_shown(line, part);
    } else if constexpr (std::is_same_v<Part, std::string_view>) {
        part = std::exchange(line, {});
        return true;
    } else {
        const std::string_view words = part;
        const bool is_there = starts(line, words);
        line.remove_prefix(is_there ? words.size() : 0);
        return is_there;
    }
}

// Whether a line consists of these parts.
template <class... Parts> bool matches(std::string_view line, Parts &&...parts) noexcept {
    return (take(line, parts) && ...) && line.empty();
}

// Takes a change off the front of a trace.
inline bool take_change(std::string_view &rest, Change &it) noexcept {
    return matches(next_line(rest), "change ", it.variable, " ", it.old_value, " ", it.new_value, " ", it.name);
}

// Adds a line to a cause.
inline void add(Cause &to, std::string_view line) {
    Fact fact;
    NamedStep step;
    Rule rule;
    if (matches(line, "    actual ", fact)) {
        to.actual = fact;
    } else if (matches(line, "    since step ", step)) {
        to.since = step;
    } else if ((rule.is_firing = matches(line, "    rule ", rule.number, " derives ", rule.fact)) ||
               matches(line, "    rule ", rule.number, " requires ", rule.fact)) {
        to.rules.push_back(rule);
    } else if (line == "    no rule derives it") {
        to.no_rule = true;
    }
}

// The cause that is read: that of the last goal fact, or the last one of the last operator.
inline Cause *last_cause(Reasons &of) noexcept {
    if (!of.goal_facts.empty()) {
        return &of.goal_facts.back().cause;
    }
    return of.operators.empty() || of.operators.back().causes.empty() ? nullptr : &of.operators.back().causes.back();
}

// Begins the cause of a fact.
inline void begin_cause(Reasons &to, Fact required) {
    Cause cause;
    cause.required = required;
    if (!to.goal_facts.empty()) {
        to.goal_facts.back().cause = std::move(cause);
    } else if (!to.operators.empty()) {
        to.operators.back().causes.push_back(std::move(cause));
    }
}

// Adds a line to the reasons for a verdict. A line of a later version is skipped.
inline void add(Reasons &to, std::string_view line, std::string_view verdict) {
    NamedStep step;
    SimilarOperator it;
    Effect effect;
    CostFacts cost = to.cost.value_or(CostFacts());
    std::uint64_t number = 0, all = 0;
    // a step may have any name, so before the line that counts them none is about what a step could also be
    const bool is_unknown = !to.total && ends(verdict, ": no operator of that name");
    if (!to.step && ends(verdict, ": no operator of that number") && matches(line, "  step ", number, " number ", all)) {
        to.step = NamedStep{number, {}, false};
        to.unknown_number = all;
    } else if (!to.step && starts(verdict, "plan invalid: step ") && matches(line, "  step ", step)) {
        to.step = step;
    } else if (is_unknown && matches(line, "  step ", step)) {
        to.further_steps.push_back({step, {}});
    } else if (matches(line, "  step ", number, " could also be operator ", it.op)) {
        to.could_also_be = CouldAlsoBe{number, it.op};
    } else if (matches(line, "  similar operator ", it)) {
        (to.further_steps.empty() ? to.similar_operator : to.further_steps.back().similar_operator) = it;
    } else if (verdict.find("conflicting") != verdict.npos && matches(line, "  operator ", it.op, " line ", it.line)) {
        to.conflict = Conflict{it.op, it.line, {}};
    } else if (to.conflict && matches(line, "    effect ", effect.number, " sets ", effect.fact)) {
        to.conflict->effects.push_back(effect);
    } else if (matches(line, "  operator ", it.op, " line ", it.line)) {
        to.operators.push_back({it.op, it.line, {}});
    } else if (matches(line, "  ", number, " of ", all, " ", it.name)) {
        to.failing = number;
        to.total = all;
    } else if (matches(line, "  if made anyway ", number, " of ", all, " later steps fail")) {
        to.if_made = MadeAnyway{number, all, {}, 0, 0};
    } else if (to.if_made && matches(line, "    step ", step)) {
        to.if_made->first_failing.push_back(step);
    } else if (to.if_made && matches(line, "  if made anyway ", number, " of ", all, " goal facts fail")) {
        to.if_made->failing_goal = number;
        to.if_made->goal = all;
    } else if (matches(line, "  goal fact ", number)) {
        to.goal_facts.push_back({number, {}});
    } else if (matches(line, "  metric ", cost.metric) || matches(line, "  steps ", cost.steps) ||
               matches(line, "  sum of cost lines ", cost.cost_lines)) {
        to.cost = cost;
    } else if (matches(line, "  hint ", it.name)) {
        to.hint = it.name;
    } else if (matches(line, "    requires ", effect.fact)) {
        begin_cause(to, effect.fact);
    } else if (Cause *cause = last_cause(to)) {
        add(*cause, line);
    }
}

// Writes bytes as text that is safe for a terminal: control characters but LF as `\xHH`.
inline std::ostream &show(std::ostream &out, std::string_view bytes) {
    constexpr const char *digits = "0123456789abcdef";
    for (const char byte : bytes) {
        const auto number = static_cast<unsigned char>(byte);
        const bool is_shown = byte == '\n' || (number >= 32 && number != 127);
        is_shown ? out.put(byte) : out << "\\x" << digits[number / 16] << digits[number % 16];
    }
    return out;
}

// Writes lines without the end of the last one.
inline std::ostream &show_lines(std::ostream &out, std::string_view lines) {
    lines.remove_suffix(!lines.empty() && lines.back() == '\n');
    return show(out, lines);
}

} // namespace detail

inline std::ostream &operator<<(std::ostream &out, Verdict it) {
    constexpr const char *words[] = {"valid", "invalid", "refused", "yes", "no", "none"};
    return out << words[static_cast<int>(it)];
}
inline std::ostream &operator<<(std::ostream &out, Failure it) {
    constexpr const char *steps[] = {"not applicable", "no operator of that name", "no operator of that number", "conflicting effects"};
    constexpr const char *others[] = {"goal", "cost", "state"};
    return out << (it < Failure::goal ? steps[static_cast<int>(it)] : others[static_cast<int>(it) - static_cast<int>(Failure::goal)]);
}
inline std::ostream &operator<<(std::ostream &out, File it) { return out << (it == File::task ? "task" : "plan"); }
inline std::ostream &operator<<(std::ostream &out, const Fact &it) {
    return detail::show(out << it.variable << ' ' << it.value << ' ', it.name);
}
inline std::ostream &operator<<(std::ostream &out, const Change &it) {
    return detail::show(out << it.variable << ' ' << it.old_value << ' ' << it.new_value << ' ', it.name);
}
inline std::ostream &operator<<(std::ostream &out, const Step &it) {
    return detail::show(out << it.op << ' ' << it.cost << ' ', it.name);
}
inline std::ostream &operator<<(std::ostream &out, const Reasons &it) { return detail::show_lines(out, it.text); }

class Steps;
struct Summary;
struct Group;
struct Refusal;

// What `sas` prints, and its exit status. All else is read from the text.
struct [[nodiscard]] Answer {
    Status status = Status::no;
    std::string text = {};

    explicit operator bool() const noexcept { return status == Status::yes; }

    [[nodiscard]] Verdict verdict() const noexcept {
        const std::string_view line = headline();
        return detail::starts(line, "plan valid: ")     ? Verdict::valid
               : detail::starts(line, "plan invalid: ") ? Verdict::invalid
               : refused_file() || failure()            ? Verdict::refused
               : status == Status::yes                  ? Verdict::yes
               : status == Status::no                   ? Verdict::no
                                                        : Verdict::none;
    }

    // Which file is refused.
    [[nodiscard]] std::optional<File> refused_file() const noexcept {
        const bool is_task = detail::starts(headline(), "task refused: "), is_plan = detail::starts(headline(), "plan refused: ");
        return is_task || is_plan ? std::optional(is_task ? File::task : File::plan) : std::nullopt;
    }

    // The reason for a no, such as `step 2: not applicable` or `line 7: name`, or the first line of `mutex` that isn't `group K exclusive`.
    // Empty if the answer is yes.
    [[nodiscard]] std::string_view reason() const & noexcept {
        const Verdict it = verdict();
        if (it == Verdict::invalid || it == Verdict::refused) {
            return headline().substr(headline().find(": ") + 2);
        }
        std::string_view rest = std::string_view(text).substr(it == Verdict::no ? 0 : text.size()), line;
        std::uint64_t group = 0;
        do {
            line = detail::next_line(rest);
        } while (detail::matches(line, "group ", group, " exclusive"));
        return line;
    }

    [[nodiscard]] std::string_view reason() const && = delete;

    // What fails, if the answer is `plan invalid: ..`, or a state is refused.
    [[nodiscard]] std::optional<Failure> failure() const noexcept {
        const std::string_view line = headline();
        if (!detail::starts(line, "plan invalid: ")) {
            return detail::starts(line, "state refused: ") ? std::optional(Failure::state) : std::nullopt;
        }
        return detail::starts(line, "plan invalid: goal fact ")       ? std::optional(Failure::goal)
               : detail::starts(line, "plan invalid: cost is ")       ? std::optional(Failure::cost)
               : detail::ends(line, ": not applicable")               ? std::optional(Failure::not_applicable)
               : detail::ends(line, ": no operator of that name")     ? std::optional(Failure::no_such_name)
               : detail::ends(line, ": no operator of that number")   ? std::optional(Failure::no_such_number)
               : detail::ends(line, ": conflicting effects")          ? std::optional(Failure::conflict)
                                                                      : std::nullopt;
    }

    // The step that fails, if the reason is `step S: ..`.
    [[nodiscard]] std::optional<std::uint64_t> failing_step() const noexcept {
        std::uint64_t step = 0;
        std::string_view why;
        const bool is_so = detail::matches(headline(), "plan invalid: step ", step, ": ", why);
        return is_so ? std::optional(step) : std::nullopt;
    }

    // The first fact of the goal that fails, if the reason is `goal fact I not reached`.
    [[nodiscard]] std::optional<std::uint64_t> goal_fact() const noexcept {
        std::uint64_t fact = 0;
        const bool is_so = detail::matches(headline(), "plan invalid: goal fact ", fact, " not reached");
        return is_so ? std::optional(fact) : std::nullopt;
    }

    // The sum of the costs of the steps that go through: of a trace, of a valid plan, or if the reason is `cost is SUM, not COST`.
    [[nodiscard]] std::optional<std::uint64_t> sum() const;

    // The number of steps, if the answer is `plan valid: S steps, cost C`.
    [[nodiscard]] std::optional<std::uint64_t> steps() const noexcept {
        std::uint64_t steps = 0, cost = 0;
        const bool is_so = detail::matches(headline(), "plan valid: ", steps, " steps, cost ", cost);
        return is_so ? std::optional(steps) : std::nullopt;
    }

    // The cost, if the answer is `plan valid: S steps, cost C`, and COST, if the reason is `cost is SUM, not COST`.
    [[nodiscard]] std::optional<std::uint64_t> cost() const noexcept {
        std::uint64_t number = 0, cost = 0;
        const bool is_valid = detail::matches(headline(), "plan valid: ", number, " steps, cost ", cost);
        const bool is_so = is_valid || detail::matches(headline(), "plan invalid: cost is ", number, ", not ", cost);
        return is_so ? std::optional(cost) : std::nullopt;
    }

    // Of a trace: the value of each variable in the initial state, and the steps that succeed.
    [[nodiscard]] std::vector<Fact> initial() const & {
        std::vector<Fact> facts;
        std::string_view rest = text;
        for (Fact fact; is_trace() && detail::matches(detail::next_line(rest), "initial ", fact);) {
            fact.shown = false;
            facts.push_back(fact);
        }
        return facts;
    }
    [[nodiscard]] Steps trace_steps() const &;

    // The reasons of `plan_why`. If the answer has none, nothing is in them. Keep them in a variable for a loop over a part of them.
    [[nodiscard]] Reasons reasons() const & {
        Reasons it;
        std::string_view rest = text;
        detail::next_line(rest);
        if (!is_trace() && (verdict() == Verdict::invalid || verdict() == Verdict::refused)) {
            it.text = rest;
        }
        for (rest = it.text; !rest.empty();) {
            detail::add(it, detail::next_line(rest), headline());
        }
        return it;
    }

    // What a task is about, if the answer is that of `show`; the verdicts of `mutex` and `mutex_why`; and why a file is refused.
    [[nodiscard]] std::optional<Summary> summary() const &;
    [[nodiscard]] std::vector<Group> groups() const &;
    [[nodiscard]] std::optional<Refusal> refusal() const &;

    // A view of a temporary would be of a text that is gone.
    std::optional<Summary> summary() const && = delete;
    std::vector<Group> groups() const && = delete;
    std::optional<Refusal> refusal() const && = delete;
    std::vector<Fact> initial() const && = delete;
    Steps trace_steps() const && = delete;
    Reasons reasons() const && = delete;

private:
    bool is_trace() const noexcept { return detail::starts(text, "initial "); }

    // The line with the verdict: the last one of a trace, else the first.
    std::string_view headline() const noexcept {
        std::string_view rest = text;
        rest.remove_prefix(is_trace() ? rest.rfind('\n', rest.size() - 2) + 1 : 0);
        return detail::next_line(rest);
    }
};

// The text without its last line end.
inline std::ostream &operator<<(std::ostream &out, const Answer &it) { return detail::show_lines(out, it.text); }

#ifndef __cpp_exceptions
} // namespace without_exceptions
#endif

} // namespace sas

#include "sas_values.hpp"

#endif
#endif
