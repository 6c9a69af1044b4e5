// values: reads answers from standard input, for values.py. Each has a line with 0 for a yes or 1 for a no, and the length of its text, and
// then the text. Of each it prints three parts, each after a line with its length: the verdict and its numbers; the text, put together
// again of its values; and how the answer and its values are printed.
#include "sas_answers.hpp"
#include <iostream>
#include <sstream>

static void tell(const std::string &part) {
    std::cout << part.size() << '\n' << part;
}

template <class Value> static std::string shown(const std::optional<Value> &it) {
    std::ostringstream out;
    it ? out << *it : out << '-';
    return out.str();
}

// how many names of the answer are shown otherwise than they are
static int shown_names = 0;

static std::string values_of(const sas::Answer &it) {
    std::ostringstream out;
    out << it.verdict() << ' ' << shown(it.refused_file()) << ' ' << shown(it.failing_step()) << ' ' << shown(it.goal_fact()) << ' ';
    out << shown(it.sum()) << ' ' << shown(it.cost()) << ' ' << shown(it.steps()) << ' ' << shown_names << ' ' << it.reason() << '\n';
    out << shown(it.failure());
    return out.str();
}

// names are written in bytes here
template <class Named> static std::string name_of(const Named &it) {
    shown_names += it.shown;
    return std::string(it.name);
}

static std::string raw(const sas::Fact &it) {
    return std::to_string(it.variable) + ' ' + std::to_string(it.value) + ' ' + name_of(it);
}

static void write_verdict(std::ostream &out, const sas::Answer &it) {
    if (it.steps()) {
        out << "plan valid: " << *it.steps() << " steps, cost " << it.cost().value() << '\n';
    } else if (it.failure() == sas::Failure::cost && it.sum() && it.cost()) {
        out << "plan invalid: cost is " << *it.sum() << ", not " << it.cost().value() << '\n';
    } else if (it.goal_fact()) {
        out << "plan invalid: goal fact " << *it.goal_fact() << " not reached\n";
    } else if (it.failing_step()) {
        out << "plan invalid: step " << *it.failing_step() << it.reason().substr(it.reason().find(": ")) << '\n';
    } else if (it.failure() == sas::Failure::state) {
        out << "state refused: " << it.reason() << '\n';
    }
}

static void write_refusal(std::ostream &out, sas::File file, const sas::Refusal &it) {
    const bool is_layer = it.place && !it.expected;
    out << file << " refused: " << (is_layer ? std::string(*it.place) : "line " + std::to_string(it.line.value())) << ": " << it.word << '\n';
    if (is_layer && it.line) {
        out << "  line " << *it.line << '\n';
    } else if (it.place && !is_layer) {
        out << "  at " << *it.place << '\n';
    }
    if (it.expected) {
        out << "  expected " << *it.expected << '\n';
    }
    if (it.wrong_number) {
        out << "  number " << it.wrong_number->number << " must be " << it.wrong_number->lowest << " to " << it.wrong_number->highest << '\n';
    }
    if (it.list_count) {
        out << "  line " << it.list_count->line << " counts " << it.list_count->items << '\n';
    }
    if (it.found) {
        out << "  " << *it.found << (it.text ? " " + std::string(*it.text) : "") << '\n';
    }
    if (it.hint) {
        out << "  hint " << *it.hint << '\n';
    }
}

static void write_summary(std::ostream &out, const sas::Summary &it) {
    out << "metric " << it.metric << "\nvariables " << it.variables << "\nderived " << it.derived << "\ngroups " << it.groups;
    out << "\noperators " << it.operators << "\nrules " << it.rules << '\n';
    for (const sas::Fact &fact : it.initial) {
        out << "initial " << raw(fact) << '\n';
    }
    for (const sas::Fact &fact : it.goal) {
        out << "goal " << raw(fact) << '\n';
    }
}

static void write_group(std::ostream &out, const sas::Group &it) {
    out << "group " << it.number << ' ' << it.verdict << (it.op ? " " + std::to_string(*it.op) : "") << '\n';
    if (it.line) {
        out << "  operator " << it.op.value() << " line " << *it.line << ' ' << it.name.value() << '\n';
        shown_names += it.shown;
    }
    for (const sas::Effect &effect : it.effects) {
        out << "  effect " << effect.number << " sets " << raw(effect.fact) << '\n';
    }
    for (const sas::Fact &fact : it.facts) {
        out << (it.verdict == sas::GroupVerdict::derived ? "  derived " : "  holds ") << raw(fact) << '\n';
    }
    if (it.may_remain) {
        out << "  may remain " << raw(*it.may_remain) << '\n';
    }
}

static void write_cause(std::ostream &out, const sas::Cause &it) {
    out << "    requires " << raw(it.required) << "\n    actual " << raw(it.actual) << "\n    since ";
    if (it.since) {
        out << "step " << it.since->number << ' ' << name_of(*it.since) << '\n';
    } else {
        out << "the initial state\n";
    }
    for (const sas::Rule &rule : it.rules) {
        out << "    rule " << rule.number << (rule.is_firing ? " derives " : " requires ") << raw(rule.fact) << '\n';
    }
    out << (it.no_rule ? "    no rule derives it\n" : "");
}

static void write_operators(std::ostream &out, const sas::Reasons &it) {
    for (const sas::BlockedOperator &blocked : it.operators) {
        out << "  operator " << blocked.op << " line " << blocked.line << '\n';
        for (const sas::Cause &cause : blocked.causes) {
            write_cause(out, cause);
        }
    }
    if (it.conflict) {
        out << "  operator " << it.conflict->op << " line " << it.conflict->line << '\n';
        for (const sas::Effect &effect : it.conflict->effects) {
            out << "    effect " << effect.number << " sets " << raw(effect.fact) << '\n';
        }
    }
}

static void write_reasons(std::ostream &out, const sas::Reasons &it) {
    if (it.step) {
        out << "  step " << it.step->number << ' ' << name_of(*it.step) << '\n';
    }
    if (const auto &similar = it.similar_operator) {
        out << "  similar operator " << similar->op << " line " << similar->line << ' ' << name_of(*similar) << '\n';
    }
    for (const sas::UnknownStep &further : it.further_steps) {
        out << "  step " << further.step.number << ' ' << name_of(further.step) << '\n';
        if (const auto &similar = further.similar_operator) {
            out << "  similar operator " << similar->op << " line " << similar->line << ' ' << name_of(*similar) << '\n';
        }
    }
    if (it.failing && it.total) {
        out << "  " << *it.failing << " of " << *it.total << (it.step ? " steps name no operator\n" : " goal facts fail\n");
    }
    write_operators(out, it);
    if (const auto &made = it.if_made) {
        out << "  if made anyway " << made->failing_later << " of " << made->later << " later steps fail\n";
        for (const sas::NamedStep &step : made->first_failing) {
            out << "    step " << step.number << ' ' << name_of(step) << '\n';
        }
        out << "  if made anyway " << made->failing_goal << " of " << made->goal << " goal facts fail\n";
    }
    for (const sas::GoalFact &goal : it.goal_facts) {
        out << "  goal fact " << goal.index << '\n';
        write_cause(out, goal.cause);
    }
    if (it.cost) {
        out << "  metric " << it.cost->metric << "\n  steps " << it.cost->steps << "\n  sum of cost lines " << it.cost->cost_lines << '\n';
    }
    if (it.hint) {
        out << "  hint " << *it.hint << '\n';
    }
    if (it.could_also_be) {
        out << "  step " << it.could_also_be->step << " could also be operator " << it.could_also_be->op << '\n';
    }
}

static void write_trace(std::ostream &out, const sas::Answer &it) {
    std::uint64_t number = 0;
    for (const sas::Fact &fact : it.initial()) {
        out << "initial " << raw(fact) << '\n';
    }
    for (const sas::Step &step : it.trace_steps()) {
        out << "step " << ++number << ' ' << step.op << ' ' << step.cost << ' ' << step.name << '\n';
        for (const sas::Change &change : step.changes) {
            out << "change " << change.variable << ' ' << change.old_value << ' ' << change.new_value << ' ' << change.name << '\n';
        }
    }
}

static void print(std::ostream &out, const sas::Answer &it) {
    out << it << '\n' << it.reasons() << '\n';
    for (const sas::Fact &fact : it.initial()) {
        out << fact << '\n';
    }
    for (const sas::Step &step : it.trace_steps()) {
        out << step << '\n';
        for (const sas::Change &change : step.changes) {
            out << change << '\n';
        }
    }
}

int main() {
    int number = 0;
    std::size_t length = 0;
    while (std::cin >> number >> length && std::cin.get() == '\n') {
        sas::Answer answer{number == 0 ? sas::Status::yes : sas::Status::no, std::string(length, '\0')};
        std::cin.read(answer.text.data(), static_cast<std::streamsize>(length));
        // memory of just this size, so that a sanitizer sees what is read behind it
        answer.text.shrink_to_fit();
        std::ostringstream again, printed;
        shown_names = 0;
        write_trace(again, answer);
        if (const auto refusal = answer.refusal()) {
            write_refusal(again, answer.refused_file().value(), *refusal);
        } else {
            write_verdict(again, answer);
            write_reasons(again, answer.reasons());
        }
        if (const auto summary = answer.summary()) {
            write_summary(again, *summary);
        }
        for (const sas::Group &group : answer.groups()) {
            write_group(again, group);
        }
        print(printed, answer);
        tell(values_of(answer));
        tell(again.str());
        tell(printed.str());
    }
}
