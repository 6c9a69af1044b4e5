// libsas for C++17: bytes in, answers out, and a task that frees its own memory. sas.h describes what each call answers.
//
// If it is out of memory, a call throws std::bad_alloc. If an input has more than 4,294,967,296 bytes, it throws sas::InputTooLong.
// Without exceptions (-fno-exceptions), these and the others are a status of the answer, which then has no text. Threads may call at
// the same time, each with a sas::Task of its own.
#ifndef SAS_HPP
#define SAS_HPP

#if __cplusplus < 201703L
#error "sas.hpp requires C++17 or later: compile with -std=c++17"
#else

#include "sas.h"
#include "sas_answers.hpp"

#include <algorithm>
#include <cstddef>
#include <cstdint>
#include <initializer_list>
#include <iterator>
#include <new>
#include <stdexcept>
#include <string>
#include <string_view>
#include <type_traits>
#include <utility>
#include <vector>

namespace sas {

#ifndef __cpp_exceptions
// a program may have files that are compiled with exceptions, and others without
inline namespace without_exceptions {
#endif

// An input has more than 4,294,967,296 bytes.
struct InputTooLong : std::length_error {
    InputTooLong() : std::length_error("sas: input too long") {}
};

// An answer has more bytes than its limit.
struct AnswerTooLong : std::length_error {
    std::size_t size; // how many it has

    explicit AnswerTooLong(std::size_t it) : std::length_error("sas: answer too long: " + std::to_string(it) + " bytes"), size(it) {}
};

// A plan was given to a sas::Task that holds no task.
struct NoTask : std::logic_error {
    NoTask() : std::logic_error("sas: no task is held") {}
};

// The bytes aren't those of a layered task. The answer is that of `sas::check`.
struct Refused : std::runtime_error {
    Answer answer;

    explicit Refused(Answer it) : std::runtime_error(it.text.substr(0, it.text.find('\n'))), answer(std::move(it)) {}
};

// The most bytes that an answer may have. Calls whose answers may be long take it last: `sas::trace(task, plan, sas::Limit{1 << 20})`. If
// an answer is longer, the call throws sas::AnswerTooLong and takes no room for it. Inside the library the text takes memory in any case.
struct Limit {
    std::size_t max_answer_bytes = std::string::npos;
};

namespace detail {

// The type of the items of a container, a span or an array.
template <class T> using item = std::decay_t<decltype(*std::data(std::declval<const T &>()))>;

template <class T>
inline constexpr bool is_byte = sizeof(T) == 1 && (std::is_integral_v<T> || std::is_same_v<T, std::byte>);

// Whether a type is a container or a span of bytes.
template <class T, class = void> inline constexpr bool has_bytes = false;
template <class T> inline constexpr bool has_bytes<T, std::void_t<item<T>>> = !std::is_array_v<T> && is_byte<item<T>>;

// Whether a type is a container, a span or an array of 32-bit integers.
template <class T, class = void> inline constexpr bool has_numbers = false;
template <class T>
inline constexpr bool has_numbers<T, std::void_t<item<T>>> =
    std::is_same_v<item<T>, std::uint32_t> || std::is_same_v<item<T>, std::int32_t>;

} // namespace detail

// The bytes of a file: of a text, or of a container or a span of char, unsigned char or std::byte. The caller keeps them.
class Bytes {
public:
    Bytes(const char *text) noexcept : Bytes(std::string_view(text)) {}
    Bytes(const void *at, std::size_t length) noexcept : at_(at), length_(length) {}
    template <class Container, std::enable_if_t<detail::has_bytes<Container>, int> = 0>
    Bytes(const Container &it) noexcept : Bytes(std::data(it), std::size(it)) {}

    // Where the bytes begin, which isn't null.
    [[nodiscard]] const std::uint8_t *data() const noexcept {
        return static_cast<const std::uint8_t *>(length_ == 0 ? static_cast<const void *>("") : at_);
    }
    [[nodiscard]] std::size_t size() const noexcept { return length_; }

private:
    const void *at_;
    std::size_t length_;
};

// Numbers of operators, or a state, which is a value for each variable: any contiguous range of 32-bit integers, such as a container, a span or an array, or a list in braces. A negative
// number is that of no operator. The caller keeps them.
class Operators {
public:
    Operators(const std::uint32_t *at, std::size_t count) noexcept : at_(at), count_(count) {}
    Operators(std::initializer_list<std::uint32_t> it) noexcept : Operators(std::data(it), it.size()) {}
    template <class Range, std::enable_if_t<detail::has_numbers<Range>, int> = 0>
    Operators(const Range &it) noexcept : Operators(reinterpret_cast<const std::uint32_t *>(std::data(it)), std::size(it)) {}

    // Where the numbers begin, which isn't null.
    [[nodiscard]] const std::uint32_t *data() const noexcept { return count_ == 0 ? &none : at_; }
    [[nodiscard]] std::size_t size() const noexcept { return count_; }

private:
    static constexpr std::uint32_t none = 0;
    const std::uint32_t *at_;
    std::size_t count_;
};

namespace detail {

// the room that most answers fit in
constexpr std::size_t usual_room = 65536;

// How many variables a task has: its line 7.
inline std::uint32_t variables_of(Bytes task) noexcept {
    std::string_view rest(reinterpret_cast<const char *>(task.data()), task.size());
    std::uint32_t variables = 0;
    for (int line = 1; line < 7; ++line) {
        next_line(rest);
    }
    return take(rest, variables) ? variables : 0;
}

// A guess of how many bytes the initial state of a task has in a trace: 64 for each variable.
inline std::size_t initial_size_of(Bytes task) noexcept { return std::min(std::size_t(64) * variables_of(task), task.size()); }

// The room that most traces fit in.
inline std::size_t trace_room(std::size_t initial_size, Bytes plan) noexcept { return usual_room + initial_size + 10 * plan.size(); }

// Returns the status of a number without an answer, or throws its exception. `size` is that of an answer over its limit.
inline Status failure(sas_number number, [[maybe_unused]] std::size_t size) {
#ifdef __cpp_exceptions
    switch (number) {
    case SAS_ROOM_TOO_SHORT:
        throw AnswerTooLong(size);
    case SAS_OUT_OF_MEMORY:
        throw std::bad_alloc();
    case SAS_INPUT_TOO_LONG:
        throw InputTooLong();
    default:
        throw NoTask();
    }
#else
    return number == SAS_ROOM_TOO_SHORT   ? Status::answer_too_long
           : number == SAS_OUT_OF_MEMORY  ? Status::out_of_memory
           : number == SAS_INPUT_TOO_LONG ? Status::input_too_long
                                          : Status::no_task;
#endif
}

// Returns the answer of a call. The call gets a room of so many bytes, at most those of the limit. If the answer is longer, the call is
// repeated with a room that fits, unless that is over the limit.
template <class Call> Answer answer(std::size_t room, Limit limit, Call call) {
    std::string text;
    std::size_t size = std::min(room, limit.max_answer_bytes);
    sas_number number = SAS_ROOM_TOO_SHORT;
    while (number == SAS_ROOM_TOO_SHORT && size <= limit.max_answer_bytes) {
        text.assign(size, '\0');
        number = call(reinterpret_cast<std::uint8_t *>(text.data()), text.size(), &size);
    }
    if (number > SAS_NO) {
        return {failure(number, size), {}};
    }
    text.resize(size);
    text.shrink_to_fit();
    return {number == SAS_YES ? Status::yes : Status::no, std::move(text)};
}

inline Answer of_one(decltype(sas_check) *request, Bytes file, std::size_t room, Limit limit = {}) {
    return answer(room, limit, [=](std::uint8_t *at, std::size_t length, std::size_t *size) {
        return request(file.data(), file.size(), at, length, size);
    });
}

inline Answer of_both(decltype(sas_plan) *request, Bytes task, Bytes plan, std::size_t room, Limit limit = {}) {
    return answer(room, limit, [=](std::uint8_t *at, std::size_t length, std::size_t *size) {
        return request(task.data(), task.size(), plan.data(), plan.size(), at, length, size);
    });
}

} // namespace detail

// The version of the library, such as 1.1.0.
inline std::string_view version() noexcept { return sas_version(); }

inline Answer plan(Bytes task, Bytes plan) { return detail::of_both(sas_plan, task, plan, SAS_LINE_ROOM); }
inline Answer plan_why(Bytes task, Bytes plan, Limit limit = {}) {
    return detail::of_both(sas_plan_why, task, plan, detail::usual_room, limit);
}
inline Answer trace(Bytes task, Bytes plan, Limit limit = {}) {
    return detail::of_both(sas_trace, task, plan, detail::trace_room(detail::initial_size_of(task), plan), limit);
}
inline Answer check(Bytes task) { return detail::of_one(sas_check, task, SAS_LINE_ROOM); }
inline Answer check_why(Bytes task, Limit limit = {}) { return detail::of_one(sas_check_why, task, detail::usual_room, limit); }
inline Answer mutex(Bytes task, Limit limit = {}) { return detail::of_one(sas_mutex, task, detail::usual_room + task.size(), limit); }
inline Answer mutex_why(Bytes task, Limit limit = {}) {
    return detail::of_one(sas_mutex_why, task, detail::usual_room + task.size(), limit);
}
inline Answer show(Bytes task, Limit limit = {}) { return detail::of_one(sas_show, task, detail::usual_room + task.size(), limit); }
inline Answer print(Bytes task, Limit limit = {}) { return detail::of_one(sas_print, task, SAS_LINE_ROOM + task.size(), limit); }
inline Answer steps(Bytes plan, Limit limit = {}) { return detail::of_one(sas_steps, plan, SAS_LINE_ROOM + plan.size(), limit); }

// The values behind the steps of a run that go through, one for each variable. It converts to `true` if all do. Else the values are those
// before the step that doesn't; there are none if the start isn't a state of the task.
struct [[nodiscard]] State {
    Status status = Status::no;
    std::vector<std::uint32_t> values = {};

    explicit operator bool() const noexcept { return status == Status::yes; }
};

// A task that is read once, for many plans.
class Task {
public:
    // Holds no task.
    Task() noexcept = default;

    // Reads a task. One that isn't layered is refused: it throws sas::Refused, or without exceptions holds no task.
    explicit Task(Bytes task) {
        [[maybe_unused]] Answer answer = read(task);
#ifdef __cpp_exceptions
        if (!answer) {
            throw Refused(std::move(answer));
        }
#endif
    }

    Task(const Task &) = delete;
    Task &operator=(const Task &) = delete;
    Task(Task &&other) noexcept
        : held_(std::exchange(other.held_, none)), variables_(other.variables_), initial_size_(other.initial_size_),
          is_measured_(other.is_measured_) {}
    Task &operator=(Task &&other) noexcept {
        if (this != &other) {
            sas_task_free(&held_);
            held_ = std::exchange(other.held_, none);
            variables_ = other.variables_;
            initial_size_ = other.initial_size_;
            is_measured_ = other.is_measured_;
        }
        return *this;
    }
    ~Task() { sas_task_free(&held_); }

    // Whether a task is held.
    [[nodiscard]] bool is_held() const noexcept { return held_.is_there != 0; }

    // Reads a task in place of the one that was held, and answers as `sas::check`. If the answer is yes, the task is held, else none is.
    Answer read(Bytes task) {
        initial_size_ = detail::initial_size_of(task);
        variables_ = detail::variables_of(task);
        is_measured_ = false;
        return detail::answer(SAS_LINE_ROOM, {}, [&](std::uint8_t *at, std::size_t length, std::size_t *size) {
            return sas_task_read(&held_, task.data(), task.size(), at, length, size);
        });
    }

    // Whether a plan solves the task that is held: answers as `sas::plan`. If no task is held, it throws sas::NoTask, as do the next two
    // calls. None of the three reads the task again.
    Answer plan(Bytes plan) { return of_plan(sas_task_plan, plan, SAS_LINE_ROOM); }

    // Whether the steps that are these operators solve the task at this cost: answers as `sas::plan`, but no name is looked up.
    Answer plan_operators(Operators operators, std::uint64_t cost) {
        return detail::answer(SAS_LINE_ROOM, {}, [&](std::uint8_t *at, std::size_t length, std::size_t *size) {
            return sas_task_plan_operators(&held_, operators.data(), operators.size(), cost, at, length, size);
        });
    }

    // The same with the reasons for a no: answers as `sas::plan_why`.
    Answer plan_why(Bytes plan, Limit limit = {}) { return of_plan(sas_task_plan_why, plan, detail::usual_room, limit); }

    // The same after what each step changes: answers as `sas::trace`.
    Answer trace(Bytes plan, Limit limit = {}) {
        Answer it = of_plan(sas_task_trace, plan, detail::trace_room(initial_size_, plan), limit);
        if (!is_measured_ && detail::starts(it.text, "initial ")) {
            initial_size_ = std::min(it.text.find("\nstep "), it.text.size());
            is_measured_ = true;
        }
        return it;
    }

    // Whether the steps that are these operators solve the task at this cost, from a state on: a value for each variable, or none for the
    // initial state. Values of derived variables are computed anew. If the start isn't a state of the task, the answer refuses it.
    Answer run(Operators operators, std::uint64_t cost, Operators start = {}) {
        return of_run(sas_task_run, {operators.data(), operators.size(), cost, start.data(), start.size()}, SAS_LINE_ROOM);
    }

    // The same after what each step changes.
    Answer run_trace(Operators operators, std::uint64_t cost, Operators start = {}, Limit limit = {}) {
        const sas_run run = {operators.data(), operators.size(), cost, start.data(), start.size()};
        return of_run(sas_task_run_trace, run, detail::usual_room + initial_size_ + 100 * operators.size(), limit);
    }

    // The state that these operators lead to.
    State run_state(Operators operators, Operators start = {}) {
        const sas_run run = {operators.data(), operators.size(), 0, start.data(), start.size()};
        State it;
        std::size_t size = std::max<std::size_t>(variables_, 1);
        sas_number number = SAS_ROOM_TOO_SHORT;
        while (number == SAS_ROOM_TOO_SHORT) {
            it.values.assign(size, 0);
            number = sas_task_run_state(&held_, &run, it.values.data(), it.values.size(), &size);
        }
        it.values.resize(number <= SAS_NO ? size : 0);
        it.status = number == SAS_YES ? Status::yes : number == SAS_NO ? Status::no : detail::failure(number, 0);
        return it;
    }

private:
    Answer of_run(decltype(sas_task_run) *request, const sas_run &run, std::size_t room, Limit limit = {}) {
        return detail::answer(room, limit, [&](std::uint8_t *at, std::size_t length, std::size_t *size) {
            return request(&held_, &run, at, length, size);
        });
    }

    Answer of_plan(decltype(sas_task_plan) *request, Bytes plan, std::size_t room, Limit limit = {}) {
        return detail::answer(room, limit, [&](std::uint8_t *at, std::size_t length, std::size_t *size) {
            return request(&held_, plan.data(), plan.size(), at, length, size);
        });
    }

    static constexpr sas_task none = SAS_TASK_NONE;
    sas_task held_ = none;
    std::uint32_t variables_ = 0;
    // how many bytes the initial state has in each trace, which is a guess until the first one is there
    std::size_t initial_size_ = 0;
    bool is_measured_ = false;
};

#ifndef __cpp_exceptions
} // namespace without_exceptions
#endif

} // namespace sas

#endif
#endif
