// makes each call with a limit of 1000 bytes, and prints what is thrown, or the status
#include <sas.hpp>
#include <iostream>
#ifdef __cpp_exceptions
#define TELL(CALL) \
    try { std::cout << (CALL).text; } \
    catch (const std::exception &it) { std::cout << it.what() << '\n'; }
#else
#define TELL(CALL) std::cout << int((CALL).status) << '\n';
#endif
int main() {
    sas::Task task;
    const sas::Limit limit{1000};
    TELL(sas::plan_why("", "", limit)) TELL(sas::trace("", "", limit))
    TELL(sas::check_why("", limit)) TELL(sas::mutex("", limit)) TELL(sas::mutex_why("", limit))
    TELL(sas::show("", limit)) TELL(sas::print("", limit)) TELL(sas::steps("", limit))
    TELL(task.plan_why("", limit)) TELL(task.trace("", limit))
    TELL(task.run_trace({}, 0, {}, limit))
}
