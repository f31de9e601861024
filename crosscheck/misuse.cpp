// Wrong words, and documents that are too long, of which there is one byte. For library.py.
#include "cudf_check.hpp"
#include <iostream>
int main()
{
    const std::string_view problem = "request:\n", none, long_one(problem.data(), SIZE_MAX);
    for (const auto &answer : {cudf_check::run({"check", "--after=x"}, {problem, none}), cudf_check::run({}, {}),
                               cudf_check::run({"rank", "--criteria=new"}, {problem, none, long_one}),
                               cudf_check::run({"lint"}, {long_one}), cudf_check::run({"refute"}, {none, long_one}),
                               cudf_check::run({"rank", "--criteria=-new"}, {problem, none, long_one})})
        std::cout << static_cast<int>(answer.status) << answer.report.substr(0, answer.report.find(' '));
}
