// cudf_check from C++17: checks an answer and a malformed problem, both explained; counts and ranks;
// makes a CNF, and checks proofs that there is no solution, or no better one; goes through a report by pages. Prints
// embedding/expected.txt.
//
//     c++ -std=c++17 -Iinclude embedding/cpp/example.cpp lib/libcudf_check.a -o example
#include "cudf_check.hpp"

#include <iostream>
#include <sstream>
#include <string>
#include <string_view>
#include <utility>
#include <vector>

namespace {

// car 1 is installed and needs a newer wheel than the one that is installed with it
constexpr std::string_view problem = R"(package: car
version: 1
depends: wheel > 2
installed: true

package: wheel
version: 2
installed: true

package: wheel
version: 3

request: no upgrade
install: car
)";
constexpr std::string_view old_wheel = R"(package: car
version: 1
installed: true

package: wheel
version: 2
installed: true
)";
constexpr std::string_view new_wheel = R"(package: car
version: 1
installed: true

package: wheel
version: 3
installed: true
)";
constexpr std::string_view both_wheels = R"(package: car
version: 1
installed: true

package: wheel
version: 2
installed: true

package: wheel
version: 3
installed: true
)";
constexpr std::string_view faulty = "package: car\nversion: one\n\nrequest:\n";
// no wheel is new enough; and what a SAT solver may say of the CNF
constexpr std::string_view unsolvable = R"(package: car
version: 1
depends: wheel > 2

package: wheel
version: 2

request:
install: car
)";
constexpr std::string_view proof = "3 0 2 1 0\n";

constexpr int packages = 10000, lines = 1000;

int number(cudf_check::Status status)
{
    return static_cast<int>(status);
}

void print(std::string_view job, const cudf_check::Answer &answer)
{
    std::cout << '\n' << job << ": status " << number(answer.status) << '\n' << answer.report;
}

void print_fault(std::string_view job, const cudf_check::Answer &answer)
{
    std::istringstream report(answer.report);
    std::string whose, word, kind, text;
    int line = 0;
    char colon = 0;
    report >> whose >> word >> line >> colon >> kind >> std::ws;
    std::getline(report, text);
    std::cout << '\n' << job << ": status " << number(answer.status) << ", " << kind << " on line " << line << " of the "
              << whose << ": " << text << '\n';
}

// A problem of packages that are installed and need what isn't there. As its own answer it is no solution.
std::string broken(int count)
{
    std::ostringstream text;
    for (int number = 1; number <= count; number++)
        text << "package: p" << number << "\nversion: 1\ndepends: none\ninstalled: true\n\n";
    text << "request:\n";
    return text.str();
}

// The pages of a listing, without the ends of all but the last of them, and how many they are.
std::pair<std::string, int> by_pages(const std::string &text)
{
    constexpr std::string_view more = "\nmore after ";
    const std::string limit = "--limit=" + std::to_string(lines);
    std::vector<std::string_view> words = {"check", limit};
    std::string together, after;
    for (int pages = 1;; pages++) {
        const std::string page = cudf_check::run(words, {text, text}).report;
        const std::size_t end = page.find(more);
        if (end == page.npos)
            return {together + page, pages};
        together += page.substr(0, end + 1);
        const std::size_t key = end + more.size();
        after = "--after=" + page.substr(key, page.find('\n', key) - key);
        words = {"check", limit, after};
    }
}

} // namespace

int main()
{
    std::cout << cudf_check::run({"--version"}, {}).report;
    print("check", cudf_check::run({"check", "--explain"}, {problem, old_wheel}));
    print_fault("lint", cudf_check::run({"lint", "--explain"}, {faulty}));
    print("score", cudf_check::run({"score"}, {problem, new_wheel}));
    print("rank", cudf_check::run({"rank", "--criteria=-changed,-touched"}, {problem, old_wheel, both_wheels, new_wheel}));
    print("cnf", cudf_check::run({"cnf"}, {unsolvable}));
    print("refute", cudf_check::run({"refute"}, {unsolvable, proof}));
    // an answer that removes nothing can't be bettered: the proof isn't needed
    print("better",
          cudf_check::run({"refute", "--better-than=answer", "--criteria=-removed"}, {problem, std::string(), new_wheel}));

    const std::string many = broken(packages);
    const auto [together, pages] = by_pages(many);
    const bool is_same = together == cudf_check::run({"check"}, {many, many}).report;
    std::cout << "\npages: " << pages << " of at most " << lines << " lines, which together "
              << (is_same ? "are" : "aren't") << " the report of " << packages << '\n';
}
