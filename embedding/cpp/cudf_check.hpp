// cudf_check for C++17: the call described in cudf_check.h, with texts as std::string_view.
#ifndef CUDF_CHECK_HPP
#define CUDF_CHECK_HPP
#if __cplusplus < 201703L
#error "cudf_check.hpp needs C++17: compile with -std=c++17"
#else

#include "cudf_check.h"

#include <cstddef>
#include <cstdint>
#include <exception>
#include <string>
#include <string_view>
#include <utility>
#include <vector>

namespace cudf_check {

enum class Status : std::uint8_t {
    yes = CUDF_CHECK_YES,
    no = CUDF_CHECK_NO,
    faulty = CUDF_CHECK_FAULTY,
    fail = CUDF_CHECK_FAIL,
    usage = CUDF_CHECK_USAGE,
    unread = CUDF_CHECK_UNREAD,
    memory = CUDF_CHECK_MEMORY,
};

// The status, and the report, or with Status::usage the message.
struct Answer {
    Status status;
    std::string report;
};

// A text, and the name that lines begin with if the word -H is given. A view without data is an empty text.
struct Document {
    std::string_view text, name;

    Document(std::string_view text, std::string_view name = {}) : text(text), name(name) {}
    Document(const std::string &text) : text(text) {}
};

// Does what the program does for these words, with the documents in place of its files, the last one in place of that of
// --better-than=NAME, if that is one of the words. Doesn't throw: if there is no
// memory for the report, the status is Status::memory, as if the library had none.
inline Answer run(const std::vector<std::string_view> &words, const std::vector<Document> &documents) noexcept
try {
    std::vector<cudf_check_text> texts;
    for (const std::string_view word : words)
        texts.push_back(cudf_check_text_of(word.data(), word.size()));
    std::vector<cudf_check_document> given;
    for (const auto &[text, name] : documents)
        given.push_back({cudf_check_text_of(text.data(), text.size()), cudf_check_text_of(name.data(), name.size())});
    std::string report(1 << 16, '\0');
    while (true) {
        std::size_t length = 0;
        const std::uint8_t status = cudf_check_run(texts.data(), texts.size(), given.data(), given.size(), report.data(),
                                                   report.size(), &length);
        const bool is_whole = length <= report.size();
        report.resize(length);
        if (is_whole)
            return {static_cast<Status>(status), std::move(report)};
    }
} catch (const std::exception &) {
    return {Status::memory, {}};
}

} // namespace cudf_check

#endif
#endif
