// The towns of README.md in C++: the same calls over strings, with an exception where there is no answer.
//
//     c++ towns.cpp $(pkg-config --cflags --libs sfm) -o towns
#include <sfm.h>
#include <iostream>
#include <new>
#include <sstream>
#include <stdexcept>
#include <string>

namespace {

// A text that a call wrote; it gives its memory back.
struct Text {
    sfm_text text = SFM_TEXT;
    Text() = default;
    Text(const Text &) = delete;
    Text &operator=(const Text &) = delete;
    ~Text() { sfm_free(&text); }
    std::string str() const { return std::string(reinterpret_cast<const char *>(text.at), text.len); }
};

const uint8_t *bytes(const std::string &text) {
    return reinterpret_cast<const uint8_t *>(text.data());
}

// The answer of an instance.
std::string solve(const std::string &instance) {
    Text out;
    uint32_t code = sfm_solve(bytes(instance), instance.size(), &out.text);
    if (code == SFM_MEMORY)
        throw std::bad_alloc();
    if (code == SFM_REFUSED)
        throw std::invalid_argument(out.str());
    return out.str();
}

// The verdict on an answer, or the refusal of its instance.
std::string check(const std::string &instance, const std::string &answer) {
    Text out;
    uint32_t code = sfm_check(bytes(instance), instance.size(), bytes(answer), answer.size(), &out.text);
    if (code == SFM_MEMORY)
        throw std::bad_alloc();
    return out.str();
}

} // namespace

int main() {
    const std::string towns =
        "sfm 1\n"
        "ground ash birch cedar dale\n"
        "weight ash:-5 birch:-5 cedar:-3 dale:-1\n"
        "cover 7 ash birch\n"
        "cover 4 cedar dale\n"
        "end\n";
    const std::string answer = solve(towns);
    std::istringstream lines(answer);
    std::string line;
    for (int i = 0; i < 6 && std::getline(lines, line); i++)
        std::cout << line << '\n';
    std::cout << check(towns, answer);
    std::cout << check(towns, answer.substr(0, answer.size() - 1));
    try {
        solve("sfm 1\nground ash ash\nend\n");
    } catch (const std::invalid_argument &refusal) {
        std::cout << refusal.what();
    }
    return 0;
}
