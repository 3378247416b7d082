// A host in C++: the matrix of the README's host in C, with the alert's sources by name.
#include <array>
#include <iostream>
#include <vector>
#include <yaslaurel.h>

int main()
{
    const std::array<const char *, 5> names{{"north.positions", "totals", "south.report", "netting", "desk"}};
    const std::array<uint32_t, 2> reads{{1, 2}}, writes{{2, 4}}; // bits of objects 0 to 2, for netting and for the desk
    const std::array<std::array<uint32_t, 3>, 4> steps{
        {{{YASLAUREL_READ, 3, 0}}, {{YASLAUREL_APPEND, 3, 1}}, {{YASLAUREL_READ, 4, 1}}, {{YASLAUREL_APPEND, 4, 2}}}};
    std::vector<uint8_t> image(YASLAUREL_OUTPUT_LENGTH), record(YASLAUREL_RECORD_LENGTH);
    std::vector<uint64_t> session(YASLAUREL_SESSION_LENGTH);
    uint64_t receiver = 0, tag = 0;
    uint32_t position = 0, length = yaslaurel_matrix_policy(reads.data(), 2, writes.data(), 2, 3, image.data(), image.size());
    if (yaslaurel_session_start(image.data(), length, session.data(), session.size()) != YASLAUREL_ACCEPTED)
        return 1;
    for (const auto &step : steps) {
        yaslaurel_record(step[0], step[1], step[2], YASLAUREL_NO_USER, record.data());
        uint32_t answer = yaslaurel_step(session.data(), session.size(), record.data(), record.size(), &receiver, &tag, &position);
        if (answer == YASLAUREL_ALERT) {
            std::cout << "alert: " << names[receiver] << " now holds";
            for (size_t atom = 0; atom < 3; atom++)
                if (tag >> atom & 1)
                    std::cout << ' ' << names[atom];
            std::cout << '\n';
        } else if (answer != YASLAUREL_QUIET) {
            std::cerr << "answer " << answer << ": " << yaslaurel_meaning(answer) << '\n';
            return 1;
        }
    }
}
