// The example of include/sosnyavik.h from C++, calm, along the wind, by the listings and with buddies: by the plain
// calls, and by name as C++11 writes it and, from C++20 on, with designated initialisers. What is left out has its
// default.
#include <cstdio>
#include <cstdlib>
#include <cstring>

#include "sosnyavik.h"

namespace {

const int32_t first_guess[9] = {640, 640, 640, 640, 640, 640, 640, 640, 640};
const int32_t x[3] = {64, 0, 128}, y[3] = {64, 0, 128}, value[3] = {768, 576, 700};
const uint32_t observed[3] = {990, 1000, 990}, from[3] = {0, 0, 0};
const uint32_t until[3] = {SOSNYAVIK_NO_END, SOSNYAVIK_NO_END, 995};
const uint32_t no_end[3] = {SOSNYAVIK_NO_END, SOSNYAVIK_NO_END, SOSNYAVIK_NO_END};
const int32_t wind_u[3] = {10, 10, SOSNYAVIK_MISSING}, wind_v[3] = {0, 0, SOSNYAVIK_MISSING};
const int32_t radius[1] = {96}, limit[1] = {200};
const uint32_t left[3] = {0, 1, 0}, right[3] = {1, 2, 0}, top[3] = {1, 0, 0}, bottom[3] = {1, 1, 0};
const uint32_t bad_rules[3] = {0, 3, UINT32_MAX};
const int32_t bad_buddies[4][2] = {{0, 0}, {513, 0}, {1, -1}, {512, 2000001}};
const int32_t blocks[7] = {672, 757, 672, 768, 757, 768, 587};

struct Answer {
    int32_t grid[9];
    uint8_t support[9], verdict[3];
};

// What the plain calls give.
struct Answers {
    Answer calm, windy, listed, held;
};

void must(bool holds, const char *what) {
    if (holds)
        return;
    std::fprintf(stderr, "header: %s, from C++, is not as include/sosnyavik.h says\n", what);
    std::exit(1);
}

void must_answer(const sosnyavik_request &request, const Answer &expected, const char *what) {
    Answer whole = {}, part = {};
    sosnyavik_results results;
    results.grid = {whole.grid, 9};
    results.support = {whole.support, 9};
    results.verdict = {whole.verdict, 3};
    must(sosnyavik_request_analyse(&request, results) == 0, what);
    must(std::memcmp(&whole, &expected, sizeof whole) == 0, what);
    must(sosnyavik_request_reading_value(&request, results, 64, 64) == 11.828125, what);
    must(sosnyavik_request_reading_kind(&request, results, 64, 64) == SOSNYAVIK_BACKED, what);
    must(sosnyavik_request_summarise(&request, results).units.highest == 12.0, what);
    results.grid = {part.grid, 2};
    results.support = {part.support, 2};
    must(sosnyavik_request_window(&request, {0, 1, 1, 1}, results) == 0, what);
    must(part.grid[0] == expected.grid[3] && part.grid[1] == expected.grid[4], what);
    results.grid = {part.grid, 7};
    results.support = {part.support, 7};
    must(sosnyavik_request_windows(&request, {{left, 3}, {right, 3}, {top, 3}, {bottom, 3}}, results) == 0, what);
    must(std::memcmp(part.grid, blocks, sizeof blocks) == 0, what);
}

Answer along_wind() {
    Answer answer = {};
    must(sosnyavik_analyse(3, 3, first_guess, 9, x, 3, y, 3, value, 3, observed, 3, from, 3, until, 3, wind_u, 3,
                           wind_v, 3, 1, radius, 1, limit, 1, false, SOSNYAVIK_ALONG_WIND, SOSNYAVIK_EQUATIONS, false,
                           0, 0, 1000, 60, answer.grid, 9, answer.support, 9, answer.verdict, 3) == 0,
         "the example along the wind");
    must(answer.grid[1] == 648 && answer.grid[3] == 696 && answer.verdict[2] == 2, "the example along the wind");
    return answer;
}

Answer by_rule(uint32_t rule) {
    Answer answer = {};
    must(sosnyavik_analyse(3, 3, first_guess, 9, x, 3, y, 3, value, 3, observed, 3, from, 3, until, 3,
                           sosnyavik_no_wind(), 3, sosnyavik_no_wind(), 3, 1, radius, 1, limit, 1, false,
                           SOSNYAVIK_ROUND, rule, false, 0, 0, 1000, 60, answer.grid, 9, answer.support, 9,
                           answer.verdict, 3) == 0,
         "the example by a rule");
    must(answer.grid[0] == 587 && answer.grid[4] == 757 && answer.verdict[2] == 2, "the example by a rule");
    must(answer.grid[2] == (rule == SOSNYAVIK_LISTINGS ? 648 : 768), "a lone station of the example");
    return answer;
}

// The third mast is in service again, so that the one in the middle has two neighbours. They set it aside.
Answer with_buddies() {
    Answer answer = {};
    must(sosnyavik_analyse(3, 3, first_guess, 9, x, 3, y, 3, value, 3, observed, 3, from, 3, no_end, 3,
                           sosnyavik_no_wind(), 3, sosnyavik_no_wind(), 3, 1, radius, 1, limit, 1, false,
                           SOSNYAVIK_ROUND, SOSNYAVIK_EQUATIONS, true, 91, 129, 1000, 60, answer.grid, 9,
                           answer.support, 9, answer.verdict, 3) == 0,
         "the example with buddies");
    must(answer.verdict[0] == 21 && answer.verdict[1] == 0 && answer.verdict[2] == 0, "the example's buddies");
    must(answer.grid[0] == 576 && answer.grid[4] == 638 && answer.grid[8] == 700, "the example with buddies");
    return answer;
}

void must_show() {
    Answer shown = {};
    must(sosnyavik_windows(3, 3, first_guess, 9, left, 3, right, 3, top, 3, bottom, 3, x, 3, y, 3, value, 3, observed,
                           3, from, 3, until, 3, sosnyavik_no_wind(), 3, sosnyavik_no_wind(), 3, 1, radius, 1, limit, 1,
                           false, SOSNYAVIK_ROUND, SOSNYAVIK_EQUATIONS, false, 0, 0, 1000, 60, shown.grid, 7,
                           shown.support, 7) == 0,
         "the screen of the example");
    must(std::memcmp(shown.grid, blocks, sizeof blocks) == 0, "the screen of the example");
    must(shown.support[6] == 1 && shown.support[7] == 0 && shown.grid[7] == 0, "the screen's last entry");
}

sosnyavik_request by_assignment() {
    sosnyavik_request request = SOSNYAVIK_REQUEST();
    must(request.age == SOSNYAVIK_DEFAULT_AGE && request.x.at == nullptr && !request.smooth, "what is left out");
    must(request.mode == SOSNYAVIK_ROUND && request.wind_v.at == nullptr, "wind and mode, left out");
    must(request.rule == SOSNYAVIK_DEFAULT_RULE && request.rule == SOSNYAVIK_EQUATIONS, "rule, left out");
    must(!request.buddy && request.buddy_radius == 0 && request.buddy_limit == 0, "buddies, left out");
    request.nx = 3, request.ny = 3, request.first_guess = {first_guess, 9};
    request.x = {x, 3}, request.y = {y, 3}, request.value = {value, 3};
    request.observed = {observed, 3}, request.from = {from, 3}, request.until = {until, 3};
    request.scans = 1, request.radius = {radius, 1}, request.limit = {limit, 1};
    request.time = 1000, request.age = 60;
    return request;
}

// Along the wind, by the listings or with buddies, whole.
void must_give(const sosnyavik_request &request, const Answer &expected, const char *what) {
    Answer whole = {};
    sosnyavik_results results;
    results.grid = {whole.grid, 9};
    results.support = {whole.support, 9};
    results.verdict = {whole.verdict, 3};
    must(sosnyavik_request_analyse(&request, results) == 0, what);
    must(std::memcmp(&whole, &expected, sizeof whole) == 0, what);
}

void try_winds(const Answer &expected) {
    sosnyavik_request request = by_assignment();
    request.wind_u = {wind_u, 3}, request.wind_v = {wind_v, 3}, request.mode = SOSNYAVIK_ALONG_WIND;
    must_give(request, expected, "the example along the wind by name");
}

// Each call refuses it by the same number, and nothing is written.
void must_refuse(const sosnyavik_request &request, uint32_t number, const char *what) {
    Answer untouched = {}, before = {};
    sosnyavik_results whole, part, shown;
    whole.grid = {untouched.grid, 9}, whole.support = {untouched.support, 9};
    whole.verdict = {untouched.verdict, 3};
    part.grid = {untouched.grid, 2}, part.support = {untouched.support, 2};
    shown.grid = {untouched.grid, 7}, shown.support = {untouched.support, 7};
    must(sosnyavik_request_analyse(&request, whole) == number, what);
    must(sosnyavik_request_window(&request, {0, 1, 1, 1}, part) == number, what);
    must(sosnyavik_request_windows(&request, {{left, 3}, {right, 3}, {top, 3}, {bottom, 3}}, shown) == number, what);
    must(std::memcmp(&untouched, &before, sizeof before) == 0, what);
}

void try_rules(const Answer &expected) {
    sosnyavik_request request = by_assignment();
    request.rule = SOSNYAVIK_LISTINGS;
    must_give(request, expected, "the example by the listings by name");
    for (uint32_t rule : bad_rules) {
        request.rule = rule;
        must_refuse(request, 327680, "another rule");
    }
}

// Where the check is off its numbers are not read.
void try_buddies(const Answers &expected) {
    sosnyavik_request request = by_assignment();
    request.until = {no_end, 3};
    request.buddy = true, request.buddy_radius = 91, request.buddy_limit = 129;
    must_give(request, expected.held, "the example with buddies by name");
    request.until = {until, 3};
    for (const int32_t *numbers : bad_buddies) {
        request.buddy = true, request.buddy_radius = numbers[0], request.buddy_limit = numbers[1];
        must_refuse(request, 393222, "buddies out of range");
        request.buddy = false;
        must_answer(request, expected.calm, "buddies out of range where the check is off");
    }
}

#if __cplusplus >= 202002L
// Members in their order, some left out in the middle and at the end, and rule, buddies and age given in their place.
void try_designated(const Answers &expected) {
    sosnyavik_request request =
        SOSNYAVIK_REQUEST(.nx = 3, .ny = 3, .first_guess = {first_guess, 9}, .x = {x, 3}, .y = {y, 3},
                          .value = {value, 3}, .observed = {observed, 3}, .from = {from, 3}, .until = {until, 3},
                          .scans = 1, .radius = {radius, 1}, .limit = {limit, 1}, .time = 1000, .age = 60);
    must_answer(request, expected.calm, "the example with designated initialisers");
    sosnyavik_request along =
        SOSNYAVIK_REQUEST(.nx = 3, .ny = 3, .first_guess = {first_guess, 9}, .x = {x, 3}, .y = {y, 3},
                          .value = {value, 3}, .observed = {observed, 3}, .from = {from, 3}, .until = {until, 3},
                          .wind_u = {wind_u, 3}, .wind_v = {wind_v, 3}, .scans = 1, .radius = {radius, 1},
                          .limit = {limit, 1}, .mode = SOSNYAVIK_ALONG_WIND, .time = 1000, .age = 60);
    must_give(along, expected.windy, "the example along the wind with designated initialisers");
    sosnyavik_request by_listings =
        SOSNYAVIK_REQUEST(.nx = 3, .ny = 3, .first_guess = {first_guess, 9}, .x = {x, 3}, .y = {y, 3},
                          .value = {value, 3}, .observed = {observed, 3}, .from = {from, 3}, .until = {until, 3},
                          .scans = 1, .radius = {radius, 1}, .limit = {limit, 1}, .mode = SOSNYAVIK_ROUND,
                          .rule = SOSNYAVIK_LISTINGS, .time = 1000, .age = 60);
    must_give(by_listings, expected.listed, "the example by the listings with designated initialisers");
    sosnyavik_request with_neighbours =
        SOSNYAVIK_REQUEST(.nx = 3, .ny = 3, .first_guess = {first_guess, 9}, .x = {x, 3}, .y = {y, 3},
                          .value = {value, 3}, .observed = {observed, 3}, .from = {from, 3}, .until = {no_end, 3},
                          .scans = 1, .radius = {radius, 1}, .limit = {limit, 1}, .buddy = true, .buddy_radius = 91,
                          .buddy_limit = 129, .time = 1000, .age = 60);
    must_give(with_neighbours, expected.held, "the example with buddies with designated initialisers");
    sosnyavik_request bare = SOSNYAVIK_REQUEST(.nx = 3, .time = 1000);
    must(bare.age == SOSNYAVIK_DEFAULT_AGE && bare.until.count == 0, "what is not designated");
    must(bare.rule == SOSNYAVIK_DEFAULT_RULE && along.rule == SOSNYAVIK_EQUATIONS, "a rule that is not designated");
    must(!bare.buddy && !along.buddy && along.buddy_radius == 0, "buddies that are not designated");
}
#else
void try_designated(const Answers &) {}
#endif

} // namespace

int main() {
    const Answers plain = {by_rule(SOSNYAVIK_EQUATIONS), along_wind(), by_rule(SOSNYAVIK_LISTINGS), with_buddies()};
    must_show();
    must_answer(by_assignment(), plain.calm, "the example by name");
    try_winds(plain.windy);
    try_rules(plain.listed);
    try_buddies(plain);
    try_designated(plain);
    std::printf("header: the example from C++ %ld, by name too\n", __cplusplus);
}
