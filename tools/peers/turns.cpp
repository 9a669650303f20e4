// Has parsers do a work on a text in turn, in one process.
//
//     turns measure MICROSECONDS ROUNDS WORKS FILE..     prints what each turn took, and what a document holds
//     turns repeat PARSER WORK REPEATS FILE              does a work alone, for a count of instructions
//
// WORKS are numbers between commas. It is built without pugixml where WITHOUT_PUGIXML is defined.
//
// A parser is a function that does a work so many times between two marks. At a mark the time and the memory in use are noted. The
// library marks by asking for MARK bytes, since it calls nothing of a program in C++.

#include <algorithm>
#include <cstdint>
#include <cstdio>
#include <cstdlib>
#include <cstring>
#include <fstream>
#include <iterator>
#include <malloc.h>
#include <sstream>
#include <string>
#include <time.h>
#include <vector>

#ifndef WITHOUT_PUGIXML
#include "pugixml.hpp"
#endif

static const size_t MARK = 5151515;

struct Mark {
    double nanoseconds;
    size_t held;
};

static Mark marks[2];
static int marked;
static bool counting;
static size_t held;

static double now() {
    timespec time;
    clock_gettime(CLOCK_THREAD_CPUTIME_ID, &time);
    return time.tv_sec * 1e9 + time.tv_nsec;
}

extern "C" void turns_mark() {
    if (marked < 2) {
        marks[marked++] = {now(), held};
    }
}

// The linker has these called in place of the allocator (--wrap).
extern "C" void* __real_malloc(size_t size);
extern "C" void* __real_calloc(size_t count, size_t size);
extern "C" void* __real_realloc(void* at, size_t size);
extern "C" void __real_free(void* at);

static void* taken(void* at) {
    if (counting) {
        held += malloc_usable_size(at);
    }
    return at;
}

extern "C" void* __wrap_malloc(size_t size) {
    if (size == MARK) {
        turns_mark();
        size = 16;
    }
    return taken(__real_malloc(size));
}

extern "C" void* __wrap_calloc(size_t count, size_t size) {
    return taken(__real_calloc(count, size));
}

extern "C" void* __wrap_realloc(void* at, size_t size) {
    if (counting) {
        held -= malloc_usable_size(at);
    }
    return taken(__real_realloc(at, size));
}

extern "C" void __wrap_free(void* at) {
    if (counting) {
        held -= malloc_usable_size(at);
    }
    __real_free(at);
}

typedef uint64_t (*Work)(const char* text, size_t length, uint32_t work, uint32_t repeats);

#ifndef WITHOUT_PUGIXML
static uint64_t turns_of_pugixml(const char* text, size_t length, uint32_t work, uint32_t repeats, unsigned options) {
    uint64_t parsed = 0;
    if (work != 0) {
        pugi::xml_document document;
        if (!document.load_buffer(text, length, options, pugi::encoding_utf8)) {
            return 0;
        }
        turns_mark();
        turns_mark();
        return 1;
    }
    turns_mark();
    for (uint32_t i = 0; i < repeats; i++) {
        pugi::xml_document document;
        parsed += bool(document.load_buffer(text, length, options, pugi::encoding_utf8));
    }
    turns_mark();
    return parsed;
}

// Without text that is white space alone.
static uint64_t turns_of_pugixml_trimmed(const char* text, size_t length, uint32_t work, uint32_t repeats) {
    return turns_of_pugixml(text, length, work, repeats, pugi::parse_full);
}

static uint64_t turns_of_pugixml_all(const char* text, size_t length, uint32_t work, uint32_t repeats) {
    return turns_of_pugixml(text, length, work, repeats, pugi::parse_full | pugi::parse_ws_pcdata);
}
#endif

// Declares the libraries, and lists them in LIBRARIES.
#include "libraries.hpp"

extern "C" uint64_t turns_of_crate(const char* text, size_t length, uint32_t work, uint32_t repeats);

struct Parser {
    const char* name;
    Work run;
    bool walks;
};

static const Parser PARSERS[] = {
    LIBRARIES
    {"crate", turns_of_crate, true},
#ifndef WITHOUT_PUGIXML
    {"pugixml", turns_of_pugixml_all, false},
    {"pugixml-trimmed", turns_of_pugixml_trimmed, false},
#endif
};

static std::string text_of(const char* path) {
    std::ifstream file(path, std::ios::binary);
    return std::string(std::istreambuf_iterator<char>(file), std::istreambuf_iterator<char>());
}

// The nanoseconds of one of so many repeats. A parse that is not counted goes before them, so that no parser is charged for pages that
// the one before it gave back to the system.
static double turn(const Parser& parser, const std::string& text, uint32_t work, uint32_t repeats, uint64_t* sum) {
    if (work == 0) {
        parser.run(text.data(), text.size(), 0, 1);
    }
    marked = 0;
    *sum = parser.run(text.data(), text.size(), work, repeats);
    return marked == 2 ? (marks[1].nanoseconds - marks[0].nanoseconds) / std::max(repeats, 1u) : 0;
}

static size_t held_by(const Parser& parser, const std::string& text) {
    marked = 0;
    held = 0;
    counting = true;
    parser.run(text.data(), text.size(), 1, 0);
    counting = false;
    return marks[0].held;
}

// How often a work is to be repeated to take so long, by the fastest of a few turns.
static uint32_t repeats_for(const Parser& parser, const std::string& text, uint32_t work, double nanoseconds) {
    uint64_t sum;
    uint32_t repeats = 1;
    for (int i = 0; i < 3; i++) {
        double one = turn(parser, text, work, repeats, &sum);
        repeats = std::max(1.0, std::min(nanoseconds / std::max(one, 1.0), 1e6));
    }
    return repeats;
}

static void measure(const char* path, double nanoseconds, int rounds, const char* works) {
    const std::string text = text_of(path);
    std::vector<const Parser*> takers;
    for (const Parser& parser : PARSERS) {
        uint64_t sum;
        turn(parser, text, 0, 1, &sum);
        if (sum == 0) {
            printf("refused\t%s\t%s\n", path, parser.name);
            continue;
        }
        takers.push_back(&parser);
        printf("held\t%s\t%s\t%zu\n", path, parser.name, held_by(parser, text));
    }
    std::istringstream numbers(works);
    for (std::string number; std::getline(numbers, number, ',');) {
        const uint32_t work = std::stoul(number);
        std::vector<const Parser*> doers;
        std::vector<uint32_t> repeats;
        for (const Parser* parser : takers) {
            if (work == 0 || parser->walks) {
                doers.push_back(parser);
                repeats.push_back(repeats_for(*parser, text, work, nanoseconds));
            }
        }
        std::vector<std::vector<double>> times(doers.size());
        std::vector<uint64_t> sums(doers.size());
        for (int round = 0; round < rounds; round++) {
            for (size_t i = 0; i < doers.size(); i++) {
                const size_t who = (i + round) % doers.size();
                times[who].push_back(turn(*doers[who], text, work, repeats[who], &sums[who]));
            }
        }
        for (size_t i = 0; i < doers.size(); i++) {
            std::sort(times[i].begin(), times[i].end());
            printf("time\t%s\t%s\t%u\t%.2f\t%.2f\t%llu\n", path, doers[i]->name, work, times[i].front(),
                   times[i][times[i].size() / 2], (unsigned long long)(sums[i] / repeats[i]));
        }
    }
    fflush(stdout);
}

// Has the allocator keep the pages that it was given back, for all parsers alike. Else it hands them to the system and gets them anew,
// at thresholds that move with what was freed before, so that a parser would be charged for the sizes of another's tables.
static void keep_pages() {
    mallopt(M_MMAP_THRESHOLD, 32 << 20);
    mallopt(M_TRIM_THRESHOLD, 1 << 30);
}

int main(int count, char** words) {
    keep_pages();
    if (count > 5 && !strcmp(words[1], "measure")) {
        for (int i = 5; i < count; i++) {
            measure(words[i], atof(words[2]) * 1000, atoi(words[3]), words[4]);
        }
        return 0;
    }
    if (count == 6 && !strcmp(words[1], "repeat")) {
        const std::string text = text_of(words[5]);
        for (const Parser& parser : PARSERS) {
            uint64_t sum;
            if (!strcmp(parser.name, words[2])) {
                turn(parser, text, atoi(words[3]), atoi(words[4]), &sum);
                return sum == 0;
            }
        }
    }
    fprintf(stderr, "usage: turns measure MICROSECONDS ROUNDS WORKS FILE.. | turns repeat PARSER WORK REPEATS FILE\n");
    return 2;
}
