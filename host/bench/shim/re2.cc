// RE2 as a few C functions: a pattern over bytes (Latin-1), matched whole, with no part of the text asked for.
#include <re2/re2.h>

#include <cstddef>

extern "C" {

// The machine of a pattern, or null if RE2 does not take it.
RE2 *bench_re2_new(const char *pattern, size_t length) {
    RE2::Options options;
    options.set_encoding(RE2::Options::EncodingLatin1);
    options.set_longest_match(false);
    options.set_log_errors(false);
    RE2 *made = new RE2(re2::StringPiece(pattern, length), options);
    if (made->ok()) return made;
    delete made;
    return nullptr;
}

// Whether the whole text is accepted.
bool bench_re2_full(const RE2 *machine, const char *text, size_t length) {
    return RE2::FullMatch(re2::StringPiece(text, length), *machine);
}

void bench_re2_free(RE2 *machine) { delete machine; }

}
