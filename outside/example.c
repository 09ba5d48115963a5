/* The calls from C: the moves of the survey 2 3, a refusal, and the same moves with a stop in the middle. From the repository's
 * root, once outside/build has made the library:
 *     cc -I outside/include -o target/example outside/example.c target/staticlib/libcapi.a && target/example */
#include "gray.h"
#include <inttypes.h>
#include <stdio.h>

static void print_moves(const uint8_t *moves, uint64_t made) {
    for (uint64_t i = 0; i < made; i++) {
        printf("%d %s\n", moves[i] & 127, moves[i] >> 7 ? "down" : "up");
    }
}

int main(void) {
    const uint8_t radices[] = {2, 3}; /* sluice 2 has two notches, sluice 1 three */
    uint8_t moves[16], setting[2];
    uint64_t made;
    printf("settings %" PRId64 "\n", gray_size(radices, 2));
    int64_t value = gray_moves(radices, 2, 1, sizeof moves, moves, sizeof moves, &made);
    print_moves(moves, made);
    printf("%s after %" PRIu64 " moves\n", value == 1 ? "end" : "more", made);
    value = gray_moves(radices, 2, 33, sizeof moves, moves, sizeof moves, &made);
    printf("refused %" PRId64 ", %" PRIu64 " moves\n", -value, made);

    gray_moves(radices, 2, 1, 3, moves, sizeof moves, &made);
    print_moves(moves, made);
    gray_word(radices, 2, made, setting, sizeof setting); /* after so many moves: all that has to be kept */
    printf("stop at %d.%d\n", setting[0], setting[1]);
    value = gray_resume_moves(radices, 2, 1, setting, sizeof setting, sizeof moves, moves, sizeof moves, &made);
    print_moves(moves, made);
    printf("%s after %" PRIu64 " moves more\n", value == 1 ? "end" : "more", made);
    return 0;
}
