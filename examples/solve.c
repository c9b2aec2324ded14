/* Reads a session file, solves it and prints as the program does:  solve FILE   (how to build it: include/quetzalcup.h) */
#include <inttypes.h>
#include <stdio.h>
#include <stdlib.h>

#include "quetzalcup.h"

static uint8_t *read_file(const char *path, size_t *length) {
    FILE *file = fopen(path, "rb");
    uint8_t *bytes = NULL;
    *length = 0;
    for (size_t got = 1; file != NULL && got > 0; *length += got) {
        bytes = realloc(bytes, *length + 65536);
        got = bytes == NULL ? 0 : fread(bytes + *length, 1, 65536, file);
    }
    if (file == NULL || ferror(file)) {
        perror(path);
        exit(2);
    }
    fclose(file);
    return bytes;
}

static void print(quetz_answer a, const int64_t *pressures, size_t cells) {
    printf("answer=%" PRIu32 "\nplace=%" PRIu32 "\nrounds=%" PRIu32 "\nworst=%" PRIu32 "\n", a.number, a.place, a.rounds, a.worst);
    printf("worstcell=%" PRIu32 "\nworstvalue=%" PRId32 "\ninterior=%" PRIu32 "\ndepth=%" PRIu32 "\n",
           a.worstcell, a.worstvalue, a.interior, a.depth);
    for (size_t c = 0; a.number == 0 && c < cells; c++) {
        printf("cell=%" PRId64 "\n", pressures[c]);
    }
}

int main(int count, char **words) {
    if (count != 2) {
        fprintf(stderr, "usage: %s FILE\n", words[0]);
        return 2;
    }
    size_t length;
    uint8_t *session = read_file(words[1], &length);
    int32_t *values = calloc(32 * 32 * 32, sizeof *values);
    quetz_session s = quetz_read(session, length, values, 32 * 32 * 32);
    if (s.answer.number != 0) {
        print(s.answer, NULL, 0);
        return 0;
    }
    size_t cells = (size_t)s.sides.nx * s.sides.ny * s.sides.nz;
    size_t bytes_length = quetz_byte_need(s.sides), floats_length = quetz_float_need(s.sides), words_length = quetz_word_need(s.sides);
    int64_t *pressures = calloc(cells, sizeof *pressures);
    uint8_t *bytes = calloc(bytes_length, 1);
    double *floats = calloc(floats_length, sizeof *floats);
    uint32_t *room = calloc(words_length, sizeof *room);
    quetz_task task = {s.sides, s.settings};
    quetz_answer a = quetz_solve(task, session + s.start, cells, values, cells, pressures, cells, bytes, bytes_length, floats, floats_length, room, words_length);
    print(a, pressures, cells);
    return 0;
}
