/* A whole host: reads a session (a mesh record, a field record, step records, narrow or wide as the mesh is) from standard input, prints the
 * lines of the run program and, on standard error, the budget. With a file name as argument it writes the last field record there, so that
 * the next session can start from it: cat mesh.bin last.bin steps.bin. */
#include <inttypes.h>
#include <stdio.h>
#include <string.h>

#include "lagoon_records.h"

/* The wide records are the longest. */
static uint8_t mesh[LAGOON_WIDE_MESH_BYTES(LAGOON_MAX_CELLS, LAGOON_MAX_FACES)];
static uint8_t step[LAGOON_WIDE_OUTFALLS_BYTES(LAGOON_MAX_CELLS, LAGOON_MAX_FACES, LAGOON_MAX_FACES)];
static uint8_t field[LAGOON_WIDE_FIELD_BYTES(LAGOON_MAX_CELLS)], next[LAGOON_WIDE_FIELD_BYTES(LAGOON_MAX_CELLS)];

static uint64_t refusal(uint32_t cause, uint32_t place)
{
    return (uint64_t)cause << 32 | place;
}

/* The readers answer 0, or what the run refuses the record for while it reads it. */
static uint64_t read_rest(uint8_t *record, size_t got, size_t length)
{
    return fread(record + got, 1, length - got, stdin) == length - got ? 0 : refusal(LAGOON_LENGTH, 0);
}

static uint64_t read_mesh(size_t *length)
{
    if (fread(mesh, 1, 4, stdin) < 4)
        return refusal(LAGOON_LENGTH, 0);
    if (!lagoon_is(mesh, lagoon_width_of(mesh), LAGOON_MESH))
        return refusal(LAGOON_HEAD, 0);
    if (lagoon_cells(mesh) == 0 || lagoon_cells(mesh) > LAGOON_MAX_CELLS)
        return refusal(LAGOON_LIMITS, 0);
    if (lagoon_faces(mesh) > LAGOON_MAX_FACES)
        return refusal(LAGOON_LIMITS, 1);
    *length = lagoon_mesh_bytes(lagoon_width_of(mesh), lagoon_cells(mesh), lagoon_faces(mesh));
    return read_rest(mesh, 4, *length);
}

static uint64_t read_field(enum lagoon_width width, size_t cells)
{
    if (fread(field, 1, 2, stdin) < 2)
        return refusal(LAGOON_LENGTH, 0);
    if (!lagoon_is(field, width, LAGOON_FIELD))
        return refusal(LAGOON_HEAD, 0);
    if (lagoon_get(field, LAGOON_KIND_BITS, LAGOON_CELLS_BITS) != cells)
        return refusal(LAGOON_HEAD, 1);
    return read_rest(field, 2, lagoon_field_bytes(width, cells));
}

static uint64_t read_step(size_t got, size_t cells, size_t faces, size_t rims, size_t *length)
{
    enum lagoon_width width = lagoon_width_of(mesh);
    int releases;
    if (got < 4)
        return refusal(LAGOON_LENGTH, 0);
    releases = lagoon_is(step, width, LAGOON_OUTFALLS);
    if (!releases && !lagoon_is(step, width, LAGOON_STEP))
        return refusal(LAGOON_HEAD, 0);
    if (lagoon_get(step, LAGOON_KIND_BITS, LAGOON_FACES_BITS) != faces)
        return refusal(LAGOON_HEAD, 1);
    *length = releases ? lagoon_outfalls_bytes(width, cells, faces, rims) : lagoon_step_bytes(width, faces, rims);
    return read_rest(step, 4, *length);
}

static int print_refused(char letter, uint64_t answer)
{
    printf("%c %" PRIu32 " %" PRIu32 "\n", letter, LAGOON_CAUSE(answer), LAGOON_PLACE(answer));
    fprintf(stderr, "%s refused: %s\n", letter == 'M' ? "mesh" : "field", lagoon_cause_text(LAGOON_CAUSE(answer)));
    return 0;
}

/* The eight cells with the highest concentration, in the board's order. */
static void print_board(size_t mesh_length, size_t field_length)
{
    uint64_t board[LAGOON_BOARD_NUMBERS] = {0};
    lagoon_board(mesh, mesh_length, field, field_length, board, LAGOON_BOARD_NUMBERS);
    for (uint64_t line = 0; line < board[0]; line++)
        printf("B %" PRIu64 " %" PRIu64 " %" PRIu64 "\n", board[1 + 3 * line], board[2 + 3 * line], board[3 + 3 * line]);
}

static uint64_t total(size_t mesh_length, size_t field_length)
{
    uint64_t sum = 0;
    lagoon_total(mesh, mesh_length, field, field_length, &sum, 1);
    return sum;
}

/* What all accepted steps brought in, released and took out. */
struct budget {
    uint64_t entered, released, gone;
};

/* Takes the steps until no byte is left, or one is refused by 11 or 13. */
static struct budget take_steps(size_t mesh_length, size_t cells, size_t faces, size_t rims)
{
    struct budget all = {0, 0, 0};
    size_t field_length = lagoon_field_bytes(lagoon_width_of(mesh), cells), step_length = 0, got;
    for (uint64_t n = 1; (got = fread(step, 1, 4, stdin)) > 0; n++) {
        uint64_t crossed[3], answer = read_step(got, cells, faces, rims, &step_length);
        int ends = answer != 0;
        if (!ends)
            answer = lagoon_step(mesh, mesh_length, field, field_length, step, step_length, next, field_length);
        if (answer != 0) {
            printf("%" PRIu64 " R %" PRIu32 " %" PRIu32 "\n", n, LAGOON_CAUSE(answer), LAGOON_PLACE(answer));
            if (ends)
                return all;
            continue;
        }
        lagoon_crossing(mesh, mesh_length, field, field_length, step, step_length, crossed, 3);
        all.entered += crossed[0];
        all.gone += crossed[1];
        all.released += crossed[2];
        memcpy(field, next, field_length);
        printf("%" PRIu64 " %" PRIu64 " %" PRIu64 " %" PRIu64 " %" PRIu64 "\n", n, crossed[0], crossed[1], total(mesh_length, field_length),
               crossed[2]);
    }
    return all;
}

static int write_field(const char *name, size_t length)
{
    FILE *file = fopen(name, "wb");
    if (file == NULL || fwrite(field, 1, length, file) != length || fclose(file) != 0) {
        perror(name);
        return 1;
    }
    return 0;
}

int main(int count, char **words)
{
    size_t mesh_length = 0, field_length, cells, faces, rims = 0;
    uint64_t first, last, answer = read_mesh(&mesh_length);
    struct budget all;
    if (answer != 0)
        return print_refused('M', answer);
    cells = lagoon_cells(mesh);
    faces = lagoon_faces(mesh);
    /* an empty field record is refused by 11, after the mesh has been judged */
    answer = lagoon_total(mesh, mesh_length, field, 0, &first, 0);
    if (LAGOON_CAUSE(answer) != LAGOON_LENGTH)
        return print_refused('M', answer);
    answer = read_field(lagoon_width_of(mesh), cells);
    if (answer != 0)
        return print_refused('F', answer);
    field_length = lagoon_field_bytes(lagoon_width_of(mesh), cells);
    answer = lagoon_total(mesh, mesh_length, field, field_length, &first, 1);
    if (answer != 0)
        return print_refused('F', answer);
    for (size_t f = 0; f < faces; f++)
        rims += lagoon_face_of(mesh, f).second == LAGOON_RIM;
    printf("0 0 0 %" PRIu64 " 0\n", first);
    all = take_steps(mesh_length, cells, faces, rims);
    print_board(mesh_length, field_length);
    last = total(mesh_length, field_length);
    fprintf(stderr, "budget: first total %" PRIu64 " + in %" PRIu64 " + released %" PRIu64 " - out %" PRIu64, first, all.entered, all.released, all.gone);
    fprintf(stderr, " = %" PRIu64 ", last total %" PRIu64 "\n", first + all.entered + all.released - all.gone, last);
    if (fflush(stdout) != 0 || ferror(stdin)) {
        perror("session");
        return 1;
    }
    return count > 1 ? write_field(words[1], field_length) : 0;
}
