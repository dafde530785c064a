// The peer of `voxdag run --side SIDE FILE SCRIPT`, for scripts of fills, erases, stamps and counts: runs the script over
// a world of that side and writes what each command answered to SCRIPT.out.
//
//     script SIDE FILE SCRIPT
//
// It does the work in the same steps: both files are read whole, the models become lists of their cells, the script
// becomes a list of commands and is checked line by line, the commands run in order over one set of bits, x fastest,
// and the answers become one text, which is written at the end. A fault of the script ends it in the product's way: the
// line `voxdag: script 0 LINE KIND`, and status 5.

#include "vox.h"

#define LONGEST_FILE ((size_t)256 << 20)
#define LONGEST_SCRIPT ((size_t)8 << 20)
#define MOST_LINES 100000
#define MOST_RECORDS 65535
// A name and six numbers.
#define MOST_WORDS 7
// No line of an answer is longer than `100000 @65535 count 68719476736`.
#define LONGEST_ANSWER 40

enum fault {
    WORD = 1,
    NUMBER = 2,
    RANGE = 3,
    MISSING = 4,
    EXTRA = 5,
    NO_MODEL = 6,
    TOO_MANY_LINES = 7,
    NOT_ASCII = 9,
};

enum act { FILL, ERASE, COUNT, STAMP };

static const struct {
    const char *name;
    size_t words;
} commands[] = {{"fill", 7}, {"erase", 7}, {"count", 7}, {"stamp", 5}};

struct command {
    uint32_t line, model, at[3], size[3];
    enum act act;
};

struct script {
    size_t count;
    struct command list[MOST_LINES];
};

struct answer {
    uint32_t moment;
    uint64_t cells;
    bool is_full;
};

struct shape {
    uint32_t size[3];
    size_t count;
    struct voxel *cells;
};

struct shapes {
    size_t count;
    struct shape list[MOST_MODELS];
};

struct world {
    uint32_t side;
    uint64_t *bits;
};

// ---- the models' cells

static struct shape shape_of(const struct model *model)
{
    size_t words, count = 0;
    uint64_t *cells = cells_of(model, &words);
    for (size_t i = 0; i < words; i++)
        count += (size_t)__builtin_popcountll(cells[i]);
    const uint32_t *size = model->size;
    struct shape shape = {{size[0], size[1], size[2]}, 0, take(count * sizeof(struct voxel))};
    for (size_t i = 0; i < words; i++)
        for (uint64_t left = cells[i]; left; left &= left - 1) {
            size_t place = 64 * i + (size_t)__builtin_ctzll(left);
            struct voxel cell = {place % size[0], place / size[0] % size[1], place / size[0] / size[1], 1};
            shape.cells[shape.count++] = cell;
        }
    free(cells);
    return shape;
}

static void read_shapes(const uint8_t *bytes, size_t length, struct shapes *shapes)
{
    static struct models models;
    read_models(bytes, length, &models);
    shapes->count = models.count;
    for (size_t i = 0; i < models.count; i++) {
        shapes->list[i] = shape_of(&models.list[i]);
        free(models.list[i].voxels);
    }
}

// ---- the script

struct text {
    const uint8_t *begin;
    size_t length;
};

_Noreturn static void refuse_line(uint32_t line, enum fault fault)
{
    printf("voxdag: script 0 %u %d\n", line, fault);
    exit(5);
}

static bool is_space(uint8_t byte)
{
    return byte == ' ' || byte == '\t';
}

static bool is_plain(const uint8_t *line, size_t length)
{
    for (size_t i = 0; i < length; i++)
        if (line[i] != '\t' && (line[i] < 32 || line[i] > 126))
            return false;
    return true;
}

// The number of words of the line, of which the first are put in `words`.
static size_t split(const uint8_t *line, size_t length, struct text words[MOST_WORDS])
{
    size_t count = 0;
    for (size_t i = 0; i < length;) {
        size_t begin = i;
        while (i < length && !is_space(line[i]))
            i++;
        if (i == begin) {
            i++;
            continue;
        }
        if (count < MOST_WORDS)
            words[count] = (struct text){line + begin, i - begin};
        count++;
    }
    return count;
}

static bool is_word(struct text word, const char *name)
{
    return word.length == strlen(name) && memcmp(word.begin, name, word.length) == 0;
}

static uint32_t read_number(uint32_t line, struct text word)
{
    uint32_t number = 0;
    if (word.length > 9)
        refuse_line(line, NUMBER);
    for (size_t i = 0; i < word.length; i++) {
        if (word.begin[i] < '0' || word.begin[i] > '9')
            refuse_line(line, NUMBER);
        number = 10 * number + (word.begin[i] - '0');
    }
    return number;
}

static void check_range(const struct command *command, uint32_t side)
{
    for (int axis = 0; axis < 3; axis++)
        if (command->size[axis] < 1 || command->at[axis] + command->size[axis] > side)
            refuse_line(command->line, RANGE);
}

static struct command read_command(uint32_t line, const struct text *words, size_t count, uint32_t side,
                                   const struct shapes *shapes)
{
    enum act act = FILL;
    while (act <= STAMP && !is_word(words[0], commands[act].name))
        act++;
    if (act > STAMP)
        refuse_line(line, WORD);
    if (count != commands[act].words)
        refuse_line(line, count < commands[act].words ? MISSING : EXTRA);
    uint32_t numbers[MOST_WORDS - 1];
    for (size_t i = 1; i < count; i++)
        numbers[i - 1] = read_number(line, words[i]);
    struct command command = {.line = line, .act = act};
    if (act == STAMP) {
        command.model = numbers[0];
        if (command.model >= shapes->count)
            refuse_line(line, NO_MODEL);
        memcpy(command.at, numbers + 1, sizeof command.at);
        memcpy(command.size, shapes->list[command.model].size, sizeof command.size);
    } else {
        memcpy(command.at, numbers, sizeof command.at);
        memcpy(command.size, numbers + 3, sizeof command.size);
    }
    check_range(&command, side);
    return command;
}

static void read_script(const uint8_t *text, size_t length, uint32_t side, const struct shapes *shapes,
                        struct script *script)
{
    uint32_t line = 0;
    script->count = 0;
    for (size_t at = 0; at < length;) {
        const uint8_t *begin = text + at, *end = memchr(begin, '\n', length - at);
        size_t bytes = end ? (size_t)(end - begin) : length - at;
        at += bytes + 1;
        if (bytes && begin[bytes - 1] == '\r')
            bytes--;
        if (++line > MOST_LINES)
            refuse_line(line, TOO_MANY_LINES);
        if (!is_plain(begin, bytes))
            refuse_line(line, NOT_ASCII);
        struct text words[MOST_WORDS];
        size_t count = split(begin, bytes, words);
        if (count && words[0].begin[0] != '#')
            script->list[script->count++] = read_command(line, words, count, side, shapes);
    }
}

// ---- the run

// Calls `each` on the parts of words that the box covers, and answers the sum of what it answers.
static uint64_t over_box(struct world *world, const struct command *box, uint64_t (*each)(uint64_t *word, uint64_t mask))
{
    uint64_t sum = 0;
    for (uint32_t z = box->at[2]; z < box->at[2] + box->size[2]; z++)
        for (uint32_t y = box->at[1]; y < box->at[1] + box->size[1]; y++) {
            size_t first = ((size_t)z * world->side + y) * world->side + box->at[0], last = first + box->size[0] - 1;
            for (size_t word = first / 64; word <= last / 64; word++) {
                uint64_t mask = ~(uint64_t)0;
                if (word == first / 64)
                    mask &= ~(uint64_t)0 << first % 64;
                if (word == last / 64)
                    mask &= ~(uint64_t)0 >> (63 - last % 64);
                sum += each(&world->bits[word], mask);
            }
        }
    return sum;
}

static uint64_t set_bits(uint64_t *word, uint64_t mask)
{
    *word |= mask;
    return 0;
}

static uint64_t clear_bits(uint64_t *word, uint64_t mask)
{
    *word &= ~mask;
    return 0;
}

static uint64_t count_bits(uint64_t *word, uint64_t mask)
{
    return (uint64_t)__builtin_popcountll(*word & mask);
}

static void stamp(struct world *world, const struct command *command, const struct shape *shape)
{
    for (size_t i = 0; i < shape->count; i++) {
        size_t x = command->at[0] + shape->cells[i].x, y = command->at[1] + shape->cells[i].y;
        size_t place = ((command->at[2] + (size_t)shape->cells[i].z) * world->side + y) * world->side + x;
        world->bits[place / 64] |= (uint64_t)1 << place % 64;
    }
}

// The number of records.
static uint32_t run(struct world *world, const struct script *script, const struct shapes *shapes, struct answer *answers)
{
    uint32_t records = 0;
    for (size_t i = 0; i < script->count; i++) {
        const struct command *command = &script->list[i];
        struct answer answer = {records, 0, false};
        if (command->act == COUNT) {
            answer.cells = over_box(world, command, count_bits);
        } else if (records == MOST_RECORDS) {
            answer.is_full = true;
        } else {
            answer.moment = ++records;
            if (command->act == STAMP)
                stamp(world, command, &shapes->list[command->model]);
            else
                over_box(world, command, command->act == FILL ? set_bits : clear_bits);
        }
        answers[i] = answer;
    }
    return records;
}

// ---- the answers

static char *put_text(char *to, const char *text)
{
    size_t length = strlen(text);
    memcpy(to, text, length);
    return to + length;
}

static char *put_number(char *to, uint64_t number)
{
    char digits[20];
    int count = 0;
    do {
        digits[count++] = '0' + number % 10;
        number /= 10;
    } while (number);
    while (count)
        *to++ = digits[--count];
    return to;
}

static char *put_answer(char *to, const struct command *command, const struct answer *answer)
{
    to = put_number(to, command->line);
    to = put_text(to, " @");
    to = put_number(to, answer->moment);
    if (command->act == COUNT)
        to = put_number(put_text(to, " count "), answer->cells);
    else
        to = put_text(to, answer->is_full ? " log full" : " ok");
    return put_text(to, "\n");
}

static void write_answers(const char *name, const struct script *script, const struct answer *answers)
{
    char *text = take(script->count * LONGEST_ANSWER), *end = text;
    for (size_t i = 0; i < script->count; i++)
        end = put_answer(end, &script->list[i], &answers[i]);
    char *file = take(strlen(name) + sizeof ".out");
    put_text(put_text(file, name), ".out")[0] = 0;
    FILE *stream = fopen(file, "wb");
    if (!stream || fwrite(text, 1, (size_t)(end - text), stream) != (size_t)(end - text) || fclose(stream))
        fail(file, strerror(errno));
    free(file);
    free(text);
}

int main(int argc, char **argv)
{
    if (argc != 4) {
        fprintf(stderr, "usage: script SIDE FILE SCRIPT\n");
        return 1;
    }
    static struct shapes shapes;
    static struct script script;
    size_t model_length, script_length;
    struct world world = {(uint32_t)atoi(argv[1]), NULL};
    uint8_t *model_bytes = read_whole(argv[2], LONGEST_FILE, &model_length);
    uint8_t *script_bytes = read_whole(argv[3], LONGEST_SCRIPT, &script_length);
    read_shapes(model_bytes, model_length, &shapes);
    free(model_bytes);
    read_script(script_bytes, script_length, world.side, &shapes, &script);
    free(script_bytes);

    world.bits = calloc(((size_t)world.side * world.side * world.side + 63) / 64, sizeof *world.bits);
    struct answer *answers = take(script.count * sizeof *answers);
    if (!world.bits)
        fail("memory", strerror(ENOMEM));
    uint32_t records = run(&world, &script, &shapes, answers);
    write_answers(argv[3], &script, answers);
    printf("scripts 1 records %u marks 0\n", records);
    return 0;
}
