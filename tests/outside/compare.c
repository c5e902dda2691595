/* compare PROGRAM OTHER COUNT KEEP reads COUNT unit files from standard input, as generate writes them, and gives each to
 * both programs. They agree on a file if they write the same bytes and end with the same status, which is 0 or 1. The
 * first file on which they differ is stored in the file KEEP. The status is 0 if they agreed on all, 1 if not, and 2 if
 * the files or the programs could not be had. */
#include <errno.h>
#include <fcntl.h>
#include <stdbool.h>
#include <stdint.h>
#include <stdio.h>
#include <stdlib.h>
#include <string.h>
#include <sys/resource.h>
#include <sys/stat.h>
#include <sys/wait.h>
#include <unistd.h>

enum { LONGEST_FILE = 1 << 24, LONGEST_OUTPUT = 1 << 24, SECONDS = 20 };

struct bytes {
    uint8_t *data;
    size_t length, room;
};

/* What a program wrote and how it ended. */
struct answer {
    struct bytes output;
    int status;
};

static void fail(const char *what)
{
    fprintf(stderr, "compare: %s%s%s\n", what, errno != 0 ? ": " : "", errno != 0 ? strerror(errno) : "");
    exit(2);
}

static void make_room(struct bytes *bytes, size_t length)
{
    if (length > bytes->room) {
        bytes->data = realloc(bytes->data, length);
        bytes->room = length;
    }
    if (length > 0 && bytes->data == NULL)
        fail("memory");
    bytes->length = length;
}

/* The next file of the generator. */
static void read_file(struct bytes *file)
{
    uint8_t field[4];
    errno = 0;
    if (fread(field, 1, 4, stdin) != 4)
        fail("too few files");
    size_t length = (size_t)field[0] << 24 | (size_t)field[1] << 16 | (size_t)field[2] << 8 | field[3];
    if (length > LONGEST_FILE)
        fail("a file is too long");
    make_room(file, length);
    if (length > 0 && fread(file->data, 1, length, stdin) != length)
        fail("a file is cut");
}

static int temporary_file(void)
{
    FILE *stream = tmpfile();
    if (stream == NULL)
        fail("temporary file");
    return fileno(stream);
}

static void write_all(int to, const struct bytes *bytes)
{
    size_t done = 0;
    while (done < bytes->length) {
        ssize_t some = write(to, bytes->data + done, bytes->length - done);
        if (some <= 0)
            fail("write");
        done += (size_t)some;
    }
}

static void rewind_file(int file)
{
    if (lseek(file, 0, SEEK_SET) != 0)
        fail("seek");
}

static void empty_file(int file)
{
    rewind_file(file);
    if (ftruncate(file, 0) != 0)
        fail("truncate");
}

static void read_output(int from, struct bytes *output)
{
    struct stat about;
    size_t done = 0;
    if (fstat(from, &about) != 0)
        fail("stat");
    make_room(output, (size_t)about.st_size);
    while (done < output->length) {
        ssize_t some = pread(from, output->data + done, output->length - done, (off_t)done);
        if (some <= 0)
            fail("read");
        done += (size_t)some;
    }
}

/* A program that never ends, or never stops writing, is ended by a signal: that is no agreement. */
static void set_limits(void)
{
    struct rlimit seconds = {SECONDS, SECONDS}, bytes = {LONGEST_OUTPUT, LONGEST_OUTPUT};
    setrlimit(RLIMIT_CPU, &seconds);
    setrlimit(RLIMIT_FSIZE, &bytes);
}

static void become(const char *program, int input, int output)
{
    int unseen = open("/dev/null", O_WRONLY);
    if (unseen < 0 || dup2(input, 0) < 0 || dup2(output, 1) < 0 || dup2(unseen, 2) < 0)
        _exit(127);
    set_limits();
    execl(program, program, (char *)NULL);
    _exit(127);
}

/* Files on both sides, not pipes: neither side can wait for the other. */
static void run(const char *program, int input, int output, struct answer *answer)
{
    rewind_file(input);
    empty_file(output);
    pid_t child = fork();
    if (child < 0)
        fail("fork");
    if (child == 0)
        become(program, input, output);
    if (waitpid(child, &answer->status, 0) != child)
        fail("wait");
    read_output(output, &answer->output);
}

static bool ended_with(const struct answer *answer, int status)
{
    return WIFEXITED(answer->status) && WEXITSTATUS(answer->status) == status;
}

static bool same_bytes(const struct bytes *one, const struct bytes *other)
{
    return one->length == other->length && (one->length == 0 || memcmp(one->data, other->data, one->length) == 0);
}

static bool agree(const struct answer *one, const struct answer *other)
{
    bool accepted = ended_with(one, 0) && ended_with(other, 0);
    bool refused = ended_with(one, 1) && ended_with(other, 1);
    return (accepted || refused) && same_bytes(&one->output, &other->output);
}

/* The kinds of lines, by what stands in them: a letter, and the word that tells more. */
static struct kind {
    const char *letter, *word;
    unsigned long lines, of_a, of_b, bytes;
} kinds[] = {
    {"F", "", 0, 0, 0, 0},    {"M", "S", 0, 0, 0, 0},   {"M", "E", 0, 0, 0, 0},   {"X", "201", 0, 0, 0, 0}, {"X", "202", 0, 0, 0, 0},
    {"X", "301", 0, 0, 0, 0}, {"X", "302", 0, 0, 0, 0}, {"X", "303", 0, 0, 0, 0}, {"X", "401", 0, 0, 0, 0}, {"X", "501", 0, 0, 0, 0},
    {"R", "1", 0, 0, 0, 0},   {"R", "2", 0, 0, 0, 0},   {"R", "3", 0, 0, 0, 0},   {"R", "4", 0, 0, 0, 0},   {"R", "5", 0, 0, 0, 0},
    {"R", "10", 0, 0, 0, 0},  {"Z", "", 0, 0, 0, 0},    {"?", "", 0, 0, 0, 0},
};
enum { KINDS = sizeof kinds / sizeof *kinds };

static struct kind *find_kind(const char *letter, const char *word)
{
    for (size_t i = 0; i + 1 < KINDS; i++)
        if (strcmp(kinds[i].letter, letter) == 0 && (*kinds[i].word == '\0' || strcmp(kinds[i].word, word) == 0))
            return &kinds[i];
    return &kinds[KINDS - 1];
}

/* Counts a line by its kind. `R 2 A 17` names the channel in its third field, `A 1000 F 0 0 4` in its first. */
static void count_line(const uint8_t *line, size_t length)
{
    char text[64] = "", field[5][16] = {"", "", "", "", ""};
    memcpy(text, line, length < sizeof text ? length : sizeof text - 1);
    sscanf(text, "%15s %15s %15s %15s %15s", field[0], field[1], field[2], field[3], field[4]);
    bool whole = *field[0] == 'R' || *field[0] == 'Z';
    const char *letter = whole ? field[0] : field[2];
    const char *word = whole ? field[1] : *letter == 'M' ? field[4] : *letter == 'X' ? field[4] : "";
    const char *channel = whole ? field[2] : field[0];
    struct kind *kind = find_kind(letter, word);
    kind->lines++;
    kind->bytes += length;
    kind->of_a += *field[0] != 'Z' && strcmp(channel, "A") == 0;
    kind->of_b += *field[0] != 'Z' && strcmp(channel, "B") == 0;
}

static size_t line_length(const struct bytes *output, size_t from)
{
    const uint8_t *end = memchr(output->data + from, '\n', output->length - from);
    return end == NULL ? output->length - from : (size_t)(end - output->data) - from + 1;
}

static void count_lines(const struct bytes *output)
{
    for (size_t from = 0, length; from < output->length; from += length) {
        length = line_length(output, from);
        count_line(output->data + from, length);
    }
}

static void show_line(const char *program, const struct answer *answer, size_t from)
{
    size_t length = from < answer->output.length ? line_length(&answer->output, from) : 0;
    printf("  %s: ", program);
    if (WIFEXITED(answer->status))
        printf("status %d, ", WEXITSTATUS(answer->status));
    else
        printf("signal %d, ", WTERMSIG(answer->status));
    if (length == 0)
        printf("its output ends here\n");
    else
        printf("%.*s\n", (int)(length - (answer->output.data[from + length - 1] == '\n')), (const char *)answer->output.data + from);
}

/* Where the first line begins that is not the same in both, and its number. */
static size_t first_difference(const struct bytes *one, const struct bytes *other, unsigned long *number)
{
    size_t from = 0;
    for (*number = 1; from < one->length && from < other->length; ++*number) {
        size_t length = line_length(one, from);
        if (length != line_length(other, from) || memcmp(one->data + from, other->data + from, length) != 0)
            break;
        from += length;
    }
    return from;
}

static void keep_file(const char *path, const struct bytes *file)
{
    int to = open(path, O_WRONLY | O_CREAT | O_TRUNC, 0666);
    if (to < 0)
        fail(path);
    write_all(to, file);
    close(to);
}

static void show_difference(char **programs, const struct answer *answers, unsigned long number, const char *path)
{
    unsigned long line;
    size_t from = first_difference(&answers[0].output, &answers[1].output, &line);
    printf("file %lu is the first on which they differ; it is kept in %s; line %lu:\n", number, path, line);
    show_line(programs[0], &answers[0], from);
    show_line(programs[1], &answers[1], from);
    fflush(stdout);
}

/* The programs, what they answered last, and how they have fared so far. */
struct match {
    char **programs;
    const char *keep;
    int input, output;
    struct answer answers[2];
    unsigned long files, agreed, accepted, refused;
};

static void play(struct match *match, const struct bytes *file)
{
    empty_file(match->input);
    write_all(match->input, file);
    for (int i = 0; i < 2; i++)
        run(match->programs[i], match->input, match->output, &match->answers[i]);
}

/* The first program's lines are counted; the other's are the same, or there is a difference to show. */
static void judge(struct match *match, const struct bytes *file)
{
    const struct answer *answers = match->answers;
    bool none_so_far = match->agreed == match->files;
    match->files++;
    match->accepted += ended_with(&answers[0], 0);
    match->refused += ended_with(&answers[0], 1);
    count_lines(&answers[0].output);
    if (agree(&answers[0], &answers[1])) {
        match->agreed++;
    } else if (none_so_far) {
        keep_file(match->keep, file);
        show_difference(match->programs, answers, match->files, match->keep);
    }
}

static void show_counts(const struct match *match)
{
    unsigned long others = match->files - match->accepted - match->refused;
    printf("%lu files: %lu accepted, %lu refused", match->files, match->accepted, match->refused);
    if (others > 0)
        printf(", %lu ended otherwise", others);
    printf("\n%-6s %10s %10s %10s %12s\n", "line", "lines", "of A", "of B", "bytes");
    for (size_t i = 0; i < KINDS; i++) {
        const struct kind *kind = &kinds[i];
        if (i + 1 < KINDS || kind->lines > 0)
            printf("%-2s%-4s %10lu %10lu %10lu %12lu\n", kind->letter, kind->word, kind->lines, kind->of_a, kind->of_b, kind->bytes);
    }
    printf("%lu of %lu agreed\n", match->agreed, match->files);
}

int main(int argc, char **argv)
{
    if (argc != 5) {
        fputs("usage: compare PROGRAM OTHER COUNT KEEP <files\n", stderr);
        return 2;
    }
    struct bytes file = {NULL, 0, 0};
    struct match match = {.programs = argv + 1, .keep = argv[4]};
    match.input = temporary_file();
    match.output = temporary_file();
    for (unsigned long left = strtoul(argv[3], NULL, 10); left > 0; left--) {
        read_file(&file);
        play(&match, &file);
        judge(&match, &file);
    }
    show_counts(&match);
    free(file.data);
    free(match.answers[0].output.data);
    free(match.answers[1].output.data);
    return match.agreed == match.files ? 0 : 1;
}
