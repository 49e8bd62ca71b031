/* Runs a program on scripts that were made and then changed at random, and checks how each run ends.
 *
 *   soak PROGRAM COUNT SEED FOLDER
 *
 * The scripts are a function of the seed and their number. What a script asks for is read here on its own: the status and the text on standard error are then settled, and so is how many answers are printed. A script that ends otherwise is written into the folder, under its number. */
#define _GNU_SOURCE
#include <fcntl.h>
#include <stdbool.h>
#include <stdint.h>
#include <stdio.h>
#include <stdlib.h>
#include <string.h>
#include <sys/mman.h>
#include <sys/resource.h>
#include <sys/wait.h>
#include <unistd.h>

enum { MOST = 1 << 20, LONGEST = 1 << 16 };

typedef struct {
    size_t length;
    unsigned char bytes[MOST];
} Text;

static Text script, output, said;
static uint64_t state;

static uint64_t next_random(void) {
    uint64_t word = state += 0x9e3779b97f4a7c15u;
    word = (word ^ (word >> 30)) * 0xbf58476d1ce4e5b9u;
    word = (word ^ (word >> 27)) * 0x94d049bb133111ebu;
    return word ^ (word >> 31);
}

static size_t below(size_t bound) { return next_random() % bound; }

/* How scripts are made. */

static void put(const char *bytes, size_t length) {
    if (script.length + length > MOST) return;
    memcpy(script.bytes + script.length, bytes, length);
    script.length += length;
}

static void put_text(const char *text) { put(text, strlen(text)); }

static void put_number(size_t number) {
    char text[32];
    put(text, (size_t)sprintf(text, "%zu", number));
}

static void put_name(char letter) {
    put(&letter, 1);
    put_number(below(below(8) ? 5 : 12));
}

static void put_list(char letter) {
    size_t count = below(4);
    if (count == 0) put_text("-");
    for (size_t i = 0; i < count; i++) {
        if (i) put_text(",");
        put_name(letter);
    }
}

/* What stands in the fields of each line: a list, a name, a number or a kind. */
typedef struct {
    const char *word;
    const char *fields;
} Form;

static const Form FORMS[] = {
    {"type", "N"},   {"op", "KTVBN"}, {"block", "T"}, {"push", "ov"}, {"set", "oNv"},  {"succ", "ob"},
    {"back", "ob"}, {"backb", "br"}, {"unlink", "o"}, {"move", "ro"}, {"erase", "o"}, {"rauw", "vv"},
    {"verify", "o"},
};
enum { FORM_COUNT = sizeof FORMS / sizeof *FORMS };

static void put_line(const Form *form) {
    put_text(form->word);
    for (const char *field = form->fields; *field; field++) {
        put_text(" ");
        switch (*field) {
        case 'N': put_number(below(3)); break;
        case 'K': put_number(below(8)); break;
        case 'T': put_list('t'); break;
        case 'V': put_list('v'); break;
        case 'B': put_list('b'); break;
        default: put_name(*field);
        }
    }
    put_text("\n");
}

static void make_script(void) {
    script.length = 0;
    put_text("type 32\nop 5 t0 - - 2\nblock t0\nblock -\nop 4 t0 v0,v1 b0 0\n");
    size_t lines = below(24);
    for (size_t i = 0; i < lines; i++) put_line(&FORMS[below(FORM_COUNT)]);
}

/* Bytes that a change puts in, each with its length. */
#define BYTES(text) {text, sizeof text - 1}
static const struct {
    const char *bytes;
    size_t length;
} CHANGES[] = {
    BYTES(""),     BYTES(""),      BYTES("0"),      BYTES("1"),    BYTES("4294967295"),  BYTES("4294967296"),
    BYTES("-"),    BYTES(","),     BYTES(" "),      BYTES("\r"),   BYTES("99999999999999999999999"),
    BYTES("\n"),   BYTES("\r\n"),  BYTES("\0"),     BYTES("\xff"), BYTES("\xc3\xa9"),    BYTES("\xe2\x82"),
    BYTES("# "),   BYTES("\n# \n"), BYTES("v0"),    BYTES("o1"),   BYTES("00000000000"), BYTES("\t"),
    BYTES("+1"),   BYTES("erase o0\n"), BYTES("\xf0\x9f\x98\x80"), BYTES("\xed\xa0\x80"), BYTES("\xc0\xaf"),
};
enum { CHANGE_COUNT = sizeof CHANGES / sizeof *CHANGES };

/* What stands before a place, other bytes, and what stands from a second place on: this puts in, takes out, puts in the place of, cuts and repeats. */
static void change_script(void) {
    static Text old;
    old = script;
    size_t cut = below(old.length + 1);
    size_t from = below(4) ? cut + below(3) : below(old.length + 1);
    size_t change = below(CHANGE_COUNT), times = below(16) ? 1 : below(8) ? below(200) : below(LONGEST);
    if (below(12) == 0) from = old.length;
    script.length = 0;
    put((char *)old.bytes, cut);
    for (size_t i = 0; i < times; i++) put(CHANGES[change].bytes, CHANGES[change].length);
    if (from < old.length) put((char *)old.bytes + from, old.length - from);
    if (script.length > LONGEST) script.length = LONGEST;
}

/* What a script asks for. */

static bool is_utf8(const unsigned char *at, size_t left) {
    while (left) {
        size_t length = at[0] < 0x80 ? 1 : at[0] < 0xc2 ? 0 : at[0] < 0xe0 ? 2 : at[0] < 0xf0 ? 3 : at[0] < 0xf5 ? 4 : 0;
        if (length == 0 || length > left) return false;
        for (size_t i = 1; i < length; i++)
            if ((at[i] & 0xc0) != 0x80) return false;
        if (at[0] == 0xe0 && at[1] < 0xa0) return false;
        if (at[0] == 0xed && at[1] > 0x9f) return false;
        if (at[0] == 0xf0 && at[1] < 0x90) return false;
        if (at[0] == 0xf4 && at[1] > 0x8f) return false;
        at += length;
        left -= length;
    }
    return true;
}

typedef struct {
    const char *start;
    size_t length;
} Field;

static bool is_number(Field field, uint64_t most, uint64_t *number) {
    uint64_t value = 0;
    for (size_t i = 0; i < field.length; i++) {
        if (field.start[i] < '0' || field.start[i] > '9') return false;
        value = value * 10 + (uint64_t)(field.start[i] - '0');
        if (value > 4294967295u) return false;
    }
    *number = value;
    return field.length > 0 && value <= most;
}

static bool is_name(Field field, char letter) {
    uint64_t number;
    if (field.length == 0 || field.start[0] != letter) return false;
    return is_number((Field){field.start + 1, field.length - 1}, 4294967295u, &number);
}

static bool is_list(Field field, char letter) {
    if (field.length == 1 && field.start[0] == '-') return true;
    for (;;) {
        const char *comma = memchr(field.start, ',', field.length);
        size_t length = comma ? (size_t)(comma - field.start) : field.length;
        if (!is_name((Field){field.start, length}, letter)) return false;
        if (!comma) return true;
        field = (Field){comma + 1, field.length - length - 1};
    }
}

static bool is_huge;

static bool is_field(Field field, char form) {
    uint64_t number = 0;
    bool fits;
    switch (form) {
    case 'N':
        fits = is_number(field, 4294967295u, &number);
        is_huge |= number > 10000;
        return fits;
    case 'K': return is_number(field, 7, &number);
    case 'T': return is_list(field, 't');
    case 'V': return is_list(field, 'v');
    case 'B': return is_list(field, 'b');
    default: return is_name(field, form);
    }
}

/* Finds the form that a line has; it has none where the line is malformed. */
static const Form *form_of(const char *at, size_t length) {
    Field fields[8];
    size_t count = 0;
    for (size_t i = 0; i < length;) {
        size_t start = i;
        while (i < length && at[i] == ' ') i++;
        start = i;
        while (i < length && at[i] != ' ') i++;
        if (i == start) break;
        if (count == 8) return NULL;
        fields[count++] = (Field){at + start, i - start};
    }
    for (size_t form = 0; form < FORM_COUNT; form++) {
        const char *word = FORMS[form].word, *parts = FORMS[form].fields;
        if (strlen(word) != fields[0].length || memcmp(word, fields[0].start, fields[0].length)) continue;
        if (count != strlen(parts) + 1) return NULL;
        for (size_t i = 0; parts[i]; i++)
            if (!is_field(fields[i + 1], parts[i])) return NULL;
        return &FORMS[form];
    }
    return NULL;
}

/* What a line is answered with beside refusals: a name with the letter t, o or b, a finding (v), or ok (k). */
static char answer_form(const Form *form) {
    if (!strcmp(form->word, "type")) return 't';
    if (!strcmp(form->word, "op")) return 'o';
    if (!strcmp(form->word, "block")) return 'b';
    return strcmp(form->word, "verify") ? 'k' : 'v';
}

static bool is_skipped(const char *at, size_t length) {
    if (length && at[0] == '#') return true;
    for (size_t i = 0; i < length; i++)
        if (at[i] != ' ') return false;
    return true;
}

/* What each line is answered with beside refusals. */
static char asked[LONGEST];

/* The status, what is said, and how many answers there are. */
static int wanted(char *fault, size_t *answers) {
    *answers = 0;
    *fault = 0;
    is_huge = false;
    if (!is_utf8(script.bytes, script.length)) {
        strcpy(fault, "unreadable input\n");
        return 2;
    }
    const char *at = (char *)script.bytes, *end = at + script.length;
    for (size_t number = 1; at < end; number++) {
        const char *stop = memchr(at, '\n', (size_t)(end - at));
        size_t length = (size_t)((stop ? stop : end) - at);
        if (stop && length && at[length - 1] == '\r') length--;
        if (!is_skipped(at, length)) {
            const Form *form = form_of(at, length);
            if (!form) {
                sprintf(fault, "line %zu: malformed\n", number);
                return 2;
            }
            asked[(*answers)++] = answer_form(form);
        }
        if (!stop) break;
        at = stop + 1;
    }
    return 0;
}

/* How the program ends. */

static int memory_file(const Text *text) {
    int file = memfd_create("soak", 0);
    if (file < 0 || (text && write(file, text->bytes, text->length) != (ssize_t)text->length)) exit(2);
    if (text) lseek(file, 0, SEEK_SET);
    return file;
}

static void take(int file, Text *text) {
    ssize_t length = pread(file, text->bytes, MOST, 0);
    text->length = length < 0 ? 0 : (size_t)length;
    close(file);
}

static int run(const char *program) {
    int in = memory_file(&script), out = memory_file(NULL), error = memory_file(NULL), status;
    pid_t child = fork();
    if (child < 0) exit(2);
    if (child == 0) {
        struct rlimit memory = {1u << 29, 1u << 29}, seconds = {20, 20};
        setrlimit(RLIMIT_AS, &memory);
        setrlimit(RLIMIT_CPU, &seconds);
        dup2(in, 0);
        dup2(out, 1);
        dup2(error, 2);
        execl(program, program, (char *)NULL);
        _exit(127);
    }
    waitpid(child, &status, 0);
    close(in);
    take(out, &output);
    take(error, &said);
    return WIFEXITED(status) ? WEXITSTATUS(status) : 1000 + WTERMSIG(status);
}

static bool is_digits(const char **at) {
    const char *start = *at;
    while (**at >= '0' && **at <= '9') ++*at;
    return *at > start;
}

/* The unique name of a block without a label. */
static bool is_block_name(const char *line) {
    if (strncmp(line, "block", 5)) return false;
    line += 5;
    return is_digits(&line) && *line++ == 'v' && is_digits(&line) && !*line;
}

/* What verification finds: one of these, with a block's name or a code where one belongs to it. */
static bool is_finding(const char *line) {
    static const char *const OF_BLOCKS[] = {"fault MissingTerminator ", "fault TerminatorNotLast ", "fault EntryHasPred "};
    if (!strcmp(line, "ok") || !strcmp(line, "refused condition")) return true;
    if (!strcmp(line, "fault OperandNotUseOfDef")) return true;
    if (!strcmp(line, "fault Verifier 1") || !strcmp(line, "fault Verifier 2")) return true;
    for (size_t i = 0; i < sizeof OF_BLOCKS / sizeof *OF_BLOCKS; i++)
        if (!strncmp(line, OF_BLOCKS[i], strlen(OF_BLOCKS[i]))) return is_block_name(line + strlen(OF_BLOCKS[i]));
    return false;
}

/* An answer to a line of this form. */
static bool is_answer(const char *line, char form) {
    static const char *const REFUSALS[] = {"refused condition", "refused counter", "refused slots"};
    if (!strcmp(line, "refused memory")) return is_huge;
    if (form == 'v') return is_finding(line);
    for (size_t i = 0; i < sizeof REFUSALS / sizeof *REFUSALS; i++)
        if (!strcmp(line, REFUSALS[i])) return true;
    if (form == 'k') return !strcmp(line, "ok");
    if (strncmp(line, "made ", 5) || line[5] != form) return false;
    line += 6;
    return is_digits(&line) && !*line;
}

/* A value or block, and its uses. */
static bool is_listed(const char *line) {
    if (*line != 'v' && *line != 'b') return false;
    line++;
    if (!is_digits(&line) || *line++ != ':') return false;
    while (*line) {
        if (*line++ != ' ' || *line++ != 'o' || !is_digits(&line)) return false;
        if (*line++ != '.' || !is_digits(&line)) return false;
    }
    return true;
}

/* So many answers, and then the listing. */
static bool is_printed(size_t answers) {
    if (output.length == 0) return answers == 0;
    if (output.length == MOST || output.bytes[output.length - 1] != '\n') return false;
    output.bytes[output.length - 1] = 0;
    size_t number = 0;
    for (char *line = (char *)output.bytes; line; number++) {
        char *stop = strchr(line, '\n');
        if (stop) *stop = 0;
        if (!(number < answers ? is_answer(line, asked[number]) : is_listed(line))) return false;
        line = stop ? stop + 1 : NULL;
    }
    return number >= answers;
}

static bool says(const char *text) { return said.length == strlen(text) && !memcmp(said.bytes, text, said.length); }

static bool is_right(int status) {
    char fault[64];
    size_t answers;
    int right = wanted(fault, &answers);
    if (right == 2) return status == 2 && output.length == 0 && says(fault);
    if (status == 1 && is_huge) return says("out of memory\n");
    return status == 0 && says("") && is_printed(answers);
}

int main(int count, char **words) {
    if (count != 5) return 2;
    uint64_t scripts = strtoull(words[2], NULL, 10), seed = strtoull(words[3], NULL, 10);
    uint64_t ended[4] = {0}, wrong = 0;
    for (uint64_t number = 0; number < scripts; number++) {
        state = seed * 0x2545f4914f6cdd1du + number;
        make_script();
        for (size_t changes = below(5); changes; changes--) change_script();
        int status = run(words[1]);
        bool right = is_right(status);
        if (status < 4) ended[status]++;
        if (right) continue;
        wrong++;
        char path[4096];
        snprintf(path, sizeof path, "%s/script-%llu-%llu", words[4], (unsigned long long)seed, (unsigned long long)number);
        FILE *file = fopen(path, "w");
        if (file) {
            fwrite(script.bytes, 1, script.length, file);
            fclose(file);
        }
        printf("WRONG: status %d on %s\n", status, path);
    }
    printf("scripts=%llu status0=%llu status1=%llu status2=%llu status3=%llu wrong=%llu\n", (unsigned long long)scripts,
           (unsigned long long)ended[0], (unsigned long long)ended[1], (unsigned long long)ended[2],
           (unsigned long long)ended[3], (unsigned long long)wrong);
    return wrong != 0;
}
