/*
 * play text|numbers [IMAGE] < SCRIPT: plays a script on an image, or on the built-in one, through the C library, as the program does.
 * play text|numbers IMAGE SCRIPT [IMAGE SCRIPT].. plays several, one after another.
 * play why [IMAGE] < SCRIPT: behind each line it tells why each of the last steps went as it did, as `why 0` to `why 31` of `rviommu debug` do
 * behind each line of the same script.
 * With `text` each line is given to rviommu_line. With `numbers` each step is given to its function and its answer is told by what
 * that put; the other lines, which are questions or no lines, are given to rviommu_line.
 */
#include <inttypes.h>
#include <stdio.h>
#include <stdlib.h>
#include <string.h>

#include "rviommu.h"

#define MOST_WORDS 8
#define MOST_STEPS 32
#define MOST_LINES (1 << 12)
#define ROOM 321

enum how { TEXT, NUMBERS, WHY };

static void fail(const char *why) {
    fprintf(stderr, "play: %s\n", why);
    exit(1);
}

static uint8_t *contents(FILE *file, size_t *length) {
    size_t room = 1 << 16;
    uint8_t *bytes = malloc(room);
    *length = 0;
    while (bytes != NULL) {
        size_t count = fread(bytes + *length, 1, room - *length, file);
        *length += count;
        if (count == 0) {
            return bytes;
        }
        if (*length == room) {
            room *= 2;
            bytes = realloc(bytes, room);
        }
    }
    fail("out of memory");
    return NULL;
}

static bool number_of(const char *word, uint64_t *number) {
    bool is_hex = strncmp(word, "0x", 2) == 0;
    const char *digits = is_hex ? word + 2 : word;
    size_t count = strlen(digits);
    if (count == 0 || strspn(digits, is_hex ? "0123456789abcdefABCDEF" : "0123456789") != count || count > (is_hex ? 16 : 19)) {
        return false;
    }
    *number = strtoull(digits, NULL, is_hex ? 16 : 10);
    return true;
}

static bool bytes_of(const char *word, uint8_t *bytes, size_t *count) {
    size_t digits = strlen(word);
    if (digits == 0 || digits % 2 != 0 || digits > 128 || strspn(word, "0123456789abcdefABCDEF") != digits) {
        return false;
    }
    *count = digits / 2;
    for (size_t i = 0; i < *count; i++) {
        char pair[3] = {word[2 * i], word[2 * i + 1], 0};
        bytes[i] = (uint8_t)strtoul(pair, NULL, 16);
    }
    return true;
}

static void tell(uint32_t answer, uint64_t number, const uint8_t *bytes, size_t count) {
    static const char *const words[] = {"", "done", "", "idle", "", "bus error", "bad access", "no device", "misuse"};
    switch (answer) {
    case RVIOMMU_VALUE:
        printf("0x%" PRIx64 "\n", number);
        return;
    case RVIOMMU_BYTES:
        for (size_t i = 0; i < count; i++) {
            printf("%02x", bytes[i]);
        }
        printf("\n");
        return;
    case RVIOMMU_DENIED:
        printf("denied %" PRIu64 "\n", number);
        return;
    default:
        printf("%s\n", words[answer]);
    }
}

/* The number of a register that may be busy, by its name in a script; 3: it is none. */
static unsigned register_of(const char *name) {
    static const char *const names[] = {"ddtp", "cq", "fq"};
    unsigned i = 0;
    while (i < 3 && strcmp(name, names[i]) != 0) {
        i++;
    }
    return i;
}

/* Carries out a line by numbers, where it is a step of a plain form. */
static bool by_numbers(rviommu_t *platform, char *line) {
    char *words[MOST_WORDS];
    uint64_t n[MOST_WORDS];
    uint64_t number = 0;
    uint8_t bytes[64];
    size_t count = 0, length = 0;
    for (char *word = strtok(line, " \t\r"); word != NULL; word = strtok(NULL, " \t\r")) {
        if (count == MOST_WORDS) {
            return false;
        }
        words[count++] = word;
    }
    const char *verb = count > 0 ? words[0] : "";
    const char *way = count > 1 ? words[1] : "";
    size_t first = strcmp(verb, "load") == 0 || strcmp(verb, "store") == 0 || strcmp(verb, "cmd") == 0 ? 1 : 2;
    bool is_write = strcmp(verb, "dma") == 0 && strcmp(way, "write") == 0;
    size_t last = is_write && count == 5 ? 4 : count;
    for (size_t i = first; i < last; i++) {
        if (!number_of(words[i], &n[i - first])) {
            return false;
        }
    }
    size_t given = count > first ? count - first : 0;
    uint32_t answer;
    if (strcmp(verb, "load") == 0 && given == 2) {
        answer = rviommu_load(platform, n[0], n[1], &number);
    } else if (strcmp(verb, "store") == 0 && given == 3) {
        answer = rviommu_store(platform, n[0], n[1], n[2]);
    } else if (strcmp(verb, "cmd") == 0 && count == 1) {
        answer = rviommu_command(platform);
    } else if (strcmp(verb, "settle") == 0 && count == 2 && register_of(way) < 3) {
        answer = rviommu_settle(platform, (enum rviommu_register)register_of(way));
    } else if (strcmp(verb, "reg") == 0 && strcmp(way, "read") == 0 && given == 2) {
        answer = rviommu_reg_read(platform, n[0], n[1], &number);
    } else if (strcmp(verb, "reg") == 0 && strcmp(way, "write") == 0 && given == 3) {
        answer = rviommu_reg_write(platform, n[0], n[1], n[2]);
    } else if (strcmp(verb, "dma") == 0 && strcmp(way, "read") == 0 && given == 3 && n[2] >= 1 && n[2] <= 64) {
        length = (size_t)n[2];
        answer = rviommu_dma_read(platform, n[0], n[1], bytes, length, &number);
    } else if (is_write && given == 3 && bytes_of(words[4], bytes, &length)) {
        answer = rviommu_dma_write(platform, n[0], n[1], bytes, length, &number);
    } else if (strcmp(verb, "dev") == 0 && strcmp(way, "read") == 0 && given == 3) {
        answer = rviommu_dev_read(platform, n[0], n[1], n[2], &number);
    } else if (strcmp(verb, "dev") == 0 && strcmp(way, "write") == 0 && given == 4) {
        answer = rviommu_dev_write(platform, n[0], n[1], n[2], n[3]);
    } else if (strcmp(verb, "dev") == 0 && strcmp(way, "step") == 0 && given == 1) {
        answer = rviommu_dev_step(platform, n[0], &number);
    } else {
        return false;
    }
    tell(answer, number, bytes, length);
    return true;
}

static void by_text(rviommu_t *platform, const char *line, size_t length) {
    char answer[ROOM];
    size_t count;
    if (rviommu_line(platform, line, length, answer, sizeof answer, &count) != RVIOMMU_OK) {
        fail("no room");
    }
    if (count > 0) {
        printf("%s\n", answer);
    }
}

static void tell_tables(const struct rviommu_why *why) {
    if (why->way.kind == RVIOMMU_TO_NOWHERE) {
        printf(" stale denied %" PRIu32, why->way.cause);
    } else if (why->way.kind == RVIOMMU_BY_WALK) {
        printf(" stale addr=0x%" PRIx64, why->way.frame * 4096 + why->iova % 4096);
    } else {
        printf(" stale addr=0x%" PRIx64, why->iova);
    }
}

/* Tells one reason, with the lines of the steps in place of their numbers. */
static void tell_reason(const struct rviommu_why *why, const uint64_t *lines) {
    switch (why->kind) {
    case RVIOMMU_WHY_NO_ACCESS:
        printf("no access");
        break;
    case RVIOMMU_WHY_DENIED:
        printf("denied");
        break;
    case RVIOMMU_WHY_REGISTER:
        printf("register");
        break;
    case RVIOMMU_WHY_CONTEXT:
        printf("context %" PRIu64, lines[why->context]);
        break;
    default:
        printf("walked context=%" PRIu64 " walk=%" PRIu64 " current=%" PRIu64, lines[why->context], lines[why->walk], lines[why->current]);
    }
    if (why->is_stale) {
        tell_tables(why);
    }
    printf("\n");
}

/* Why the last steps went as they did, behind the line of this number, counted from 0. */
static void tell_reasons(rviommu_t *platform, uint64_t line) {
    static uint64_t lines[MOST_LINES], last;
    struct rviommu_why why;
    for (uint64_t step = 0; step < MOST_STEPS && rviommu_reason(platform, step, &why) == RVIOMMU_OK; step++) {
        if (why.number >= MOST_LINES) {
            fail("too many steps");
        }
        if (why.number > last) {
            last = why.number;
            lines[last] = line * (MOST_STEPS + 1) + 1;
        }
    }
    for (uint64_t step = 0; step < MOST_STEPS; step++) {
        if (rviommu_reason(platform, step, &why) == RVIOMMU_OK) {
            tell_reason(&why, lines);
        } else {
            printf("none\n");
        }
    }
}

static void play(rviommu_t *platform, enum how how, const char *line, size_t length) {
    char copy[513];
    if (how == NUMBERS && length < sizeof copy && memchr(line, 0, length) == NULL) {
        memcpy(copy, line, length);
        copy[length] = 0;
        copy[strcspn(copy, "#")] = 0;
        if (by_numbers(platform, copy)) {
            return;
        }
    }
    by_text(platform, line, length);
}

static FILE *opened(const char *path) {
    FILE *file = fopen(path, "rb");
    if (file == NULL) {
        fail(path);
    }
    return file;
}

/* Plays a script on an image; on the built-in one where there is none. */
static void play_all(enum how how, const char *image_path, FILE *script_file) {
    rviommu_t platform = {NULL};
    uint32_t told;
    size_t length;
    if (image_path != NULL) {
        FILE *file = opened(image_path);
        uint8_t *image = contents(file, &length);
        fclose(file);
        told = rviommu_open(image, length, &platform);
        free(image);
    } else {
        told = rviommu_open_built_in(&platform);
    }
    if (told != RVIOMMU_OK) {
        char words[32];
        rviommu_text(told, words, sizeof words, &length);
        fail(words);
    }
    uint8_t *script = contents(script_file, &length);
    uint64_t line = 0;
    for (size_t at = 0; at < length;) {
        const uint8_t *end = memchr(script + at, '\n', length - at);
        size_t count = end == NULL ? length - at : (size_t)(end - (script + at));
        play(&platform, how, (const char *)script + at, count);
        at += count + 1;
        if (how == WHY) {
            tell_reasons(&platform, line++);
        }
    }
    free(script);
    rviommu_close(&platform);
}

int main(int argc, char **argv) {
    if (argc < 2) {
        fail("how?");
    }
    enum how how = strcmp(argv[1], "numbers") == 0 ? NUMBERS : strcmp(argv[1], "why") == 0 ? WHY : TEXT;
    if (argc <= 3) {
        play_all(how, argc == 3 ? argv[2] : NULL, stdin);
    }
    for (int i = 2; argc > 3 && i + 1 < argc; i += 2) {
        FILE *script = opened(argv[i + 1]);
        play_all(how, argv[i], script);
        fclose(script);
    }
    return 0;
}
