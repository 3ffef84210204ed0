/*
 * Which commit does a reference name? `profile FOLDER [NAME [NAMESPACE]]` looks into the snapshot of a folder, by default
 * for HEAD: worktree.blk, common.blk and packed.blk, of which each may be missing.
 */
#include <errno.h>
#include <stdio.h>
#include <stdlib.h>
#include <string.h>

#include "cosvint.h"

#define LONGEST_PATH 4096

struct region {
    uint8_t *bytes; /* not null, also where there is no file */
    size_t size;
    bool there;
};

struct snapshot {
    struct region worktree;
    struct region common;
    struct region packed;
};

struct text {
    const uint8_t *bytes;
    size_t length;
    bool there;
};

/* The first arguments of a call. */
#define REGIONS(s)                                                                                                     \
    (s)->worktree.bytes, (s)->worktree.size, (s)->common.bytes, (s)->common.size, (s)->common.there,                   \
        (s)->packed.bytes, (s)->packed.size

/* What the numbers mean, in the words of docs/REFUSALS.md. */
static const char *const meanings[] = {
    [COSVINT_NOT_WHOLE] = "a region's size is not a multiple of 512 bytes",
    [COSVINT_TOO_MANY_BLOCKS] = "a region has more than 4,096 blocks, or 40 for the programs",
    [COSVINT_TOO_LONG] = "a name or a namespace is longer than 250 bytes",
    [COSVINT_MALFORMED] = "a name or a namespace is not one that git allows",
    [COSVINT_EXPANSION_TOO_LONG] = "a namespace grows to more than 250 bytes where it is written out",
    [COSVINT_DAMAGED] = "a block is damaged: its sum, its lengths or its kind are wrong",
    [COSVINT_ERROR_BLOCK] = "a block says that a directory or packed-refs could not be read",
    [COSVINT_OUT_OF_ORDER] = "a name is not above the one before it in its region",
    [COSVINT_UNREAD] = "a reference's file was there and could not be read",
    [COSVINT_UNREADABLE] = "a reference's file holds neither an id nor `ref: ` and a name",
    [COSVINT_INCOMPLETE_TARGET] = "a symbolic reference names something that is no reference's name",
    [COSVINT_UNSUPPORTED] = "the repository keeps its references in another way (reftable)",
    [COSVINT_TARGET_NOT_FOUND] = "a symbolic reference leads to a name that is not there",
    [COSVINT_CYCLE] = "symbolic references lead back to a name that was passed",
    [COSVINT_TOO_DEEP] = "a chain of symbolic references passes five names",
};

static const char *const regions[] = {
    [COSVINT_WORKTREE] = "worktree",
    [COSVINT_COMMON] = "common",
    [COSVINT_PACKED] = "packed",
};

static void fail(const char *what) {
    perror(what);
    exit(2);
}

/* The bytes of an open file; a byte more is allocated, so that none at all is not null. */
static struct region read_open(FILE *file, const char *path) {
    struct region region = {NULL, 0, true};
    long size = -1;
    if (fseek(file, 0, SEEK_END) == 0) {
        size = ftell(file);
    }
    if (size < 0) {
        fail(path);
    }
    rewind(file);
    region.size = (size_t)size;
    region.bytes = malloc(region.size + 1);
    if (region.bytes == NULL || fread(region.bytes, 1, region.size, file) != region.size) {
        fail(path);
    }
    return region;
}

static struct region read_region(const char *folder, const char *name) {
    struct region region = {NULL, 0, false};
    char path[LONGEST_PATH];
    int length = snprintf(path, sizeof path, "%s/%s", folder, name);
    FILE *file;
    if (length < 0 || (size_t)length >= sizeof path) {
        errno = ENAMETOOLONG;
        fail(folder);
    }
    file = fopen(path, "rb");
    if (file != NULL) {
        region = read_open(file, path);
        fclose(file);
        return region;
    }
    if (errno != ENOENT) {
        fail(path);
    }
    region.bytes = malloc(1);
    if (region.bytes == NULL) {
        fail(path);
    }
    return region;
}

static void print_bytes(const uint8_t *bytes, size_t length) {
    fwrite(bytes, 1, length, stdout);
}

static void print_reference(const cosvint_answer *a) {
    print_bytes(a->name, a->name_length);
    if (a->kind == COSVINT_SYMBOLIC) {
        fputs(" -> ", stdout);
        print_bytes(a->target, a->target_length);
    } else {
        putchar(' ');
        print_bytes(a->id, sizeof a->id);
    }
    if (a->has_peeled) {
        fputs(" peeled ", stdout);
        print_bytes(a->peeled, sizeof a->peeled);
    }
}

static void print_refusal(const cosvint_answer *a) {
    printf("refused %u: %s", (unsigned)a->number, meanings[a->number]);
    if (a->region != 0) {
        printf(" (%s, block %u)", regions[a->region], (unsigned)a->block);
    }
    if (a->kind != COSVINT_NONE) {
        fputs(" (last reference reached: ", stdout);
        print_bytes(a->name, a->name_length);
        putchar(')');
    }
}

static void show_fitness(const struct snapshot *s) {
    cosvint_answer a;
    fputs("snapshot: ", stdout);
    if (cosvint_fitness(REGIONS(s), (uint8_t *)&a, sizeof a) == COSVINT_DONE) {
        fputs("fit for search", stdout);
    } else {
        print_refusal(&a);
    }
    putchar('\n');
}

/* What following reached. */
static void print_object(const cosvint_answer *a) {
    print_bytes(a->id, sizeof a->id);
    fputs(" by ", stdout);
    print_bytes(a->name, a->name_length);
}

static void show_answer(struct text name, const char *sign, const cosvint_answer *a,
                        void (*print)(const cosvint_answer *)) {
    print_bytes(name.bytes, name.length);
    fputs(sign, stdout);
    if (a->number == COSVINT_DONE) {
        print(a);
    } else if (a->number == COSVINT_NOTHING) {
        fputs("not there", stdout);
    } else {
        print_refusal(a);
    }
    putchar('\n');
}

static void show_found(const struct snapshot *s, struct text name, struct text space) {
    cosvint_answer a;
    cosvint_find(REGIONS(s), name.bytes, name.length, space.bytes, space.length, space.there, (uint8_t *)&a, sizeof a);
    show_answer(name, ": ", &a, print_reference);
}

/* Is there a commit that the name leads to? */
static bool show_reached(const struct snapshot *s, struct text name, struct text space) {
    cosvint_answer a;
    cosvint_follow(REGIONS(s), name.bytes, name.length, space.bytes, space.length, space.there, (uint8_t *)&a,
                   sizeof a);
    show_answer(name, " leads to: ", &a, print_object);
    return a.number == COSVINT_DONE;
}

/* The opening has checked the sizes, so that no step gives 1 or 2 and each takes a block until the listing ends. */
static void show_entries(const struct snapshot *s, cosvint_state *state) {
    cosvint_answer a;
    unsigned long entries = 0;
    for (;;) {
        uint32_t number = cosvint_list_step(REGIONS(s), (uint8_t *)state, sizeof *state, (uint8_t *)&a, sizeof a);
        if (number == COSVINT_NOTHING) {
            break;
        }
        if (number == COSVINT_DONE) {
            print_reference(&a);
        } else {
            print_refusal(&a);
        }
        putchar('\n');
        entries++;
    }
    printf("%lu entries\n", entries);
}

static void show_list(const struct snapshot *s, struct text space) {
    cosvint_state state;
    uint32_t number =
        cosvint_list_open(REGIONS(s), space.bytes, space.length, space.there, (uint8_t *)&state, sizeof state);
    if (number == COSVINT_DONE) {
        show_entries(s, &state);
    } else {
        printf("refused %u: %s\n", (unsigned)number, meanings[number]);
    }
}

static struct text argument(int count, char **arguments, int at, const char *otherwise) {
    bool there = at < count;
    const char *text = there ? arguments[at] : otherwise;
    return (struct text){(const uint8_t *)text, strlen(text), there};
}

int main(int count, char **arguments) {
    struct snapshot s;
    struct text name, space;
    bool reached;
    if (count < 2 || count > 4) {
        fputs("usage: profile FOLDER [NAME [NAMESPACE]]\n", stderr);
        return 2;
    }
    s.worktree = read_region(arguments[1], "worktree.blk");
    s.common = read_region(arguments[1], "common.blk");
    s.packed = read_region(arguments[1], "packed.blk");
    name = argument(count, arguments, 2, "HEAD");
    space = argument(count, arguments, 3, "");
    show_fitness(&s);
    show_found(&s, name, space);
    reached = show_reached(&s, name, space);
    show_list(&s, space);
    free(s.worktree.bytes);
    free(s.common.bytes);
    free(s.packed.bytes);
    return reached ? 0 : 1;
}
