/* Refuses each allocation of each call in turn: the call returns BOARD_OUT_OF_MEMORY, everything is as before, and the
 * same call made again succeeds. Counts the blocks: none is left at the end, and the calls that only read ask for none.
 *
 *     memory SEED MANY < SCRIPT
 *
 * It is linked with -Wl,--wrap=malloc,--wrap=realloc,--wrap=free. */
#include "draws.h"

enum { NEVER = -1 };

/* How many more allocations succeed before one is refused, how many were asked for, and the blocks not freed. */
static long left = NEVER, asked, blocks;

void *__real_malloc(size_t bytes);
void *__real_realloc(void *block, size_t bytes);
void __real_free(void *block);
void *__wrap_malloc(size_t bytes);
void *__wrap_realloc(void *block, size_t bytes);
void __wrap_free(void *block);

/* Whether this allocation is refused. After it no other is. */
static int is_refused(void) {
    asked++;
    return left != NEVER && left-- == 0;
}

static void *counted(void *block) {
    if (block) blocks++;
    return block;
}

void *__wrap_malloc(size_t bytes) { return is_refused() ? NULL : counted(__real_malloc(bytes)); }

void *__wrap_realloc(void *block, size_t bytes) {
    if (is_refused()) return NULL;
    return block ? __real_realloc(block, bytes) : counted(__real_realloc(block, bytes));
}

void __wrap_free(void *block) {
    blocks -= block != NULL;
    __real_free(block);
}

static struct board_room room;
static struct board_entry entries[BOARD_MEMBERS];
static struct model model, other_model;
static struct board_register handle, other;
static long refusals;

/* Two registers, each with its model, are as before. */
static void compare_both(uint64_t at) {
    compare(&handle, &model, at);
    compare(&other, &other_model, at);
}

/* A call that is tried with one allocation refused after another. */
typedef uint8_t Call(const void *what);

/* The answer of a call once no allocation is refused. Before, it returns BOARD_OUT_OF_MEMORY and changes nothing. */
static uint8_t with_refusals(Call *call, const void *what, uint64_t at) {
    for (long number = 0;; number++) {
        long before = blocks;
        left = number;
        uint8_t answer = call(what);
        int was_refused = left == NEVER;
        left = NEVER;
        if (!was_refused) return answer;
        refusals++;
        if (answer != BOARD_OUT_OF_MEMORY) stop("memory is refused, and the call isn't", at);
        if (blocks != before) stop("a refused call keeps memory, or frees some", at);
        compare_both(at);
    }
}

static uint8_t start_other(const void *limit) {
    return board_register_start(entries, BOARD_MEMBERS, *(const uint32_t *)limit, &other);
}

static uint8_t apply_one(const void *command) {
    uint32_t before = 77, accepted = before;
    uint8_t answer = board_register_apply(&handle, command, &accepted);
    if (answer != BOARD_DONE && accepted != before) stop("a refused command sets a number", answer);
    return answer;
}

static uint8_t copy_some(const void *accepted) {
    return board_register_copy(&handle, *(const uint32_t *)accepted, &other);
}

/* Calls that only read, or publish, ask for no memory. */
static void ask_for_nothing(const struct board_command *command, uint64_t at) {
    struct board_counts counts;
    struct board_all_counts all;
    struct board_entry entry;
    struct board_command found;
    uint32_t published;
    long before = asked;
    compare(&handle, &model, at);
    board_register_check(&handle, command);
    board_register_entry_at(&handle, 0, &entry);
    board_register_command_at(&handle, 0, &found);
    board_register_publish(&handle, &published);
    board_register_read(&handle, BOARD_HALF, &room, &counts);
    board_register_counts(&handle, BOARD_QUORUM, &room, &counts);
    board_register_all_counts(&handle, &room, &all);
    publish_model(&model);
    compare(&handle, &model, at);
    if (asked != before) stop("a call that only reads asks for memory", at);
}

/* A register that replaces another, and one that replaces itself. */
static void start_both(uint64_t seed, uint32_t many) {
    struct draw draw = draw_of(seed, many);
    uint32_t one = 1;
    draw.entries = BOARD_MEMBERS;
    draw_entries(&draw, entries);
    size_t len = BOARD_MEMBERS / 2;
    if (board_register_start(entries, len, BOARD_COMMANDS, &handle) != BOARD_DONE) stop("no start", 0);
    if (board_register_start(entries, 1, BOARD_COMMANDS, &other) != BOARD_DONE) stop("no start", 1);
    start_model(&model, entries, len, BOARD_COMMANDS);
    start_model(&other_model, entries, 1, BOARD_COMMANDS);
    if (with_refusals(start_other, &one, 0) != BOARD_DONE) stop("no start after refusals", 0);
    end_model(&other_model);
    start_model(&other_model, entries, BOARD_MEMBERS, one);
    long before = blocks;
    for (int time = 0; time < 100; time++)
        if (start_other(&one) != BOARD_DONE) stop("no start again", (uint64_t)time);
    if (blocks != before) stop("a register that is replaced isn't freed", 0);
    compare_both(0);
}

/* A copy takes the place of the other register. */
static void copy_other(uint32_t accepted) {
    struct model shorter;
    if (with_refusals(copy_some, &accepted, accepted) != BOARD_DONE) stop("no copy after refusals", accepted);
    start_again(&shorter, &model, accepted, UINT32_MAX);
    end_model(&other_model);
    other_model = shorter;
    compare_both(accepted);
}

/* A register is taken back while any allocation would be refused: none is asked for, and no block is freed. The
 * commands are then accepted again. */
static void undo_and_redo(uint32_t to) {
    struct model whole = model;
    long before = asked, held = blocks;
    left = 0;
    uint8_t answer = board_register_undo(&handle, to, UINT32_MAX);
    left = NEVER;
    if (answer != BOARD_DONE || asked != before) stop("an undo that asks for memory", to);
    if (blocks != held) stop("an undo that frees memory", to);
    start_again(&model, &whole, to, UINT32_MAX);
    compare_both(to);
    for (uint32_t at = to; at < whole.accepted; at++) {
        if (apply_one(&whole.journal[at]) != BOARD_DONE) stop("a command that was taken back isn't accepted", at);
        obey(&model, &whole.journal[at]);
    }
    end_model(&whole);
    compare_both(to);
}

static void apply_all(uint64_t seed, uint32_t many) {
    struct draw draw = draw_of(seed, many);
    for (uint32_t at = 0; at < many; at++) {
        struct board_command command = draw_command(&draw);
        uint8_t wanted = answer_of(&model, &command);
        if (with_refusals(apply_one, &command, at) != wanted) stop("another answer after refusals", at);
        if (wanted == BOARD_DONE) obey(&model, &command);
        compare_both(at);
        if (at % 64 == 0) ask_for_nothing(&command, at);
        if (at % 256 == 0) copy_other(model.accepted / 2);
        if (at % 1024 == 0) undo_and_redo(model.accepted / 2);
    }
    undo_and_redo(0);
    copy_other(UINT32_MAX);
    compare_history(&handle, &model, 0, many);
    compare_history(&other, &other_model, 0, many);
}

static int same_item(const struct board_item *item, const struct board_item *other) {
    return same_command(&item->command, &other->command) && item->number == other->number &&
           item->reader == other->reader && item->majority == other->majority && item->from == other->from &&
           item->to == other->to;
}

/* A script with each allocation refused: what is written and counted is a first part of it. */
static void read_script(const uint8_t *input, size_t len) {
    static struct board_entry members[BOARD_MEMBERS], some_members[BOARD_MEMBERS];
    enum { ITEMS = 4096 };
    static struct board_item items[ITEMS], some_items[ITEMS];
    size_t members_count, items_count, some_members_count, some_items_count;
    uint32_t record, some_record;
    uint8_t wanted =
        board_script(input, len, 1, members, BOARD_MEMBERS, &members_count, items, ITEMS, &items_count, &record);
    if (wanted != BOARD_DONE || items_count > ITEMS) stop("no script", wanted);
    long before = blocks;
    for (long number = 0;; number++) {
        left = number;
        uint8_t answer = board_script(input, len, 1, some_members, BOARD_MEMBERS, &some_members_count, some_items,
                                      ITEMS, &some_items_count, &some_record);
        int was_refused = left == NEVER;
        left = NEVER;
        if (blocks != before) stop("a script keeps memory", (uint64_t)number);
        if (!was_refused) break;
        refusals++;
        if (answer != BOARD_OUT_OF_MEMORY || some_record != 0) stop("memory is refused, and the script isn't", answer);
        if (some_members_count > members_count || some_items_count > items_count) stop("a longer script", 0);
        for (size_t at = 0; at < some_members_count; at++)
            if (!same_entry(&members[at], &some_members[at])) stop("another member of a script", at);
        for (size_t at = 0; at < some_items_count; at++)
            if (!same_item(&items[at], &some_items[at])) stop("another record of a script", at);
    }
}

typedef uint8_t (*length_call)(const uint8_t *, size_t, uint32_t, uint32_t, uint64_t *, uint32_t *);

/* The length of a replay or a trace with each allocation refused. */
static void read_length(length_call length_of, const uint8_t *input, size_t len) {
    uint64_t length;
    uint32_t record;
    long before = blocks;
    for (long number = 0;; number++) {
        left = number;
        uint8_t answer = length_of(input, len, 1, BOARD_COMMANDS, &length, &record);
        int was_refused = left == NEVER;
        left = NEVER;
        if (blocks != before) stop("a length keeps memory", (uint64_t)number);
        if (!was_refused) break;
        refusals++;
        if (answer != BOARD_OUT_OF_MEMORY || record != 0) stop("memory is refused, and the length isn't", answer);
    }
}

int main(int many, char **words) {
    static uint8_t input[1 << 20];
    if (many != 3) return 2;
    uint64_t seed = strtoull(words[1], NULL, 10);
    uint32_t commands = (uint32_t)strtoul(words[2], NULL, 10);
    size_t len = fread(input, 1, sizeof input, stdin);
    blocks = 0;
    start_both(seed, commands);
    apply_all(seed, commands);
    read_script(input, len);
    read_length(board_replay_length, input, len);
    read_length(board_trace_length, input, len);
    for (int time = 0; time < 2; time++) {
        board_register_free(&handle);
        board_register_free(&other);
    }
    end_model(&model);
    end_model(&other_model);
    if (blocks != 0) stop("blocks are left", (uint64_t)blocks);
    printf("%ld allocations refused, no block left\n", refusals);
    return 0;
}
