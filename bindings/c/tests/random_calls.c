/* Random calls of every function, good and bad, in buffers between pages that can't be touched. Each has to give the
 * answer that the tests in the header's order give, to leave all as it was where that isn't 0, and to write no more
 * than it says where it is.
 *
 *     random_calls CALLS SEED PROCESSES */
#include "guarded.h"
#include "signals.h"
#include "standard.h"

#include <inttypes.h>
#include <sys/wait.h>
#include <unistd.h>

/* One buffer of a call: how much of it is written where nothing is refused. */
struct use {
    struct slot *slot;
    size_t written;
};

static struct use uses[SLOTS];
static int used;
static unsigned failures;

/* A buffer of `count` items of `item` bytes, filled at random; `written` bytes at its front may change. */
static void *buffer(size_t count, size_t item, size_t written) {
    struct slot *slot = &slots[used];
    void *data = place(slot, count, item, one_in(2), one_in(2));
    fill(slot);
    uses[used++] = (struct use){slot, written};
    return data;
}

/* A structure, which is never null. */
static void *structure(size_t size, bool is_written) {
    struct slot *slot = &slots[used];
    void *data = place(slot, 1, size, one_in(2), false);
    fill(slot);
    uses[used++] = (struct use){slot, is_written ? size : 0};
    return data;
}

static void ready(void) {
    for (int i = 0; i < used; i++) keep(uses[i].slot);
}

/* How often each answer came of each call. */
#define CALLS 32
#define ANSWERS 32
struct seen {
    char call[32];
    size_t came[ANSWERS];
};
static struct seen *seen;

static void note(struct seen *table, const char *call, uint32_t answer, size_t times) {
    size_t i = 0;
    while (table[i].call[0] && strcmp(table[i].call, call) != 0) i++;
    snprintf(table[i].call, sizeof table[i].call, "%s", call);
    if (answer < ANSWERS) table[i].came[answer] += times;
}

/* Compares an answer with the one that is due, and the buffers with what they held. */
static void judge(const char *call, uint32_t answer, uint32_t due) {
    note(seen, call, answer, 1);
    if (answer != due) {
        printf("%s: %" PRIu32 " (%s), and not %" PRIu32 "\n", call, answer, gomzelat_text(answer), due);
        failures++;
    }
    for (int i = 0; i < used; i++)
        if (!is_kept(uses[i].slot, answer == 0 ? uses[i].written : 0)) {
            printf("%s: buffer %d changed, answer %" PRIu32 "\n", call, i, answer);
            failures++;
        }
    used = 0;
}

static void hold(const char *call, bool is_so) {
    if (!is_so) printf("%s: other than the standard has it\n", call), failures++;
}

/* ---- Arguments, most of them good */

static size_t a_length(void) {
    static const size_t bad[] = {0, 18723, 20000};
    if (one_in(40)) return bad[below(3)];
    return one_in(300) ? 1 + below(18722) : one_in(20) ? 1 + below(1600) : 1 + below(24);
}

static struct gomzelat_transmission a_transmission(void) {
    struct gomzelat_transmission t = {.qm = 2 * (uint32_t)(1 + below(3)), .nl = (uint32_t)(1 + below(2)),
                                      .rv = (uint32_t)below(4)};
    t.g = t.qm * t.nl * (uint32_t)(1 + below(one_in(300) ? 80000 : one_in(8) ? 1500 : 60));
    static const uint32_t odd[] = {0, 1, 3, 4, 5, 7, 8, 255, 256, 257, 258, 260, 1000001, UINT32_MAX - 1, UINT32_MAX};
    if (one_in(12)) *(uint32_t *[]){&t.qm, &t.nl, &t.g, &t.rv}[below(4)] = odd[below(15)];
    return t;
}

static size_t a_count(void) { return one_in(20) ? 9 * below(2) : 1 + below(one_in(20) ? 8 : 2); }

/* Draws transmissions, sums their bits, and gives what is refused of them. */
static uint32_t transmissions_drawn(struct gomzelat_transmission *ts, size_t count, size_t *bits) {
    uint32_t refused = count == 0 || count > 8 ? GOMZELAT_BAD_COUNT : 0;
    for (size_t i = 0; i < count; i++) {
        ts[i] = a_transmission();
        if (!refused) refused = transmission_refused(ts[i]);
        *bits += ts[i].g;
    }
    return refused;
}

static uint32_t a_buffer(size_t length) {
    if (one_in(2) || length_refused(length)) return one_in(3) ? (uint32_t)drawn() : 0;
    const struct gomzelat_plan plan = plan_of(length);
    return (uint32_t)(plan.c * 32 * rows_of(plan.k_plus) - one_in(8) + below(one_in(2) ? 3 : 2000));
}

/* A room for `need` items: mostly enough. */
static size_t a_room(size_t need) {
    return need > 0 && one_in(12) ? need - 1 - below(need) % 3 : need + (one_in(2) ? 0 : below(9));
}

static uint32_t a_number(uint32_t least, uint32_t most) {
    if (one_in(20)) return (uint32_t[]){least - 1, most + 1, UINT32_MAX, 256 + least}[below(4)];
    return least + (uint32_t)below(most - least + 1);
}

static size_t a_block(size_t length) {
    if (length_refused(length)) return below(3);
    return one_in(20) ? plan_of(length).c + below(3) : one_in(99) ? SIZE_MAX : below(plan_of(length).c);
}

static uint32_t short_of(size_t room, size_t need, uint32_t answer) { return room < need ? answer : 0; }

#include "random_senders.h"
#include "random_receivers.h"
#include "random_signals.h"

static void one_call(void) {
    static void (*const calls[])(void) = {SENDERS, RECEIVERS, SIGNALS};
    calls[below(sizeof calls / sizeof *calls)]();
}

/* Prints for each call the answers that came of it, of all processes. */
static void tell(const struct seen *of_all, size_t processes) {
    struct seen sum[CALLS] = {0};
    for (size_t i = 0; i < processes * CALLS; i++)
        for (uint32_t answer = 0; of_all[i].call[0] && answer < ANSWERS; answer++)
            note(sum, of_all[i].call, answer, of_all[i].came[answer]);
    for (size_t i = 0; sum[i].call[0]; i++) {
        printf("answers of gomzelat_%s:", sum[i].call);
        for (size_t answer = 0; answer < ANSWERS; answer++)
            if (sum[i].came[answer]) printf(" %zu", answer);
        printf("\n");
    }
}

static void run(size_t calls, size_t part, size_t parts, uint64_t seed) {
    make_slots();
    drawn_state = seed * 1000003 + part;
    for (size_t i = part; i < calls && failures < 10; i += parts) one_call();
    fflush(stdout);
    _exit(failures > 0);
}

int main(int argc, char **argv) {
    const size_t calls = argc > 1 ? strtoull(argv[1], NULL, 10) : 10000;
    const uint64_t seed = argc > 2 ? strtoull(argv[2], NULL, 10) : 1;
    const size_t processes = argc > 3 ? strtoull(argv[3], NULL, 10) : 1;
    struct seen *of_all = mmap(NULL, processes * CALLS * sizeof *of_all, PROT_READ | PROT_WRITE,
                               MAP_SHARED | MAP_ANONYMOUS, -1, 0);
    if (of_all == MAP_FAILED) return perror("memory"), 1;
    for (size_t part = 0; part < processes; part++) {
        const pid_t child = fork();
        if (child < 0) return perror("fork"), 1;
        seen = of_all + part * CALLS;
        if (child == 0) run(calls, part, processes, seed);
    }
    bool is_well = true;
    for (int status; wait(&status) > 0;) {
        if (WIFSIGNALED(status)) printf("stopped by signal %d\n", WTERMSIG(status));
        is_well = is_well && WIFEXITED(status) && WEXITSTATUS(status) == 0;
    }
    tell(of_all, processes);
    printf("%zu random calls: %s\n", calls, is_well ? "all as they are due" : "some differ");
    return !is_well;
}
