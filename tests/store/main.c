/* test STORE TEST WORD..: one test of the store; it says what it found, and its exit status is 0 if all is as it should
 * be. 'wards' makes the wards "free", without limits, and "limited". */
#define _DEFAULT_SOURCE
#include "common.h"

static int test_wards(char **words)
{
    (void)words;
    connect_as("wards", 0);
    make_ward("free", 0);
    make_ward("limited", 1);
    hang_up();
    return wrong;
}

/* New file, made by eight at once. */
static int test_makers(char **words)
{
    (void)words;
    for (int k = 0; k < 8; k++)
        if (fork() == 0) {
            connect_as("maker", k);
            make_ward("shared", 0);
            open_window("shared", (uint64_t)k);
            hang_up();
            _exit(wrong != 0);
        }
    IS((uint64_t)all_well(8), 0);
    connect_as("makers", 0);
    IS((uint64_t)entries("shared"), 8);
    settled("shared");
    return wrong;
}

static const struct {
    const char *name;
    int words;
    int (*test)(char **words);
} tests[] = {
    {"wards", 0, test_wards}, {"makers", 0, test_makers}, {"stress", 4, test_stress}, {"kill", 4, test_kill},
    {"audit", 2, test_audit}, {"race", 1, test_race}, {"limit", 2, test_limit}, {"twice", 2, test_twice},
    {"flip", 3, test_flip}, {"rivals", 1, test_rivals}, {"usage", 0, test_usage}, {"repeats", 0, test_repeats},
    {"windows", 0, test_windows}, {"policy", 0, test_policy}, {"damage", 0, test_damage}, {"import", 0, test_import},
    {"journal", 0, test_journal}, {"cut", 0, test_cut}, {"schema", 0, test_schema}, {"steps", 1, test_steps},
    {"stopped", 2, test_stopped}, {"changed", 1, test_changed}, {"server", 4, test_server}, {"cuts", 3, test_cuts},
    {"pool", 1, test_pool}, {"rolled", 2, test_rolled}, {"unfit", 0, test_unfit},
    {"durable", 2, test_durable}, {"full", 2, test_full}, {"threads", 1, test_threads},
    {"one_handle", 1, test_one_handle}, {"fork", 0, test_fork}, {"memory", 1, test_memory},
};

int main(int count, char **words)
{
    alarm(280); /* no test hangs */
    if (count < 3)
        return 2;
    name = words[1];
    for (size_t k = 0; k < sizeof tests / sizeof *tests; k++) {
        if (strcmp(words[2], tests[k].name) != 0 || count - 3 < tests[k].words)
            continue;
        int bad = tests[k].test(words + 3);
        fflush(stdout);
        return bad != 0;
    }
    printf("no such test: %s\n", words[2]);
    return 2;
}
