/* Commits random pages through LMDB: commit_lmdb FILE PAGES COMMITS. Each commit gives PAGES of 16,384 values, one at random of each
   stretch, 4,096 new bytes, and is synced as LMDB does unless told otherwise. */
#include <lmdb.h>
#include <stdint.h>
#include <stdio.h>
#include <stdlib.h>

enum { ALL = 16384, BYTES = 4096 };

static void check(int answer) {
    if (answer != MDB_SUCCESS) {
        fprintf(stderr, "commit_lmdb: %s\n", mdb_strerror(answer));
        exit(1);
    }
}

/* The next word of SplitMix64. */
static uint64_t next_word(uint64_t *state) {
    uint64_t word = *state += 0x9E3779B97F4A7C15u;
    word = (word ^ (word >> 30)) * 0xBF58476D1CE4E5B9u;
    word = (word ^ (word >> 27)) * 0x94D049BB133111EBu;
    return word ^ (word >> 31);
}

static void commit(MDB_env *env, unsigned pages, uint64_t *state) {
    uint64_t words[BYTES / sizeof(uint64_t)] = {0};
    unsigned stretch = ALL / pages;
    MDB_txn *txn;
    MDB_dbi dbi;
    check(mdb_txn_begin(env, NULL, 0, &txn));
    check(mdb_dbi_open(txn, NULL, MDB_INTEGERKEY, &dbi));
    for (unsigned at = 0; at < pages; at++) {
        words[0] = next_word(state);
        unsigned page = at * stretch + (unsigned)(words[0] % stretch);
        MDB_val key = {sizeof page, &page};
        MDB_val value = {BYTES, words};
        check(mdb_put(txn, dbi, &key, &value, 0));
    }
    check(mdb_txn_commit(txn));
}

int main(int count, char **words) {
    if (count != 4)
        return 64;
    unsigned pages = (unsigned)strtoul(words[2], NULL, 10);
    unsigned commits = (unsigned)strtoul(words[3], NULL, 10);
    if (pages < 1 || pages > ALL)
        return 64;
    MDB_env *env;
    check(mdb_env_create(&env));
    check(mdb_env_set_mapsize(env, (size_t)1 << 30));
    check(mdb_env_open(env, words[1], MDB_NOSUBDIR, 0644));
    uint64_t state = 1;
    for (unsigned at = 0; at < commits; at++)
        commit(env, pages, &state);
    mdb_env_close(env);
    return 0;
}
