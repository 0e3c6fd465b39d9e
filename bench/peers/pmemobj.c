/* libpmemobj: an undo-logged transaction on two words of a pool's root object. */
#include "peer.h"
#include <libpmemobj.h>

static const char *path = "/dev/shm/rukwetid-peer.pool";

struct root {
    uint64_t words[WORDS];
};

static PMEMobjpool *pool;
static PMEMoid oid;
static struct root *root;

static void transaction(uint64_t word, uint64_t first, uint64_t second)
{
    TX_BEGIN(pool) {
        pmemobj_tx_add_range(oid, word * sizeof(uint64_t), 2 * sizeof(uint64_t));
        root->words[word] = first;
        root->words[word + 1] = second;
    } TX_ONABORT {
        must(0, "a transaction");
    } TX_END
}

static uint64_t value_of(uint64_t word)
{
    return root->words[word];
}

int main(void)
{
    remove(path);
    pool = pmemobj_create(path, "words", PMEMOBJ_MIN_POOL, 0600);
    must(pool != NULL, "pmemobj_create");
    oid = pmemobj_root(pool, sizeof(struct root));
    root = pmemobj_direct(oid);
    measure();
    pmemobj_close(pool);
    remove(path);
}
