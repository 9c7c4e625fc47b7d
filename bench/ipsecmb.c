/* ZUC of Intel's ipsec-mb library as a side. Its EEA3 call for one buffer takes the IV as it
   is given, so that it is plain ZUC; it sets up anew each time and takes at most 8,188
   bytes, so that only jobs that open for each crypt can be compared. */
#include "side.h"

#include <intel-ipsec-mb.h>

static IMB_MGR *manager;
static const struct cipher *opened;

static void zuc_open(int line, const struct cipher *cipher)
{
    (void)line;
    if (manager == NULL) {
        manager = alloc_mb_mgr(0);
        if (manager == NULL)
            fail("ipsec-mb could not be started");
        init_mb_mgr_auto(manager, NULL);
    }
    opened = cipher;
}

static void zuc_crypt(int line, const uint8_t *in, uint8_t *out, size_t n)
{
    (void)line;
    IMB_ZUC_EEA3_1_BUFFER(manager, opened->key, opened->iv, in, out, (uint32_t)n);
}

static void zuc_close(int line)
{
    (void)line;
}

const struct side IPSECMB = {"ipsec-mb", zuc_open, zuc_crypt, zuc_close};
