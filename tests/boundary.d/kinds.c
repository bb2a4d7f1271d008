/* What the types of the header forbid: WRONG 0 compiles, each other one passes one identifier of a wrong kind and must not. */
#include "lingbarrow.h"

#if WRONG == 1 /* a Port-ID for an Alloc-ID */
#define ALLOC port
#else
#define ALLOC alloc
#endif
#if WRONG == 2 /* an Alloc-ID for a Port-ID */
#define ADDED alloc
#elif WRONG == 3 /* a bare number for a Port-ID */
#define ADDED 2000
#else
#define ADDED port
#endif
#if WRONG == 4 /* an ONU-ID for a Port-ID */
#define REMOVED onu
#else
#define REMOVED port
#endif
#if WRONG == 5 /* an Alloc-ID for a Port-ID */
#define SENT_TO alloc
#else
#define SENT_TO port
#endif
#if WRONG == 6 /* an Alloc-ID where the ONU-ID's default Alloc-ID is meant */
#define OWN alloc
#else
#define OWN onu
#endif

int main(void)
{
    uint8_t state[LINGBARROW_STATE_BYTES] = {0}, target[16];
    const lingbarrow_onu_id onu = lingbarrow_onu_id_of(5);
    const lingbarrow_alloc_id alloc = lingbarrow_alloc_id_of(5);
    const lingbarrow_port_id port = lingbarrow_port_id_of(5);

    return lingbarrow_default_alloc(OWN).number != 5 || lingbarrow_management_port(onu).number != 5
           || lingbarrow_write_allocation(ALLOC, 0, 1, 100, 10, 0, 0, target, sizeof target)
           || lingbarrow_write_xgem_frame(0, SENT_TO, 0, 1, state, 5, target, sizeof target)
           /* zeros are no state's */
           || lingbarrow_add_port(state, sizeof state, ADDED) != LINGBARROW_STATE_OUT_OF_RANGE
           || lingbarrow_remove_port(state, sizeof state, REMOVED) != LINGBARROW_STATE_OUT_OF_RANGE
           /* and the number form, for who says so */
           || (lingbarrow_add_port)(state, sizeof state, 5) != LINGBARROW_STATE_OUT_OF_RANGE;
}
