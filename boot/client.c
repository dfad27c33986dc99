/* A little of what a network driver does with an open card. */
#include "client.h"

#define QUERY_FW 0x004
#define INIT_PORT 0x009
#define CLOSE_PORT 0x00a
#define SW2HW_MPT 0x00d
#define HW2SW_MPT 0x00f
#define MGID_HASH 0x027

#define PORT 1
/* The memory protection entry of a region over all memory. */
#define REGION 2
#define REGION_BYTES 64
#define RING 8192

static UINT16 be16(const UINT8 *bytes)
{
    return bytes[0] << 8 | bytes[1];
}

static VOID put32(UINT8 *bytes, UINT32 v)
{
    for (UINTN i = 0; i < 4; i++)
        bytes[i] = v >> (24 - 8 * i);
}

BOOLEAN client_call(loader *l, const CHAR16 *name, loader_request r, UINT64 kind, UINT64 *result)
{
    UINT32 refused = loader_call(l, r);
    if (refused || !loader_read(l, hca_result, result, RESULT_WORDS)) {
        Print(L"%s: not taken, %d\n", name, refused);
        return FALSE;
    }
    if (result[0] == kind)
        return TRUE;
    Print(L"%s: result %ld with %ld, %ld, %ld, %ld\n", name, result[0], result[1], result[2], result[3], result[4]);
    return FALSE;
}

/* A command with a reply. */
static BOOLEAN firmware(loader *l)
{
    UINT64 r[RESULT_WORDS];
    if (!client_call(l, L"QUERY_FW", (loader_request){ .kind = HCA_WITH_OUT, .op = QUERY_FW }, COMMAND, r))
        return FALSE;
    const UINT8 *o = l->outbox;
    Print(L"firmware %d.%d.%d, after %ld microseconds\n", be16(o + 2), be16(o + 6), be16(o + 4), r[2]);
    return TRUE;
}

/* A command with input and an immediate. */
static BOOLEAN hash(loader *l)
{
    static const UINT8 gid[16] = { [5] = PORT, [10] = 0x01, 0x00, 0x5e, 0x00, 0x00, 0x01 };
    UINT64 r[RESULT_WORDS];
    loader_request request = { .kind = HCA_IN_IMM, .op = MGID_HASH, .input = gid, .input_bytes = sizeof gid };
    if (!client_call(l, L"MGID_HASH", request, COMMAND, r))
        return FALSE;
    Print(L"multicast group hashed to 0x%lx\n", r[1] & 0xffff);
    return TRUE;
}

/* Pages that the card may use until the close. */
static BOOLEAN lend(loader *l)
{
    UINT64 r[RESULT_WORDS];
    if (!client_call(l, L"lend", (loader_request){ .kind = HCA_LEND, .value = RING }, LENT, r))
        return FALSE;
    Print(L"lent: handle %ld, %ld pages, device address 0x%lx\n", r[1], r[3], r[2]);
    return TRUE;
}

/* A command with input, and the record that takes back what it has made. */
static BOOLEAN region(loader *l)
{
    UINT8 entry[REGION_BYTES] = { 0 };
    UINT64 r[RESULT_WORDS];
    put32(entry, 0xf0020f00);
    put32(entry + 0x08, REGION);
    put32(entry + 0x0c, 0x03000000);
    put32(entry + 0x18, ~0u);
    put32(entry + 0x1c, ~0u);
    put32(entry + 0x38, 12);
    loader_request request = { .kind = HCA_WITH_IN, .op = SW2HW_MPT, .in_mod = REGION, .input = entry, .input_bytes = sizeof entry };
    return client_call(l, L"SW2HW_MPT", request, COMMAND, r) && loader_push_undo(l, HW2SW_MPT, 1, REGION, 0) == 0;
}

/* A command that is an immediate alone, and its record. */
static BOOLEAN port(loader *l)
{
    UINT64 r[RESULT_WORDS];
    loader_request request = { .kind = HCA_IMM, .op = INIT_PORT, .in_mod = PORT };
    return client_call(l, L"INIT_PORT", request, COMMAND, r) && loader_push_undo(l, CLOSE_PORT, 0, PORT, 0) == 0;
}

/* Takes back what was made since the mark; what was made before it is left to the close. */
static BOOLEAN undo_to(loader *l, UINTN mark)
{
    UINT64 r[RESULT_WORDS];
    if (!client_call(l, L"undo", (loader_request){ .kind = HCA_UNDO_TO, .value = mark }, OPEN, r))
        return FALSE;
    Print(L"undone: %d record is left\n", l->undo_count);
    return l->undo_count == mark;
}

BOOLEAN client_use(loader *l)
{
    return firmware(l) && hash(l) && lend(l) && region(l) && port(l) && undo_to(l, 1);
}
