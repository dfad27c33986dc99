/* What the simulated card does for a command. It reaches memory by device addresses alone. */
#include "card.h"

enum { GOOD = 0, INTERNAL_ERROR = 1, BAD_OPCODE = 2, BAD_PARAMETER = 3, BAD_SYSTEM_STATE = 4, EXCEEDS = 8, BAD_STATE = 9, BAD_INDEX = 10 };

enum op {
    QUERY_DEV_CAP = 0x003, QUERY_FW = 0x004, QUERY_ADAPTER = 0x006, INIT_HCA = 0x007, CLOSE_HCA = 0x008, INIT_PORT = 0x009,
    CLOSE_PORT = 0x00a, SW2HW_MPT = 0x00d, HW2SW_MPT = 0x00f, MGID_HASH = 0x027, MOD_STAT_CFG = 0x034, QUERY_PORT = 0x043,
    RUN_FW = 0xff6, UNMAP_ICM = 0xff9, MAP_ICM = 0xffa, UNMAP_ICM_AUX = 0xffb, MAP_ICM_AUX = 0xffc, SET_ICM_SIZE = 0xffd,
    UNMAP_FA = 0xffe, MAP_FA = 0xfff
};

static const struct {
    UINT16 op;
    CHAR8 name[14];
} names[] = {
    { QUERY_DEV_CAP, "QUERY_DEV_CAP" }, { QUERY_FW, "QUERY_FW" }, { QUERY_ADAPTER, "QUERY_ADAPTER" }, { INIT_HCA, "INIT_HCA" },
    { CLOSE_HCA, "CLOSE_HCA" }, { INIT_PORT, "INIT_PORT" }, { CLOSE_PORT, "CLOSE_PORT" }, { SW2HW_MPT, "SW2HW_MPT" },
    { HW2SW_MPT, "HW2SW_MPT" }, { MGID_HASH, "MGID_HASH" }, { MOD_STAT_CFG, "MOD_STAT_CFG" }, { QUERY_PORT, "QUERY_PORT" },
    { RUN_FW, "RUN_FW" }, { UNMAP_ICM, "UNMAP_ICM" }, { MAP_ICM, "MAP_ICM" }, { UNMAP_ICM_AUX, "UNMAP_ICM_AUX" },
    { MAP_ICM_AUX, "MAP_ICM_AUX" }, { SET_ICM_SIZE, "SET_ICM_SIZE" }, { UNMAP_FA, "UNMAP_FA" }, { MAP_FA, "MAP_FA" }
};

/* What the firmware wants for itself, and for its auxiliary area. */
#define FW_PAGES 4
#define AUX_PAGES 3
#define PORTS 1
#define HELD 1024
#define ENTRY 16

enum area { FIRMWARE, AUXILIARY, ICM };

/* Pages that a MAP has left with the card. */
typedef struct {
    enum area area;
    UINT64 virt, address, bytes;
} block;

static struct {
    /* RUN_FW and INIT_HCA were good; a client has a port open, and has made a region. */
    BOOLEAN running, open, port[PORTS], region;
    block held[HELD];
    UINTN blocks;
} card;

static UINT64 be64(const UINT8 *bytes)
{
    UINT64 v = 0;
    for (UINTN i = 0; i < 8; i++)
        v = v << 8 | bytes[i];
    return v;
}

static VOID put16(UINT8 *bytes, UINT16 v)
{
    bytes[0] = v >> 8;
    bytes[1] = v & 0xff;
}

static VOID put64(UINT8 *bytes, UINT64 v)
{
    for (UINTN i = 0; i < 8; i++)
        bytes[i] = v >> (56 - 8 * i);
}

/* The outbox, which a session zeroes before a query; null where it cannot be reached. */
static UINT8 *outbox(const card_command *c)
{
    UINT8 *out = memory_at(c->out_param, PAGE);
    if (out && !memory_zero(out, PAGE))
        misuse(L"a query with an outbox that is not zero");
    return out;
}

/* Firmware 2.42.5000, revision 3 of the command interface, the catastrophic buffer at 0x7f000 of BAR 0. */
static UINT8 query_fw(const card_command *c)
{
    UINT8 *out = outbox(c);
    if (!out)
        return INTERNAL_ERROR;
    put16(out, FW_PAGES);
    put16(out + 0x02, 2);
    put16(out + 0x04, 5000);
    put16(out + 0x06, 42);
    put16(out + 0x0a, 3);
    put64(out + 0x30, 0x7f000);
    return GOOD;
}

/* Input L of document 01. */
static UINT8 query_dev_cap(const card_command *c)
{
    static const UINT16 entries[] = { 32, 256, 32, 64, 128, 128, 128, 64, 8, 64 };
    UINT8 *out = outbox(c);
    if (!out)
        return INTERNAL_ERROR;
    out[0x1f] = 7;
    out[0x37] = PORTS;
    out[0x4b] = 12;
    for (UINTN i = 0; i < sizeof entries / sizeof entries[0]; i++)
        put16(out + 0x80 + 2 * i, entries[i]);
    put64(out + 0xa0, 0x100121000);
    return GOOD;
}

/* A port with its link up at 40G. */
static UINT8 query_port(const card_command *c)
{
    static const UINT8 mac[] = { 0x00, 0x02, 0xc9, 0x00, 0x00 };
    UINT8 *out = outbox(c);
    if (!out)
        return INTERNAL_ERROR;
    if (c->in_mod < 1 || c->in_mod > PORTS)
        return BAD_INDEX;
    out[0x00] = 0xc2;
    out[0x01] = 0x80;
    put16(out + 0x02, 9600);
    out[0x05] = 0x40;
    out[0x0a] = 7;
    CopyMem(out + 0x12, (VOID *)mac, sizeof mac);
    out[0x17] = c->in_mod;
    return GOOD;
}

static UINT8 query_adapter(const card_command *c)
{
    return outbox(c) ? GOOD : INTERNAL_ERROR;
}

static block block_of(enum area area, const UINT8 *entry)
{
    UINT64 low = be64(entry + 8);
    return (block){ area, be64(entry), low - low % PAGE, (UINT64)PAGE << (low % PAGE & 31) };
}

/* Adds the blocks that the inbox lists, all of them or none. */
static UINT8 map(const card_command *c, enum area area)
{
    const UINT8 *list = memory_at(c->in_param, PAGE);
    if (!list || c->in_mod == 0 || c->in_mod > PAGE / ENTRY)
        return BAD_PARAMETER;
    if (card.blocks + c->in_mod > HELD)
        return EXCEEDS;
    for (UINTN i = 0; i < c->in_mod; i++) {
        block b = block_of(area, list + ENTRY * i);
        if (!memory_at(b.address, b.bytes))
            return BAD_PARAMETER;
        card.held[card.blocks + i] = b;
    }
    card.blocks += c->in_mod;
    return GOOD;
}

/* Drops the blocks of an area whose card addresses are among `bytes` from `virt` on. */
static UINT8 unmap(enum area area, UINT64 virt, UINT64 bytes)
{
    UINTN left = 0;
    for (UINTN i = 0; i < card.blocks; i++) {
        block b = card.held[i];
        if (b.area != area || b.virt - virt >= bytes)
            card.held[left++] = b;
    }
    card.blocks = left;
    return GOOD;
}

static UINT64 pages(enum area area)
{
    UINT64 bytes = 0;
    for (UINTN i = 0; i < card.blocks; i++)
        bytes += card.held[i].area == area ? card.held[i].bytes : 0;
    return bytes / PAGE;
}

/* The card address lies in a block of the ICM. */
static BOOLEAN backed(UINT64 virt)
{
    for (UINTN i = 0; i < card.blocks; i++)
        if (card.held[i].area == ICM && virt - card.held[i].virt < card.held[i].bytes)
            return TRUE;
    return FALSE;
}

/* Good where every table that the inbox names begins in the ICM that was mapped. */
static UINT8 init_hca(const card_command *c)
{
    static const UINT16 bases[] = { 0x30, 0x48, 0x50, 0x60, 0x70, 0x80, 0x90, 0xc0, 0xf0, 0x100, 0x108 };
    const UINT8 *in = memory_at(c->in_param, PAGE);
    if (!in || in[0] != 2)
        return BAD_PARAMETER;
    if (!card.running || card.open)
        return BAD_SYSTEM_STATE;
    for (UINTN i = 0; i < sizeof bases / sizeof bases[0]; i++)
        if (!backed(be64(in + bases[i]) & ~0xffull))
            return BAD_PARAMETER;
    card.open = TRUE;
    return GOOD;
}

/* The out parameter is then a value. */
static UINT8 immediate(card_command *c, UINT64 value)
{
    c->out_param = value;
    return GOOD;
}

/* Turns something on or off that is off or on. */
static UINT8 turn(BOOLEAN *thing, BOOLEAN on)
{
    if (*thing == on)
        return BAD_STATE;
    *thing = on;
    return GOOD;
}

static UINT8 port(const card_command *c, BOOLEAN on)
{
    return c->in_mod < 1 || c->in_mod > PORTS ? BAD_INDEX : turn(&card.port[c->in_mod - 1], on);
}

/* A memory region is made of an MPT entry that names itself, and taken back. */
static UINT8 region(const card_command *c, BOOLEAN on)
{
    const UINT8 *in = memory_at(c->in_param, PAGE);
    if (on && (!in || be64(in + 0x08) >> 32 != c->in_mod))
        return BAD_PARAMETER;
    return turn(&card.region, on);
}

/* The exclusive or of the GID's bytes stands for its hash. */
static UINT8 mgid_hash(card_command *c)
{
    const UINT8 *in = memory_at(c->in_param, PAGE);
    UINT8 hash = 0;
    if (!in)
        return BAD_PARAMETER;
    for (UINTN i = 0; i < 16; i++)
        hash ^= in[i];
    return immediate(c, hash);
}

/* What a client sends to an open card. */
static UINT8 client(card_command *c)
{
    if (!card.open)
        return BAD_SYSTEM_STATE;
    switch (c->op) {
    case INIT_PORT: return port(c, TRUE);
    case CLOSE_PORT: return port(c, FALSE);
    case SW2HW_MPT: return region(c, TRUE);
    case HW2SW_MPT: return region(c, FALSE);
    case MGID_HASH: return mgid_hash(c);
    default: return BAD_OPCODE;
    }
}

static UINT8 status_of(card_command *c)
{
    switch (c->op) {
    case QUERY_FW: return query_fw(c);
    case QUERY_DEV_CAP: return query_dev_cap(c);
    case QUERY_PORT: return query_port(c);
    case QUERY_ADAPTER: return query_adapter(c);
    case MOD_STAT_CFG: return memory_at(c->in_param, PAGE) ? GOOD : BAD_PARAMETER;
    case MAP_FA: return map(c, FIRMWARE);
    case UNMAP_FA: return unmap(FIRMWARE, 0, ~0ull);
    case RUN_FW: return pages(FIRMWARE) < FW_PAGES ? BAD_SYSTEM_STATE : turn(&card.running, TRUE);
    case SET_ICM_SIZE: return immediate(c, AUX_PAGES);
    case MAP_ICM_AUX: return map(c, AUXILIARY);
    case UNMAP_ICM_AUX: return unmap(AUXILIARY, 0, ~0ull);
    case MAP_ICM: return pages(AUXILIARY) < AUX_PAGES ? BAD_SYSTEM_STATE : map(c, ICM);
    case UNMAP_ICM: return unmap(ICM, c->in_param, (UINT64)c->in_mod * PAGE);
    case INIT_HCA: return init_hca(c);
    case CLOSE_HCA: return turn(&card.open, FALSE);
    default: return client(c);
    }
}

static VOID tell(const card_command *c, UINT8 status)
{
    UINTN i = 0;
    while (i < sizeof names / sizeof names[0] && names[i].op != c->op)
        i++;
    Print(L"  card: opcode 0x%03x, modifier %3d, status 0x%02x", c->op, c->in_mod, status);
    Print(L"  %a\n", i < sizeof names / sizeof names[0] ? names[i].name : (const CHAR8 *)"of no name");
}

UINT8 command_carry_out(card_command *c)
{
    UINT8 status = status_of(c);
    tell(c, status);
    return status;
}

VOID command_reset(VOID)
{
    SetMem(&card, sizeof card, 0);
}

BOOLEAN card_open(VOID)
{
    return card.open;
}

BOOLEAN card_holds(UINT64 address, UINT64 bytes)
{
    for (UINTN i = 0; i < card.blocks; i++) {
        const block *b = &card.held[i];
        if (b->address < address + bytes && address < b->address + b->bytes)
            return TRUE;
    }
    return FALSE;
}
