/* The simulated card's registers. */
#include "card.h"

/* The seven dwords of a command begin at HCR; the last one is written to post it, and read for GO, T and the status. */
#define HCR 0x80680
#define LAST 6
#define OWNER 0x8069c
#define RESET 0xf0010
#define SEMAPHORE 0xf03fc
#define GO 0x00800000u
#define INIT_HCA 0x007
#define RUN_FW 0xff6
/* The reads that show GO: of RUN_FW and INIT_HCA, and of all other commands. */
#define LONG_POLLS 1450
#define POLLS 3

static struct {
    UINT32 hcr[LAST + 1];
    /* The reads that still show GO; 0 where no command is running. */
    UINTN polls;
    BOOLEAN owned, semaphore;
} card;

static UINTN taken;

/* The posted command ends: GO goes, T stays, the status is shown. */
static VOID finish(VOID)
{
    UINT32 *r = card.hcr;
    card_command c = { r[LAST] & 0xfff, r[2], (UINT64)r[0] << 32 | r[1], (UINT64)r[3] << 32 | r[4] };
    UINT8 status = command_carry_out(&c);
    r[3] = c.out_param >> 32;
    r[4] = c.out_param & 0xffffffff;
    r[LAST] = (r[LAST] & 0x00ffffff & ~GO) | (UINT32)status << 24;
}

/* A command is taken unless one is running. */
static VOID post(UINT32 value)
{
    UINT16 op = value & 0xfff;
    if (card.polls || !(value & GO))
        return;
    card.hcr[LAST] = value;
    card.polls = op == RUN_FW || op == INIT_HCA ? LONG_POLLS : POLLS;
    taken++;
}

/* GO is shown until the polls are used up; then the command is carried out. */
static UINT32 status(VOID)
{
    UINT32 shown = card.hcr[LAST];
    if (card.polls && --card.polls == 0)
        finish();
    return shown;
}

/* A read of 0 takes it; later reads give 1. */
static UINT32 take(BOOLEAN *lock)
{
    UINT32 shown = *lock;
    *lock = TRUE;
    return shown;
}

static UINT32 read(UINT64 offset)
{
    UINT64 i = (offset - HCR) / 4;
    if (offset == OWNER)
        return take(&card.owned);
    if (offset == SEMAPHORE)
        return take(&card.semaphore);
    if (offset >= HCR && i < LAST)
        return card.hcr[i];
    return offset >= HCR && i == LAST ? status() : 0;
}

/* The card's registers are big-endian. */
UINT32 card_read(UINT64 offset)
{
    return __builtin_bswap32(read(offset));
}

VOID card_write(UINT64 offset, UINT32 value)
{
    UINT32 v = __builtin_bswap32(value);
    UINT64 i = (offset - HCR) / 4;
    if (offset == RESET && v == 1) {
        SetMem(&card, sizeof card, 0);
        command_reset();
        config_reset();
    } else if (offset == OWNER) {
        card.owned = v != 0;
    } else if (offset >= HCR && i < LAST) {
        card.hcr[i] = v;
    } else if (offset >= HCR && i == LAST) {
        post(v);
    }
}

BOOLEAN card_busy(VOID)
{
    return card.polls != 0;
}

UINTN card_commands(VOID)
{
    return taken;
}
