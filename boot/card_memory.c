/*
 * The pages that a driver gets for the simulated card. They are handed out and mapped by the firmware's own PCI I/O, as those of another function;
 * the card sees them at other addresses, as behind an IOMMU.
 */
#include "card.h"

#define BUFFERS 128
/* Where the card sees memory once it has 64-bit addresses. */
#define WINDOW 0x10000000000ull
/* What pages come with. */
#define JUNK 0xa5

typedef struct {
    UINT8 *host;
    UINT64 pages, address;
    /* The firmware's. */
    VOID *token;
    /* Lent: mapped while INIT_HCA was in force. */
    BOOLEAN mapped, lent;
} buffer;

static EFI_PCI_IO_PROTOCOL *other;
static buffer buffers[BUFFERS];
static UINTN misused;

VOID misuse(const CHAR16 *what)
{
    Print(L"  MISUSE of the card or the host: %s\n", what);
    misused++;
}

UINTN misuses(VOID)
{
    return misused;
}

EFI_STATUS memory_start(VOID)
{
    EFI_GUID guid = EFI_PCI_IO_PROTOCOL_GUID;
    return BS->LocateProtocol(&guid, NULL, (VOID **)&other);
}

/* The buffer that begins there; null asks for a free place. */
static buffer *find(const VOID *host)
{
    for (UINTN i = 0; i < BUFFERS; i++)
        if (buffers[i].host == host)
            return &buffers[i];
    return NULL;
}

EFI_STATUS memory_allocate(EFI_ALLOCATE_TYPE type, EFI_MEMORY_TYPE kind, UINTN pages, VOID **host, UINT64 attributes)
{
    buffer *b = find(NULL);
    EFI_STATUS status = b ? other->AllocateBuffer(other, type, kind, pages, host, attributes) : EFI_OUT_OF_RESOURCES;
    if (status != EFI_SUCCESS)
        return status;
    *b = (buffer){ .host = *host, .pages = pages };
    SetMem(b->host, pages * PAGE, JUNK);
    return EFI_SUCCESS;
}

BOOLEAN memory_zero(const UINT8 *bytes, UINT64 count)
{
    for (UINT64 i = 0; i < count; i++)
        if (bytes[i])
            return FALSE;
    return TRUE;
}

EFI_STATUS memory_map(EFI_PCI_IO_PROTOCOL_OPERATION operation, VOID *host, UINTN *bytes, EFI_PHYSICAL_ADDRESS *address, VOID **token)
{
    buffer *b = host ? find(host) : NULL;
    if (!b || b->mapped || *bytes > b->pages * PAGE || operation != EfiPciIoOperationBusMasterCommonBuffer)
        return EFI_INVALID_PARAMETER;
    EFI_STATUS status = other->Map(other, operation, host, bytes, address, &b->token);
    if (status != EFI_SUCCESS)
        return status;
    if (!memory_zero(b->host, *bytes))
        misuse(L"pages mapped that were not zeroed");
    *address += config_wide() ? WINDOW : 0;
    b->address = *address;
    b->mapped = TRUE;
    b->lent = card_open();
    *token = b;
    return EFI_SUCCESS;
}

/* By the card rules of document 01. */
static BOOLEAN may_be_used(const buffer *b)
{
    return card_busy() || (b->lent && card_open()) || (b->address && card_holds(b->address, b->pages * PAGE));
}

EFI_STATUS memory_unmap(VOID *token)
{
    buffer *b = token;
    if (b < buffers || b >= buffers + BUFFERS || !b->mapped) {
        misuse(L"unmap without a mapping");
        return EFI_INVALID_PARAMETER;
    }
    if (may_be_used(b))
        misuse(L"unmap of pages that the card may use");
    b->mapped = FALSE;
    return other->Unmap(other, b->token);
}

EFI_STATUS memory_free(UINTN pages, VOID *host)
{
    buffer *b = host ? find(host) : NULL;
    if (!b || b->mapped || b->pages != pages) {
        misuse(L"pages given back that are mapped, or were not handed out so");
        return EFI_INVALID_PARAMETER;
    }
    if (may_be_used(b))
        misuse(L"pages given back that the card may use");
    b->host = NULL;
    return other->FreeBuffer(other, pages, host);
}

UINT8 *memory_at(UINT64 address, UINT64 bytes)
{
    for (UINTN i = 0; config_masters() && i < BUFFERS; i++) {
        const buffer *b = &buffers[i];
        UINT64 from = address - b->address, all = b->pages * PAGE;
        if (b->host && b->mapped && from < all && bytes <= all - from)
            return b->host + from;
    }
    return NULL;
}

UINTN memory_in_use(VOID)
{
    UINTN n = 0;
    for (UINTN i = 0; i < BUFFERS; i++)
        n += buffers[i].host != NULL;
    return n;
}
