/*
 * The answers to a session's questions, from EFI_PCI_IO_PROTOCOL and the boot services alone.
 *
 * The library uses the red zone, and under UEFI interrupts run on the same stack: so each of its functions is called at TPL_HIGH_LEVEL, where the
 * UEFI specification has interrupts off. The bus is called at the caller's own level.
 */
#include "loader.h"

#define PAGE 4096
#define WORD 8
/*
 * ACPI's resource lists: a QWORD address space descriptor has a length of 16 bits behind its tag, not counting these three bytes, and then its type; the end
 * tag has a checksum behind it.
 */
#define QWORD_SPACE 0x8a
#define HEADER 3
#define MEMORY 0
#define END_TAG 0x79
#define END_BYTES 2

/* What came of a question. */
typedef struct {
    UINT32 kind;
    UINT64 a, b;
} answer;

static UINT64 word(const UINT8 *bytes, UINTN i)
{
    UINT64 v = 0;
    for (UINTN k = WORD; k-- > 0;)
        v = v << 8 | bytes[WORD * i + k];
    return v;
}

/* A warning of UEFI counts as failed. */
static answer given(EFI_STATUS status, UINT32 kind, UINT64 a, UINT64 b)
{
    return status == EFI_SUCCESS ? (answer){ kind, a, b } : (answer){ HCA_FAILED, 0, 0 };
}

static answer done(EFI_STATUS status)
{
    return given(status, HCA_DONE, 0, 0);
}

static answer config_read(loader *l, EFI_PCI_IO_PROTOCOL_WIDTH width, UINT64 offset)
{
    UINT32 value = 0;
    EFI_STATUS status = l->pci->Pci.Read(l->pci, width, (UINT32)offset, 1, &value);
    return given(status, width == EfiPciIoWidthUint16 ? HCA_WORD : HCA_DWORD, value, 0);
}

static answer config_write(loader *l, EFI_PCI_IO_PROTOCOL_WIDTH width, UINT64 offset, UINT64 value)
{
    UINT32 v = (UINT32)value;
    return done(l->pci->Pci.Write(l->pci, width, (UINT32)offset, 1, &v));
}

/* Registers go to and from the bus as they are. */
static answer register_read(loader *l, UINT64 bar, UINT64 offset)
{
    UINT32 value = 0;
    EFI_STATUS status = l->pci->Mem.Read(l->pci, EfiPciIoWidthUint32, (UINT8)bar, offset, 1, &value);
    return given(status, HCA_DWORD, value, 0);
}

static answer register_write(loader *l, UINT64 bar, UINT64 offset, UINT64 value)
{
    UINT32 v = (UINT32)value;
    return done(l->pci->Mem.Write(l->pci, EfiPciIoWidthUint32, (UINT8)bar, offset, 1, &v));
}

/* The numbers of the operations are UEFI's. */
static answer attributes(loader *l, UINT64 operation, UINT64 value)
{
    UINT64 result = 0;
    EFI_STATUS status = l->pci->Attributes(l->pci, (EFI_PCI_IO_PROTOCOL_ATTRIBUTE_OPERATION)operation, value, &result);
    return given(status, HCA_QWORD, result, 0);
}

static UINTN at_most(UINTN n, UINTN most)
{
    return n < most ? n : most;
}

/*
 * The bytes of a list that a session looks at, but not more than there is room for: with the first memory descriptor, the end tag or an unknown tag. What
 * lies behind may be no part of the list, and is not read.
 */
static UINTN list_bytes(const UINT8 *list)
{
    UINTN n = 0;
    while (n < LOADER_LIST && list[n] == QWORD_SPACE) {
        UINTN end = n + HEADER + (list[n + 1] | list[n + 2] << 8);
        if (list[n + HEADER] == MEMORY)
            return at_most(end, LOADER_LIST);
        n = end;
    }
    if (n >= LOADER_LIST)
        return LOADER_LIST;
    return at_most(n + (list[n] == END_TAG ? END_BYTES : 1), LOADER_LIST);
}

/* A null list is a failure; any other is copied and given back. */
static answer resource(loader *l, UINT64 bar)
{
    UINT8 *list = NULL;
    EFI_STATUS status = l->pci->GetBarAttributes(l->pci, (UINT8)bar, NULL, (VOID **)&list);
    if (status != EFI_SUCCESS || !list)
        return given(EFI_NOT_FOUND, HCA_LIST, 0, 0);
    l->list_bytes = list_bytes(list);
    BS->CopyMem(l->list, list, l->list_bytes);
    BS->FreePool(list);
    return given(EFI_SUCCESS, HCA_LIST, 0, 0);
}

static answer stall(UINT64 microseconds)
{
    BS->Stall(microseconds);
    return done(EFI_SUCCESS);
}

/* Null pages are a failure; others are zeroed, and known by their place from here on. */
static answer allocate(loader *l, UINT64 pages)
{
    UINTN handle = 0;
    VOID *host = NULL;
    while (handle < LOADER_PAGES && l->pages[handle].host)
        handle++;
    if (handle == LOADER_PAGES)
        return done(EFI_OUT_OF_RESOURCES);
    EFI_STATUS status = l->pci->AllocateBuffer(l->pci, AllocateAnyPages, EfiBootServicesData, pages, &host, 0);
    if (status != EFI_SUCCESS || !host)
        return done(EFI_OUT_OF_RESOURCES);
    BS->SetMem(host, pages * PAGE, 0);
    l->pages[handle] = (loader_pages){ host, NULL };
    if (l->boxes < 2)
        l->box[l->boxes++] = handle;
    return given(EFI_SUCCESS, HCA_HANDLE, handle, 0);
}

/* The session itself looks at the size that was mapped. */
static answer map(loader *l, UINT64 handle, UINT64 bytes)
{
    UINTN mapped = bytes;
    EFI_PHYSICAL_ADDRESS address = 0;
    loader_pages *p = &l->pages[handle];
    EFI_STATUS status = l->pci->Map(l->pci, EfiPciIoOperationBusMasterCommonBuffer, p->host, &mapped, &address, &p->token);
    return given(status, HCA_MAPPED, address, mapped);
}

static answer unmap(loader *l, UINT64 handle)
{
    return done(l->pci->Unmap(l->pci, l->pages[handle].token));
}

/* The place is free from here on, whatever came of it. */
static answer free_pages(loader *l, UINT64 handle, UINT64 pages)
{
    VOID *host = l->pages[handle].host;
    l->pages[handle].host = NULL;
    return done(l->pci->FreeBuffer(l->pci, pages, host));
}

/* Behind a register write both mailboxes go to their pages, behind a register read the outbox comes from its page. */
static answer fence(loader *l)
{
    UINT8 *inbox = l->pages[l->box[0]].host, *outbox = l->pages[l->box[1]].host;
    __sync_synchronize();
    if (l->written) {
        BS->CopyMem(inbox, l->inbox, HCA_MAILBOX);
        BS->CopyMem(outbox, l->outbox, HCA_MAILBOX);
    } else {
        BS->CopyMem(l->outbox, outbox, HCA_MAILBOX);
    }
    __sync_synchronize();
    return done(EFI_SUCCESS);
}

/* Does what the open question says. */
static answer ask(loader *l)
{
    UINT64 a = word(l->out, 1), b = word(l->out, 2), c = word(l->out, 3);
    switch (word(l->out, 0)) {
    case HCA_CONFIG_READ16: return config_read(l, EfiPciIoWidthUint16, a);
    case HCA_CONFIG_READ32: return config_read(l, EfiPciIoWidthUint32, a);
    case HCA_CONFIG_WRITE16: return config_write(l, EfiPciIoWidthUint16, a, b);
    case HCA_CONFIG_WRITE32: return config_write(l, EfiPciIoWidthUint32, a, b);
    case HCA_REG_READ: return register_read(l, a, b);
    case HCA_REG_WRITE: return register_write(l, a, b, c);
    case HCA_ATTRIBUTES: return attributes(l, a, b);
    case HCA_RESOURCE: return resource(l, a);
    case HCA_STALL: return stall(a);
    case HCA_ALLOCATE: return allocate(l, a);
    case HCA_MAP: return map(l, a, b);
    case HCA_UNMAP: return unmap(l, a);
    case HCA_FREE: return free_pages(l, a, b);
    case HCA_FENCE: return fence(l);
    default: return done(EFI_UNSUPPORTED);
    }
}

/* A call was taken: the undo list is cut to what the call has left on it. */
static UINT32 taken(loader *l, UINT32 refused)
{
    if (!refused)
        l->undo_count = word(l->out, 4);
    return refused;
}

static UINT32 begin(loader *l, const loader_request *r)
{
    EFI_TPL tpl = BS->RaiseTPL(TPL_HIGH_LEVEL);
    UINT32 refused = hca_call(l->state, HCA_STATE, r->kind, r->op, r->op_mod, r->in_mod, r->value, r->input, r->input_bytes, l->inbox,
                              HCA_MAILBOX, l->outbox, HCA_MAILBOX, l->undo, HCA_UNDO_RECORDS, l->undo_count, l->out, HCA_TURN);
    BS->RestoreTPL(tpl);
    return taken(l, refused);
}

static UINT32 hand_in(loader *l, answer a)
{
    UINTN bytes = a.kind == HCA_LIST ? l->list_bytes : 0;
    l->written = word(l->out, 0) == HCA_REG_WRITE;
    EFI_TPL tpl = BS->RaiseTPL(TPL_HIGH_LEVEL);
    UINT32 refused = hca_answer(l->state, HCA_STATE, a.kind, a.a, a.b, l->list, bytes, l->inbox, HCA_MAILBOX, l->outbox, HCA_MAILBOX, l->undo,
                                HCA_UNDO_RECORDS, l->undo_count, l->out, HCA_TURN);
    BS->RestoreTPL(tpl);
    return taken(l, refused);
}

VOID loader_fresh(loader *l, EFI_PCI_IO_PROTOCOL *pci)
{
    BS->SetMem(l, sizeof *l, 0);
    l->pci = pci;
    EFI_TPL tpl = BS->RaiseTPL(TPL_HIGH_LEVEL);
    hca_fresh(l->state, HCA_STATE);
    BS->RestoreTPL(tpl);
}

UINT32 loader_call(loader *l, loader_request r)
{
    UINT32 refused = begin(l, &r);
    while (!refused && word(l->out, 0) != HCA_FINISHED)
        refused = hand_in(l, ask(l));
    return refused;
}

UINT32 loader_push_undo(loader *l, UINT16 op, UINT8 op_mod, UINT32 in_mod, UINT64 in_param)
{
    EFI_TPL tpl = BS->RaiseTPL(TPL_HIGH_LEVEL);
    UINT32 refused = hca_push_undo(l->undo, HCA_UNDO_RECORDS, l->undo_count, op, op_mod, in_mod, in_param);
    BS->RestoreTPL(tpl);
    l->undo_count += !refused;
    return refused;
}

BOOLEAN loader_read(const loader *l, loader_reader *reader, UINT64 *words, UINTN count)
{
    UINT8 *bytes = (UINT8 *)words;
    EFI_TPL tpl = BS->RaiseTPL(TPL_HIGH_LEVEL);
    UINT32 refused = reader(l->state, HCA_STATE, bytes, WORD * count);
    BS->RestoreTPL(tpl);
    for (UINTN i = 0; i < count && !refused; i++)
        words[i] = word(bytes, i);
    return refused == 0;
}
