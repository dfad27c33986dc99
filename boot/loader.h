/* A card's session over EFI_PCI_IO_PROTOCOL: what include/hca.h leaves to a loader. */
#ifndef LOADER_H
#define LOADER_H

#include <efi.h>
#include <efilib.h>

#include "hca.h"

/* What a session holds at most: two mailboxes, two areas, 14 ranges and 64 lent buffers. */
#define LOADER_PAGES 82
/* The room for a resource list; of one that is longer no more is handed on. */
#define LOADER_LIST 2048

/* Pages known by a handle, which is their place. */
typedef struct {
    /* Null where the place is free. */
    UINT8 *host;
    /* What Map gave for Unmap; it may be null. */
    VOID *token;
} loader_pages;

/* A session with all that is lent to its calls; 20 KB and more, so not for the stack. */
typedef struct {
    EFI_PCI_IO_PROTOCOL *pci;
    UINT8 state[HCA_STATE], inbox[HCA_MAILBOX], outbox[HCA_MAILBOX], out[HCA_TURN], list[LOADER_LIST];
    hca_undo undo[HCA_UNDO_RECORDS];
    UINTN undo_count, list_bytes;
    loader_pages pages[LOADER_PAGES];
    /* The handles of the first two good allocations: the pages behind the inbox and the outbox. */
    UINTN box[2], boxes;
    /* The last question was a register write. */
    BOOLEAN written;
} loader;

/* A call as hca_call has it; the fields that its kind does not look at are left out. */
typedef struct {
    UINT32 kind;
    UINT16 op;
    UINT8 op_mod;
    UINT32 in_mod;
    UINT64 value;
    const UINT8 *input;
    UINTN input_bytes;
} loader_request;

/* A session that was never opened. */
VOID loader_fresh(loader *l, EFI_PCI_IO_PROTOCOL *pci);

/* Makes the call and answers its questions until there are none: 0, or the number by which the call itself was refused. */
UINT32 loader_call(loader *l, loader_request r);

/* Puts a record on the undo list: 0, or the number of the refusal. */
UINT32 loader_push_undo(loader *l, UINT16 op, UINT8 op_mod, UINT32 in_mod, UINT64 in_param);

/* hca_result, hca_setup or hca_books: its words, or FALSE where it was refused. */
typedef uint32_t loader_reader(const uint8_t *, size_t, uint8_t *, size_t);
BOOLEAN loader_read(const loader *l, loader_reader *reader, UINT64 *words, UINTN count);

#endif
