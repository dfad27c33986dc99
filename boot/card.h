/* A simulated ConnectX-3 behind an instance of EFI_PCI_IO_PROTOCOL. Nothing of it is known to the loader's side. */
#ifndef CARD_H
#define CARD_H

#include <efi.h>
#include <efilib.h>

#define PAGE 4096

/* card.c: the registers of BAR 0, as the bus carries them. */
UINT32 card_read(UINT64 offset);
VOID card_write(UINT64 offset, UINT32 value);
/* A command shows GO. */
BOOLEAN card_busy(VOID);
/* How many commands were taken. */
UINTN card_commands(VOID);

/* card_commands.c: what commands do. */
typedef struct {
    UINT16 op;
    UINT32 in_mod;
    UINT64 in_param, out_param;
} card_command;
/* The status; other than 0, nothing has changed. A value in the place of a reply is left as the out parameter. */
UINT8 command_carry_out(card_command *c);
VOID command_reset(VOID);
/* INIT_HCA was good, and CLOSE_HCA has not been since: lent pages may be used. */
BOOLEAN card_open(VOID);
/* A MAP has left the card with part of these device addresses. */
BOOLEAN card_holds(UINT64 address, UINT64 bytes);

/* card_config.c: configuration space, attributes and BARs. */
#define CARD_BARS 2
EFI_STATUS config_read(UINT32 offset, UINTN bytes, UINT32 *value);
EFI_STATUS config_write(UINT32 offset, UINTN bytes, UINT32 value);
EFI_STATUS config_attributes(EFI_PCI_IO_PROTOCOL_ATTRIBUTE_OPERATION operation, UINT64 value, UINT64 *result);
EFI_STATUS config_resource(UINT8 bar, VOID **list);
VOID config_start(VOID);
/* A reset clears what was written, and the card is away for a while. */
VOID config_reset(VOID);
UINT64 config_bar_bytes(UINT8 bar);
/* The card answers at this BAR; it may reach memory; it may do so beyond 4 GiB. */
BOOLEAN config_decodes(UINT8 bar);
BOOLEAN config_masters(VOID);
BOOLEAN config_wide(VOID);
/* The attributes are those from before the opening. */
BOOLEAN config_restored(VOID);

/* card_memory.c: the pages that a driver gets, and where the card sees them. */
EFI_STATUS memory_start(VOID);
EFI_STATUS memory_allocate(EFI_ALLOCATE_TYPE type, EFI_MEMORY_TYPE kind, UINTN pages, VOID **host, UINT64 attributes);
EFI_STATUS memory_map(EFI_PCI_IO_PROTOCOL_OPERATION operation, VOID *host, UINTN *bytes, EFI_PHYSICAL_ADDRESS *address, VOID **token);
EFI_STATUS memory_unmap(VOID *token);
EFI_STATUS memory_free(UINTN pages, VOID *host);
/* The memory at these device addresses; null where the card cannot reach all of it. */
UINT8 *memory_at(UINT64 address, UINT64 bytes);
BOOLEAN memory_zero(const UINT8 *bytes, UINT64 count);
/* The buffers that have not come back. */
UINTN memory_in_use(VOID);
/* What no driver may do: it is printed, and counted. */
VOID misuse(const CHAR16 *what);
UINTN misuses(VOID);

/* card_pciio.c: the protocol's instance on a handle of its own. */
EFI_STATUS card_install(VOID);

#endif
