/* What is asked of the firmware besides the card: its interrupts, its memory map, the end of its boot services, and what can be said behind it. */
#ifndef FIRMWARE_H
#define FIRMWARE_H

#include <efi.h>
#include <efilib.h>

/* Interrupts are on, and off at TPL_HIGH_LEVEL. */
BOOLEAN firmware_masks(VOID);

/* The pages that the memory map has as free. */
UINT64 firmware_free_pages(VOID);

/* Ends the boot services, the notify functions of which run within. */
EFI_STATUS firmware_exit(EFI_HANDLE image);

/* Writes to the first serial port, which is all that is left of the console then. */
VOID firmware_say(const char *text);

#endif
