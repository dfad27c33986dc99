#include "firmware.h"

#define MAP_BYTES 32768
/* The bit of RFLAGS that says that interrupts are on. */
#define INTERRUPTS 0x200
/* The serial port's data and line status registers, and the bit that says that a character may be written. */
#define SERIAL 0x3f8
#define LINE_STATUS (SERIAL + 5)
#define READY 0x20

static UINT8 map[MAP_BYTES];

static UINT64 flags(VOID)
{
    UINT64 f;
    __asm__ volatile("pushfq; popq %0" : "=r"(f));
    return f;
}

BOOLEAN firmware_masks(VOID)
{
    UINT64 outside = flags();
    EFI_TPL tpl = BS->RaiseTPL(TPL_HIGH_LEVEL);
    UINT64 inside = flags();
    BS->RestoreTPL(tpl);
    return outside & INTERRUPTS && !(inside & INTERRUPTS);
}

static EFI_STATUS read_map(UINTN *bytes, UINTN *key, UINTN *entry)
{
    UINT32 version;
    *bytes = sizeof map;
    return BS->GetMemoryMap(bytes, (EFI_MEMORY_DESCRIPTOR *)map, key, entry, &version);
}

UINT64 firmware_free_pages(VOID)
{
    UINTN bytes, key, entry;
    UINT64 pages = 0;
    if (read_map(&bytes, &key, &entry) != EFI_SUCCESS)
        return 0;
    for (UINTN at = 0; at < bytes; at += entry) {
        const EFI_MEMORY_DESCRIPTOR *d = (const EFI_MEMORY_DESCRIPTOR *)(map + at);
        pages += d->Type == EfiConventionalMemory ? d->NumberOfPages : 0;
    }
    return pages;
}

/* The key must be that of the map as it is. */
EFI_STATUS firmware_exit(EFI_HANDLE image)
{
    UINTN bytes, key, entry;
    EFI_STATUS status = read_map(&bytes, &key, &entry);
    return status == EFI_SUCCESS ? BS->ExitBootServices(image, key) : status;
}

VOID firmware_say(const char *text)
{
    for (; *text; text++) {
        UINT8 status = 0;
        while (!(status & READY))
            __asm__ volatile("inb %1, %0" : "=a"(status) : "Nd"((UINT16)LINE_STATUS));
        __asm__ volatile("outb %0, %1" : : "a"(*text), "Nd"((UINT16)SERIAL));
    }
}
