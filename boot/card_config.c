/* The simulated card's configuration space, its BARs, and the attributes that PCI I/O keeps of it. */
#include "card.h"

#define DWORDS 64
#define COMMAND 0x04
#define BAR 0x10
#define CAPABILITIES 0x34
#define POWER_MANAGEMENT 0x40
#define PCI_EXPRESS 0x60
/* Bits of the command register, and how far above them the attributes of the same meaning stand. */
#define MEMORY_SPACE 0x2
#define BUS_MASTER 0x4
#define SPACES 0x7
#define TO_ATTRIBUTES 8
/* The 16-bit reads that give 0xffff after a reset. */
#define ABSENT 2
/* Resource lists: tags, types, the bytes of a header and of a descriptor, and where its fields begin; what is added to an address of the host. */
#define QWORD_SPACE 0x8a
#define END_TAG 0x79
#define MEMORY_RANGE 0
#define IO_RANGE 1
#define HEADER 3
#define FIELDS 6
#define DESCRIPTOR 46
#define OFFSET 0x100000000ull

#define SUPPORTED \
    (EFI_PCI_IO_ATTRIBUTE_IO | EFI_PCI_IO_ATTRIBUTE_MEMORY | EFI_PCI_IO_ATTRIBUTE_BUS_MASTER | EFI_PCI_IO_ATTRIBUTE_DUAL_ADDRESS_CYCLE)

/* Two BARs of 64 bits, of 1 MiB and 8 MiB, in the registers 0 and 2; as EDK II has it, an index counts BARs and not registers. */
static const struct {
    UINT32 low;
    UINT64 bytes;
} bars[CARD_BARS] = { { 0xf0000004, 0x100000 }, { 0xe000000c, 0x800000 } };

static UINT32 dwords[DWORDS], writable[DWORDS];
static UINTN absent;
static UINT64 attributes;

static VOID set(UINT32 offset, UINT32 value, UINT32 bits)
{
    dwords[offset / 4] = value;
    writable[offset / 4] = bits;
}

VOID config_start(VOID)
{
    set(0x00, 0x100315b3, 0);
    set(COMMAND, 0x00100000, 0x0547);
    set(0x08, 0x02000000, 0);
    set(0x0c, 0, 0xff);
    for (UINT32 i = 0; i < CARD_BARS; i++) {
        set(BAR + 8 * i, bars[i].low, ~(UINT32)(bars[i].bytes - 1));
        set(BAR + 8 * i + 4, 0, ~0u);
    }
    set(0x2c, 0x000115b3, 0);
    set(CAPABILITIES, POWER_MANAGEMENT, 0);
    set(0x3c, 0x0000010b, 0xff);
    set(POWER_MANAGEMENT, PCI_EXPRESS << 8 | 0x01, 0);
    set(PCI_EXPRESS, 0x00020010, 0);
    set(PCI_EXPRESS + 0x08, 0x00002810, 0xffff);
    set(PCI_EXPRESS + 0x10, 0x00000040, 0xffff);
}

VOID config_reset(VOID)
{
    for (UINTN i = 0; i < DWORDS; i++)
        dwords[i] &= ~writable[i];
    absent = ABSENT;
}

/* All ones while the card is away. */
EFI_STATUS config_read(UINT32 offset, UINTN bytes, UINT32 *value)
{
    if (offset % bytes || offset / 4 >= DWORDS)
        return EFI_UNSUPPORTED;
    *value = absent ? ~0u : dwords[offset / 4] >> offset % 4 * 8;
    absent -= absent && bytes == 2;
    return EFI_SUCCESS;
}

EFI_STATUS config_write(UINT32 offset, UINTN bytes, UINT32 value)
{
    UINT32 shift = offset % 4 * 8, mask = (bytes == 4 ? ~0u : (1u << 8 * bytes) - 1) << shift;
    if (offset % bytes || offset / 4 >= DWORDS)
        return EFI_UNSUPPORTED;
    mask &= absent ? 0 : writable[offset / 4];
    dwords[offset / 4] = (dwords[offset / 4] & ~mask) | (value << shift & mask);
    return EFI_SUCCESS;
}

/* The three spaces stand in the command register too. */
static EFI_STATUS attribute(UINT64 value)
{
    if (value & ~(UINT64)SUPPORTED)
        return EFI_UNSUPPORTED;
    attributes = value;
    dwords[COMMAND / 4] = (dwords[COMMAND / 4] & ~SPACES) | (value >> TO_ATTRIBUTES & SPACES);
    return EFI_SUCCESS;
}

EFI_STATUS config_attributes(EFI_PCI_IO_PROTOCOL_ATTRIBUTE_OPERATION operation, UINT64 value, UINT64 *result)
{
    switch (operation) {
    case EfiPciIoAttributeOperationGet:
        *result = attributes;
        return EFI_SUCCESS;
    case EfiPciIoAttributeOperationSupported:
        *result = SUPPORTED;
        return EFI_SUCCESS;
    case EfiPciIoAttributeOperationSet: return attribute(value);
    case EfiPciIoAttributeOperationEnable: return attribute(attributes | value);
    case EfiPciIoAttributeOperationDisable: return attribute(attributes & ~value);
    default: return EFI_INVALID_PARAMETER;
    }
}

/*
 * A QWORD address space descriptor (ACPI) of so many bytes, as EDK II makes them: in the place of the highest address is the alignment. Gives where it ends.
 */
static UINT8 *describe(UINT8 *d, UINT8 type, UINT16 bytes, UINT64 minimum, UINT64 offset, UINT64 length)
{
    UINT64 fields[] = { 64, minimum, length - 1, offset, length };
    UINT16 behind = bytes - HEADER;
    SetMem(d, bytes, 0);
    d[0] = QWORD_SPACE;
    d[1] = behind & 0xff;
    d[2] = behind >> 8;
    d[3] = type;
    CopyMem(d + FIELDS, fields, sizeof fields);
    return d + bytes;
}

/*
 * As a server's firmware has it that reports an I/O range ahead of the memory range, and a translation offset: 94 bytes with the end tag; every second time
 * the I/O range has 1,000 bytes, and no end tag follows. Both give the same BAR.
 */
EFI_STATUS config_resource(UINT8 bar, VOID **list)
{
    static BOOLEAN second;
    UINT8 *d;
    if (bar >= CARD_BARS)
        return EFI_UNSUPPORTED;
    UINT16 ahead = second ? 1000 : DESCRIPTOR;
    EFI_STATUS status = BS->AllocatePool(EfiBootServicesData, ahead + DESCRIPTOR + (second ? 0 : 2), (VOID **)&d);
    if (status != EFI_SUCCESS)
        return status;
    *list = d;
    d = describe(d, IO_RANGE, ahead, 0xc000, 0, 0x100);
    d = describe(d, MEMORY_RANGE, DESCRIPTOR, (bars[bar].low & ~0xfu) - OFFSET, OFFSET, bars[bar].bytes);
    if (!second) {
        d[0] = END_TAG;
        d[1] = 0;
    }
    second = !second;
    return EFI_SUCCESS;
}

UINT64 config_bar_bytes(UINT8 bar)
{
    return bar < CARD_BARS ? bars[bar].bytes : 0;
}

BOOLEAN config_decodes(UINT8 bar)
{
    const UINT32 *d = &dwords[BAR / 4 + 2 * bar];
    return !absent && dwords[COMMAND / 4] & MEMORY_SPACE && d[0] == bars[bar].low && d[1] == 0;
}

BOOLEAN config_masters(VOID)
{
    return !absent && dwords[COMMAND / 4] & BUS_MASTER;
}

BOOLEAN config_wide(VOID)
{
    return (attributes & EFI_PCI_IO_ATTRIBUTE_DUAL_ADDRESS_CYCLE) != 0;
}

BOOLEAN config_restored(VOID)
{
    return attributes == 0 && !(dwords[COMMAND / 4] & SPACES);
}
