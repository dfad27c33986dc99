/* EFI_PCI_IO_PROTOCOL over the simulated card: the calls that the UEFI specification gives a driver, as far as the card has them. */
#include "card.h"

static EFI_GUID guid = EFI_PCI_IO_PROTOCOL_GUID;

/* The bytes of a plain width; 0 for the FIFO and fill widths and for 64 bits, which the card does not have. */
static UINTN bytes_of(EFI_PCI_IO_PROTOCOL_WIDTH width)
{
    return width <= EfiPciIoWidthUint32 ? (UINTN)1 << width : 0;
}

static EFI_STATUS EFIAPI pci_read(EFI_PCI_IO_PROTOCOL *This, EFI_PCI_IO_PROTOCOL_WIDTH Width, UINT32 Offset, UINTN Count, VOID *Buffer)
{
    UINTN bytes = bytes_of(Width);
    EFI_STATUS status = bytes ? EFI_SUCCESS : EFI_UNSUPPORTED;
    for (UINTN i = 0; i < Count && status == EFI_SUCCESS; i++) {
        UINT32 value = 0;
        status = config_read(Offset + i * bytes, bytes, &value);
        CopyMem((UINT8 *)Buffer + i * bytes, &value, bytes);
    }
    return status;
}

static EFI_STATUS EFIAPI pci_write(EFI_PCI_IO_PROTOCOL *This, EFI_PCI_IO_PROTOCOL_WIDTH Width, UINT32 Offset, UINTN Count, VOID *Buffer)
{
    UINTN bytes = bytes_of(Width);
    EFI_STATUS status = bytes ? EFI_SUCCESS : EFI_UNSUPPORTED;
    for (UINTN i = 0; i < Count && status == EFI_SUCCESS; i++) {
        UINT32 value = 0;
        CopyMem(&value, (UINT8 *)Buffer + i * bytes, bytes);
        status = config_write(Offset + i * bytes, bytes, value);
    }
    return status;
}

/* Registers are read and written as single dwords. */
static BOOLEAN register_there(EFI_PCI_IO_PROTOCOL_WIDTH width, UINT8 bar, UINT64 offset, UINTN count)
{
    UINT64 bytes = config_bar_bytes(bar);
    return width == EfiPciIoWidthUint32 && count == 1 && offset % 4 == 0 && bytes >= 4 && offset <= bytes - 4;
}

/* All ones where the card does not answer; 0 from the UAR BAR. */
static EFI_STATUS EFIAPI mem_read(EFI_PCI_IO_PROTOCOL *This, EFI_PCI_IO_PROTOCOL_WIDTH Width, UINT8 BarIndex, UINT64 Offset, UINTN Count,
                                  VOID *Buffer)
{
    UINT32 *value = Buffer;
    if (!register_there(Width, BarIndex, Offset, Count))
        return EFI_UNSUPPORTED;
    if (!config_decodes(BarIndex))
        *value = ~0u;
    else
        *value = BarIndex == 0 ? card_read(Offset) : 0;
    return EFI_SUCCESS;
}

static EFI_STATUS EFIAPI mem_write(EFI_PCI_IO_PROTOCOL *This, EFI_PCI_IO_PROTOCOL_WIDTH Width, UINT8 BarIndex, UINT64 Offset, UINTN Count,
                                   VOID *Buffer)
{
    if (!register_there(Width, BarIndex, Offset, Count))
        return EFI_UNSUPPORTED;
    if (config_decodes(BarIndex) && BarIndex == 0)
        card_write(Offset, *(UINT32 *)Buffer);
    return EFI_SUCCESS;
}

static EFI_STATUS EFIAPI map(EFI_PCI_IO_PROTOCOL *This, EFI_PCI_IO_PROTOCOL_OPERATION Operation, VOID *HostAddress, UINTN *NumberOfBytes,
                             EFI_PHYSICAL_ADDRESS *DeviceAddress, VOID **Mapping)
{
    return memory_map(Operation, HostAddress, NumberOfBytes, DeviceAddress, Mapping);
}

static EFI_STATUS EFIAPI unmap(EFI_PCI_IO_PROTOCOL *This, VOID *Mapping)
{
    return memory_unmap(Mapping);
}

static EFI_STATUS EFIAPI allocate_buffer(EFI_PCI_IO_PROTOCOL *This, EFI_ALLOCATE_TYPE Type, EFI_MEMORY_TYPE MemoryType, UINTN Pages,
                                         VOID **HostAddress, UINT64 Attributes)
{
    return memory_allocate(Type, MemoryType, Pages, HostAddress, Attributes);
}

static EFI_STATUS EFIAPI free_buffer(EFI_PCI_IO_PROTOCOL *This, UINTN Pages, VOID *HostAddress)
{
    return memory_free(Pages, HostAddress);
}

static EFI_STATUS EFIAPI flush(EFI_PCI_IO_PROTOCOL *This)
{
    return EFI_SUCCESS;
}

static EFI_STATUS EFIAPI get_location(EFI_PCI_IO_PROTOCOL *This, UINTN *Segment, UINTN *Bus, UINTN *Device, UINTN *Function)
{
    *Segment = 0;
    *Bus = 0xff;
    *Device = *Function = 0;
    return EFI_SUCCESS;
}

static EFI_STATUS EFIAPI attributes(EFI_PCI_IO_PROTOCOL *This, EFI_PCI_IO_PROTOCOL_ATTRIBUTE_OPERATION Operation, UINT64 Attributes,
                                    UINT64 *Result)
{
    UINT64 unread;
    return config_attributes(Operation, Attributes, Result ? Result : &unread);
}

static EFI_STATUS EFIAPI get_bar_attributes(EFI_PCI_IO_PROTOCOL *This, UINT8 BarIndex, UINT64 *Supports, VOID **Resources)
{
    if (Supports)
        *Supports = 0;
    return Resources ? config_resource(BarIndex, Resources) : EFI_SUCCESS;
}

/* What the card does not have. */
static EFI_STATUS EFIAPI poll(EFI_PCI_IO_PROTOCOL *This, EFI_PCI_IO_PROTOCOL_WIDTH Width, UINT8 BarIndex, UINT64 Offset, UINT64 Mask,
                              UINT64 Value, UINT64 Delay, UINT64 *Result)
{
    return EFI_UNSUPPORTED;
}

static EFI_STATUS EFIAPI io(EFI_PCI_IO_PROTOCOL *This, EFI_PCI_IO_PROTOCOL_WIDTH Width, UINT8 BarIndex, UINT64 Offset, UINTN Count,
                            VOID *Buffer)
{
    return EFI_UNSUPPORTED;
}

static EFI_STATUS EFIAPI copy_mem(EFI_PCI_IO_PROTOCOL *This, EFI_PCI_IO_PROTOCOL_WIDTH Width, UINT8 DestBarIndex, UINT64 DestOffset,
                                  UINT8 SrcBarIndex, UINT64 SrcOffset, UINTN Count)
{
    return EFI_UNSUPPORTED;
}

static EFI_STATUS EFIAPI set_bar_attributes(EFI_PCI_IO_PROTOCOL *This, UINT64 Attributes, UINT8 BarIndex, UINT64 *Offset, UINT64 *Length)
{
    return EFI_UNSUPPORTED;
}

static EFI_PCI_IO_PROTOCOL instance;

EFI_STATUS card_install(VOID)
{
    EFI_HANDLE handle = NULL;
    EFI_STATUS status = memory_start();
    if (status != EFI_SUCCESS)
        return status;
    config_start();
    instance = (EFI_PCI_IO_PROTOCOL){
        .PollMem = poll,
        .PollIo = poll,
        .Mem = { mem_read, mem_write },
        .Io = { io, io },
        .Pci = { pci_read, pci_write },
        .CopyMem = copy_mem,
        .Map = map,
        .Unmap = unmap,
        .AllocateBuffer = allocate_buffer,
        .FreeBuffer = free_buffer,
        .Flush = flush,
        .GetLocation = get_location,
        .Attributes = attributes,
        .GetBarAttributes = get_bar_attributes,
        .SetBarAttributes = set_bar_attributes,
    };
    return BS->InstallProtocolInterface(&handle, &guid, EFI_NATIVE_INTERFACE, &instance);
}
