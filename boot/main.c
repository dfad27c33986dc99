/*
 * Opens, uses and closes a session on a ConnectX-3 under UEFI; opens another one, and leaves the boot services with it. Prints what came of it.
 * Where no card is there, it brings a simulated one along.
 */
#include "card.h"
#include "client.h"
#include "firmware.h"

/* Vendor and device: ConnectX-3, ConnectX-3 Pro. */
#define CONNECTX3 0x100315b3
#define CONNECTX3_PRO 0x100715b3

#define SETUP_WORDS (HCA_SETUP / 8)
#define PORT_WORDS 40
#define MAC_WORDS 51
#define PORTS_WORD 74
#define TOTAL_WORD 75

/* How a closing went. */
enum { CLEAN, RESET, KEPT };

static EFI_GUID guid = EFI_PCI_IO_PROTOCOL_GUID;
static BOOLEAN simulated, quiesced;
static loader session;
static UINT64 setup[SETUP_WORDS];

static BOOLEAN is_card(EFI_HANDLE handle)
{
    EFI_PCI_IO_PROTOCOL *pci;
    UINT32 ids = 0;
    if (BS->HandleProtocol(handle, &guid, (VOID **)&pci) != EFI_SUCCESS)
        return FALSE;
    return pci->Pci.Read(pci, EfiPciIoWidthUint32, 0, 1, &ids) == EFI_SUCCESS && (ids == CONNECTX3 || ids == CONNECTX3_PRO);
}

/* The handle of a card, or null. */
static EFI_HANDLE find(VOID)
{
    EFI_HANDLE *handles = NULL, found = NULL;
    UINTN count = 0;
    if (BS->LocateHandleBuffer(ByProtocol, &guid, NULL, &count, &handles) != EFI_SUCCESS)
        return NULL;
    for (UINTN i = 0; i < count && !found; i++)
        found = is_card(handles[i]) ? handles[i] : NULL;
    BS->FreePool(handles);
    return found;
}

static BOOLEAN open(EFI_PCI_IO_PROTOCOL *pci)
{
    UINT64 r[RESULT_WORDS];
    Print(L"opening\n");
    loader_fresh(&session, pci);
    if (!client_call(&session, L"opening", (loader_request){ .kind = HCA_OPEN }, OPEN, r))
        return FALSE;
    Print(L"result: open\n");
    return TRUE;
}

/* What the opening has found out. */
static BOOLEAN tell(VOID)
{
    if (!loader_read(&session, hca_setup, setup, SETUP_WORDS))
        return FALSE;
    Print(L"UAR BAR: index %ld, %ld bytes; tables: 0x%lx bytes\n", setup[0], setup[2], setup[TOTAL_WORD]);
    const UINT64 *p = setup + PORT_WORDS, *mac = setup + MAC_WORDS;
    Print(L"ports: %ld; port %ld: link %s, MTU %ld, MAC ", setup[PORTS_WORD], p[0], p[1] ? L"up" : L"down", p[3]);
    Print(L"%02lx:%02lx:%02lx:%02lx:%02lx:%02lx\n", mac[0], mac[1], mac[2], mac[3], mac[4], mac[5]);
    return TRUE;
}

static BOOLEAN close(VOID)
{
    static const CHAR16 how[][16] = { L"clean", L"by a reset", L"all is kept" };
    UINT64 r[RESULT_WORDS];
    Print(L"closing\n");
    if (!client_call(&session, L"closing", (loader_request){ .kind = HCA_CLOSE }, CLOSED, r))
        return FALSE;
    Print(L"closed: %s\n", r[4] <= KEPT ? how[r[4]] : L"?");
    return r[4] == CLEAN;
}

/* The host has all its pages again, and the simulated card holds nothing of what it was given. */
static BOOLEAN nothing_left(UINT64 free_before)
{
    UINT64 free = firmware_free_pages();
    Print(L"UEFI's free pages: %ld before, %ld now\n", free_before, free);
    if (!simulated)
        return TRUE;
    Print(L"simulated card: %d commands, %d misuses, %d buffers not given back\n", card_commands(), misuses(), memory_in_use());
    return free == free_before && misuses() == 0 && memory_in_use() == 0 && config_restored();
}

/* A session from its opening to its close. */
static BOOLEAN used(EFI_PCI_IO_PROTOCOL *pci)
{
    UINT64 free = firmware_free_pages();
    if (!open(pci))
        return FALSE;
    Print(L"using\n");
    BOOLEAN good = tell() && client_use(&session);
    good = close() && good;
    return nothing_left(free) && good;
}

/* ExitBootServices has begun: no memory can be given back any more, so the session is quiesced and not closed. */
static VOID EFIAPI leaving(EFI_EVENT event, VOID *context)
{
    UINT64 r[RESULT_WORDS];
    Print(L"leaving\n");
    quiesced = client_call(&session, L"quiescing", (loader_request){ .kind = HCA_QUIESCE }, OPEN, r);
}

/* A session that is open when the boot services end: the card is stopped, and can reach no memory. */
static BOOLEAN left(EFI_HANDLE image, EFI_PCI_IO_PROTOCOL *pci)
{
    EFI_EVENT event;
    if (!open(pci) || BS->CreateEvent(EVT_SIGNAL_EXIT_BOOT_SERVICES, TPL_CALLBACK, leaving, NULL, &event) != EFI_SUCCESS)
        return FALSE;
    if (firmware_exit(image) != EFI_SUCCESS || !quiesced)
        return FALSE;
    return !simulated || (!card_busy() && !card_open() && !config_masters() && misuses() == 0);
}

/* The card, or a simulated one; every driver is made to let go of it. */
static EFI_PCI_IO_PROTOCOL *get(EFI_HANDLE image)
{
    EFI_PCI_IO_PROTOCOL *pci = NULL;
    UINTN segment = 0, bus = 0, device = 0, function = 0;
    EFI_HANDLE card = find();
    if (!card) {
        simulated = card_install() == EFI_SUCCESS;
        card = find();
    }
    if (!card || BS->OpenProtocol(card, &guid, (VOID **)&pci, image, NULL, EFI_OPEN_PROTOCOL_EXCLUSIVE) != EFI_SUCCESS)
        return NULL;
    pci->GetLocation(pci, &segment, &bus, &device, &function);
    Print(L"card at %04lx:%02lx:%02lx.%lx%s\n", segment, bus, device, function, simulated ? L", which is simulated" : L"");
    return pci;
}

EFI_STATUS efi_main(EFI_HANDLE image, EFI_SYSTEM_TABLE *table)
{
    InitializeLib(image, table);
    Print(L"\nTepawhuni on %s, UEFI %d.%d\n", ST->FirmwareVendor, ST->Hdr.Revision >> 16, (ST->Hdr.Revision & 0xffff) / 10);
    Print(L"interrupts are %s at TPL_HIGH_LEVEL\n", firmware_masks() ? L"off" : L"not off");
    EFI_PCI_IO_PROTOCOL *pci = get(image);
    BOOLEAN good = pci && used(pci) && left(image, pci);
    firmware_say(good ? "PASS: opened, used and closed clean; opened, and quiesced at the end\r\n" : "FAIL\r\n");
    RT->ResetSystem(EfiResetShutdown, good ? EFI_SUCCESS : EFI_ABORTED, 0, NULL);
    return EFI_ABORTED;
}
