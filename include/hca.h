/*
 * A ConnectX-3 card brought up, used and let go, as a session of questions and answers that touches no bus.
 *
 * The caller keeps the session as HCA_STATE bytes, made by hca_fresh and opaque to him, and lends them to every call together with two mailboxes of HCA_MAILBOX bytes,
 * `inbox` and `outbox`, and his undo list. hca_call begins a call, and writes its first question to `out`; the caller does what it says and hands in what came of it by
 * hca_answer, until the question is HCA_FINISHED. Then hca_result says what has become of the session, and what the call gave.
 *
 * Every function gives 0, or the number of a refusal, and takes any bytes, lengths and numbers. A call that is refused changes nothing: no lent byte, no session, no open
 * question. Where several refusals fit, it is the first of 20, 21, 22, 19, 18; except that fewer bytes than HCA_STATE are HCA_SHORT unless the kind of the call is unknown, or
 * the answer is of no kind or its value too wide. Each function names the refusals that it has; those that only read have an order of their own.
 *
 * What is lent stays the caller's: no function keeps a pointer, and none has memory of its own, so sessions do not know of each other. Who writes what:
 *   state     hca_fresh, hca_call and hca_answer, in its first HCA_STATE bytes; no one else, from hca_fresh to the end. It may lie elsewhere at each call
 *   inbox     hca_call and hca_answer; no one else. Both mailboxes are handed on as they were left, from HCA_OPEN to the end
 *   outbox    hca_call and hca_answer; and the caller at a fence behind a register read (below). After HCA_WITH_OUT and HCA_IN_OUT it has the reply, until the next call
 *   undo      the caller, between any two calls; and hca_push_undo. hca_call and hca_answer only read it
 *   out       the functions that have it, in as many bytes as stand beside each; what was there is not looked at
 *   input     no one: it is read by hca_call, and not kept
 *   resource  no one: it is read by hca_answer, and not kept
 * A pointer may be null only where its length is 0; `undo` is aligned as its type. No slice that is written may overlap another.
 *
 * All words are little-endian, of eight bytes. The first and the second good HCA_ALLOCATE of an opening are the pages that stand behind `inbox` and `outbox`.
 *
 * Of damage to the session's bytes, and what finds it: hca_call and the four functions that only read test all of them. hca_answer tests the first 80 where a command goes on, and else
 * the first 360; what lies behind, as a buffer that is freed, it takes as it stands there. Damage that it does not test is found by the next call (HCA_WRONG), or goes on in what the
 * damaged part says.
 *
 * The library is for x86-64 with the System V calling convention, and uses the red zone: under UEFI its functions are called at TPL_HIGH_LEVEL. docs/SHELL.md says that, and what
 * a caller does at each question; docs/MAP.md has the states of a session. hca_answer needs up to 9,608 bytes of
 * stack; docs/BENCHMARK.md has what the others need.
 */
#ifndef HCA_H
#define HCA_H

#include <stddef.h>
#include <stdint.h>

#ifdef __cplusplus
extern "C" {
#endif

#define HCA_STATE 5160
#define HCA_MAILBOX 4096
#define HCA_UNDO_RECORDS 256
#define HCA_LENT_BUFFERS 64

/* The refusals of a call, by document 01's numbers. What a call that has run came to is told by hca_result, where the other numbers of that document are named. */
#define HCA_BYTES 18    /* more than 2^64 - 4,096 bytes are to be lent */
#define HCA_FULL 19     /* HCA_LENT_BUFFERS are lent, or HCA_UNDO_RECORDS stand on the list */
#define HCA_WRONG 20    /* a call at the wrong time or of no kind, an answer of the wrong kind, bytes that are no session */
#define HCA_SHORT 21    /* a slice is too short, a mailbox has not HCA_MAILBOX bytes, an input has more; `count` is above `undo_records` or above HCA_UNDO_RECORDS, or there is no place for a record */
#define HCA_RESERVED 22 /* an opcode that bring-up or closing sends, queries excepted, or that is above 0xfff */

/*
 * A command that takes an object back: the caller's own record. The undo list is an array of these, oldest first, in `undo`, with room for `undo_records`, of which the first
 * `count` are on the list. HCA_UNDO_TO, HCA_QUIESCE and every closing send the newest first, and each is popped before it is sent: the last word that a call writes says how many are
 * left. The caller keeps the array and the count, and nothing here remembers either: after each hca_call and hca_answer that was taken his count is that word. Popping writes nothing
 * to the array; who lends the old count again has put the record on again, and it is sent again. He may change the list between two calls; the newest record is taken as it stands then.
 */
typedef struct hca_undo {
    uint16_t op;
    uint8_t op_mod;
    uint32_t in_mod;
    uint64_t in_param;
} hca_undo;

/*
 * The kinds of calls, with what each looks at besides the session, and the result (hca_result) that it ends with. HCA_OPEN is taken by a fresh session, the others by an open
 * one at which no call is running; a session is opened once.
 *
 * A command zeroes its mailboxes before its first question, and puts `input` at the first byte of the inbox; so they stand whatever it comes to. After 7, 8 or 9 the session is
 * broken, and its closing resets the card. A broken session, and one that was quiesced, still takes every call.
 */
#define HCA_OPEN 0     /* brings the card up: 2 or 3. Records on the undo list are sent by the closing of a failed opening */
#define HCA_IMM 1      /* op, op_mod, in_mod; `value` is the in parameter: a command with an immediate in and out. HCA_RESERVED. 5, or 7 with 6 to 9 */
#define HCA_WITH_IN 2  /* op, op_mod, in_mod, `input`: a command with an inbox. The same */
#define HCA_WITH_OUT 3 /* op, op_mod, in_mod: a command with an outbox, which has the reply. The same */
#define HCA_IN_IMM 4   /* op, op_mod, in_mod, `input`: a command with an inbox and an immediate out. The same */
#define HCA_IN_OUT 5   /* op, op_mod, in_mod, `input`: a command with both mailboxes. The same */
#define HCA_LEND 6     /* `value` bytes, of which none are one page: pages that the card may use until the session is closed. HCA_FULL, HCA_BYTES. 6, or 7 with 5 or 18 */
#define HCA_UNDO_TO 7  /* `value` is a mark: sends undo records while more than so many are on the list. HCA_RESERVED where any of these is. 2, or 7 with 22 or 23 */
#define HCA_QUIESCE 8  /* stops the firmware by the commands of a closing, frees nothing, and turns bus mastering off, whatever fails. The session is broken then. 2 */
#define HCA_CLOSE 9    /* takes back what is on the undo list, and gives up the card and all that the session holds: 4 */

/*
 * The kinds of questions, with their values. What came of each is told by the answer named behind it, or by HCA_FAILED; a stall and a fence cannot fail.
 */
#define HCA_FINISHED 0        /* nothing is asked: the call has its result. No answer is taken */
#define HCA_CONFIG_READ16 1   /* offset: HCA_WORD */
#define HCA_CONFIG_READ32 2   /* offset: HCA_DWORD */
#define HCA_CONFIG_WRITE16 3  /* offset, value: HCA_DONE */
#define HCA_CONFIG_WRITE32 4  /* offset, value: HCA_DONE */
#define HCA_REG_READ 5        /* BAR, offset, as the bus carries the value: HCA_DWORD */
#define HCA_REG_WRITE 6       /* BAR, offset, value as the bus carries it: HCA_DONE */
#define HCA_ATTRIBUTES 7      /* operation (0 get, 1 set, 2 enable, 4 supported), value: HCA_QWORD */
#define HCA_RESOURCE 8        /* BAR index: HCA_LIST, the list lent as `resource`; a null list is HCA_FAILED */
#define HCA_STALL 9           /* microseconds: HCA_DONE */
#define HCA_ALLOCATE 10       /* pages, to be zeroed: HCA_HANDLE; a null address is HCA_FAILED. HCA_FAILED says that nothing was handed over */
#define HCA_MAP 11            /* handle, bytes, as a common buffer: HCA_MAPPED, whatever its size. HCA_FAILED says that nothing was mapped */
#define HCA_UNMAP 12          /* handle: HCA_DONE. The address is given back, failed or not */
#define HCA_FREE 13           /* handle, pages: HCA_DONE. The pages and their handle are given back, failed or not */
#define HCA_FENCE 14          /* the mailboxes: HCA_DONE. Behind a register write both are copied to the device, behind a register read the outbox is copied back */

/* The kinds of answers, with their values; values that a kind has not are not looked at. */
#define HCA_WORD 1    /* 16 bits */
#define HCA_DWORD 2   /* 32 bits */
#define HCA_QWORD 3   /* 64 bits */
#define HCA_DONE 4
#define HCA_FAILED 5
#define HCA_HANDLE 6  /* any number by which the caller knows these pages, and no others that are not given back yet */
#define HCA_MAPPED 7  /* device address, bytes mapped */
/*
 * A resource list, lent as `resource`: 1,024 bytes at least where it has so many. It is looked at as far
 * as its first memory descriptor, 0x79 or an unknown tag. A list that was cut is 27 unless its first
 * memory descriptor is whole; no bytes at all are 27.
 */
#define HCA_LIST 8

/*
 * What a call writes to `out`: the kind of the question, its three values, and how many undo records are left on the caller's list. `out` may be longer; the bytes behind are not
 * touched.
 */
#define HCA_TURN 40

/*
 * Makes a session that was never opened, in the first HCA_STATE bytes of `state`, whatever was there.
 *   HCA_SHORT  `state_bytes` is below HCA_STATE. Nothing is written
 * A session that holds anything is not to be made anew: what it holds would be forgotten.
 */
uint32_t hca_fresh(uint8_t *state, size_t state_bytes);

/*
 * Begins a call. It takes the session, the kind and the arguments that are named beside the kind, and looks at no others: `input` and its length are HCA_WITH_IN's, HCA_IN_IMM's
 * and HCA_IN_OUT's. It is lent both mailboxes and the undo list. It writes the session, the mailboxes as its kind says, and HCA_TURN bytes of `out`. A call with nothing to ask,
 * as HCA_UNDO_TO with no record wanted, has HCA_FINISHED as its first question.
 *   HCA_WRONG     `kind` is none; `state` holds no session; HCA_OPEN on a session that is not fresh, any other on one that is not open, or while a call is running
 *   HCA_SHORT     `state_bytes` is below HCA_STATE or `out_bytes` below HCA_TURN; a mailbox has not HCA_MAILBOX bytes; an input that is looked at has more; `count` is above
 *                 `undo_records` or above HCA_UNDO_RECORDS
 *   HCA_RESERVED  the opcode of a command, or at HCA_UNDO_TO that of any record above the mark
 *   HCA_FULL      HCA_LEND, and HCA_LENT_BUFFERS are lent
 *   HCA_BYTES     HCA_LEND, and `value` is above 2^64 - 4,096
 * A call that is refused leaves everything as it was, and the session takes the next one as if it had not been made.
 */
uint32_t hca_call(uint8_t *state, size_t state_bytes, uint32_t kind, uint16_t op, uint8_t op_mod, uint32_t in_mod, uint64_t value, const uint8_t *input, size_t input_bytes,
                  uint8_t *inbox, size_t inbox_bytes, uint8_t *outbox, size_t outbox_bytes, const hca_undo *undo, size_t undo_records, size_t count, uint8_t *out,
                  size_t out_bytes);

/*
 * Answers the open question: a kind, its two values, and with HCA_LIST the bytes of a resource list; otherwise `resource` is not looked at. It is lent both mailboxes and the undo
 * list as they are now, and reads a reply from the outbox only so. It writes the session, the mailboxes where the next command or a mailbox's pages ask for it, and HCA_TURN bytes
 * of `out`: the next question.
 *   HCA_WRONG  `kind` is none, or `a` is wider than HCA_WORD or HCA_DWORD has it; `state` holds no session; no question is open; the answer is none to the open question, as
 *              HCA_FAILED to a stall or a fence
 *   HCA_SHORT  as at hca_call, but for the input
 * An answer that is refused reports nothing: everything is as it was, and the same question is open.
 */
uint32_t hca_answer(uint8_t *state, size_t state_bytes, uint32_t kind, uint64_t a, uint64_t b, const uint8_t *resource, size_t resource_bytes, uint8_t *inbox,
                    size_t inbox_bytes, uint8_t *outbox, size_t outbox_bytes, const hca_undo *undo, size_t undo_records, size_t count, uint8_t *out, size_t out_bytes);

/*
 * Puts a record on the undo list, at place `count`; the caller's count is then one more. It takes no session, and is called at any time. In this order:
 *   HCA_SHORT     `count` is above `undo_records` or above HCA_UNDO_RECORDS: this is no list; or it is `undo_records`, and below HCA_UNDO_RECORDS: the array has no place left
 *   HCA_RESERVED  the opcode
 *   HCA_FULL      `count` is HCA_UNDO_RECORDS
 * Nothing is written but the record, and nothing where it is refused.
 */
uint32_t hca_push_undo(hca_undo *undo, size_t undo_records, size_t count, uint16_t op, uint8_t op_mod, uint32_t in_mod, uint64_t in_param);

/*
 * The open question: four words, as the last call has written them; HCA_FINISHED where none is open. This and the three below only read the session, at any time; they write so
 * many bytes of `out`, and nothing where they are refused.
 *   HCA_SHORT  `state_bytes` is below HCA_STATE
 *   HCA_WRONG  `state` holds no session; hca_setup: or it is not open, or a call is running
 *   HCA_SHORT  `out` is too short
 */
#define HCA_QUESTION 32
uint32_t hca_question(const uint8_t *state, size_t state_bytes, uint8_t *out, size_t out_bytes);

/*
 * What has become of the session, and what its last call gave, five words: the first says which, and what is not named is 0.
 *   0  not opened yet
 *   1  a call is running
 *   2  open; the last call gave nothing (HCA_OPEN, HCA_UNDO_TO, HCA_QUIESCE)
 *   3  the opening failed: the number of document 01's refusal, its two values, how the closing went
 *   4  closed: three words of 0, how the closing went
 *   5  open; the last call was a command: its immediate (0 where the form has none), the microseconds waited
 *   6  open; the last call lent a buffer: its handle, its device address, its pages
 *   7  open; the last call failed: the number of the refusal, its two values. Nothing was lent; records that were sent are off the list
 * The numbers behind 3 and 7, with their values in parentheses; a value that is not named is 0:
 *   1  the attributes could not be read or enabled                        11  a revision of the command interface that is not 2 or 3 (revision)
 *   2  the card has an owner, or that cannot be read                      12  the least page is of more than 2^12 bytes (exponent)
 *   3  the reset failed                                                   13  not one or two ports (ports)
 *   4  a BAR dword could not be read                                      14  the UAR exponent field is above 43 (field)
 *   5  pages could not be allocated or mapped                             15  the UAR area is larger than its BAR (area in bytes)
 *   6  a command ended with a status that is not 0 (status, microseconds) 16  an entry size is no power of two (table index)
 *   7  a command did not end within 60 s (microseconds)                   17  the tables need more than the card has (their bytes)
 *   8  the command register was busy before a command                     18  a device address is no page multiple, or a size or an end passes 2^64
 *   9  a bus call failed within a command (microseconds)                  22  an undo record has got a reserved opcode since the call began
 *   10 not the primary function: QUERY_FW ended with status 0x50          23  an undo command failed, or one was wanted on a broken session
 *   27 the firmware's resource list of a BAR is damaged or cut
 * 23 stands too where one call has sent 2^32 - 1 undo records and there are more: no list holds so many, so that only a caller who pushes on and on while it runs is stopped, and
 * every call ends. In a closing or a quiesce that counts as a failed undo command.
 * A closing went clean (0), by a reset (1), or everything is kept and must never be given back (2): hca_books then names it. The first two have given everything back.
 */
#define HCA_RESULT 40
uint32_t hca_result(const uint8_t *state, size_t state_bytes, uint8_t *out, size_t out_bytes);

/*
 * What the opening has found out, 134 words; HCA_WRONG unless the session is open and no call is running.
 *   0   the UAR BAR: its index, 1 if its length is unknown, the length, how it was chosen (0 its base matches, 1 found by a scan, 2 the only answer, 3 no match, 4 no answer);
 *       reserved EQs, EQs and reserved UARs by QUERY_FUNC, or the capabilities' own where it was not sent; 1 at revision 3
 *   8   the capabilities, with these three numbers in their places: reserved QPs, SRQs, CQs, EQs, EQs, reserved MTTs, MPTs, UARs, PDs, system EQs, ports, logs of QP entries,
 *       CQ entries and the least page, flags, flags 2, BMME, PTYS usable, backplane autonegotiation, UAR bytes, max_icm, then the entry sizes by table index
 *   40  port 1: number, link, byte 0, MTU, log of MACs, autonegotiation, its completion, speed, transceiver, wavelength, transceiver code, then six words of MAC
 *   57  port 2; a port that was not asked about has 0 everywhere
 *   74  how many ports were asked about, the bytes of all tables, the first special QP, the first free MTT
 *   78  the tables in the order of their bases: index, entry, count, bytes, base
 *   133 how many comparisons of two tables put them in that order, 10 to 55
 * The indices of tables: 0 QPC, 1 RDMARC, 2 ALTC, 3 AUXC, 4 SRQC, 5 CQC, 6 EQC, 7 dMPT, 8 cMPT, 9 MTT, 10 MCG.
 */
#define HCA_SETUP 1072
uint32_t hca_setup(const uint8_t *state, size_t state_bytes, uint8_t *out, size_t out_bytes);

/*
 * The books, 280 words: what the session holds. A buffer stands in them from the good answer to its HCA_ALLOCATE to the answer to its HCA_FREE, so one that is being made, or
 * that was unmapped and is not yet freed, is shown too. While it is not mapped its device address is 1, which no page has.
 *   0   how many ranges, how many lent buffers are held, 1 if INIT_HCA was good, the attributes before the opening
 *   4   the toggle, 1 if a command may still run, 1 if broken, 1 if silent (a quiesce has begun)
 *   8   the catastrophic buffer: 1 if unknown, BAR, offset
 *   11  the inbox; 15 the outbox; 19 the firmware area; 23 the auxiliary area: each 1 if held, handle, device address, pages; 0 everywhere where it is not held
 *   27  1 if the opening failed, then the number of its refusal less 1 and its two values; how the closing went, as hca_result has it
 *   32  fourteen ranges: card address, handle, device address, pages. The first of them, as many as word 0 says, are those that are held, in the order of their mapping; the others are 0
 *   88  HCA_LENT_BUFFERS lent buffers: handle, device address, pages. The first of them, as many as word 1 says, are those that are held, oldest first; the others are 0
 * A closing frees the lent buffers, the ranges and the areas in this order, the oldest first: what it has freed is off the books, and the rows behind move up.
 */
#define HCA_BOOKS 2240
uint32_t hca_books(const uint8_t *state, size_t state_bytes, uint8_t *out, size_t out_bytes);

#ifdef __cplusplus
}
#endif

#endif
