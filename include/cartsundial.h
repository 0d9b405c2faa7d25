/*
 * Cartsundial for C: read and write PCI Express headers, plan a board's register sheet, look functions up in it, judge a sheet that other
 * firmware left, route packets over it or by an index of it, label the headers of a trace, and match completions with open requests.
 *
 * Build:  make && make install PREFIX=..     proves everything, then puts libcartsundial.a, this file and cartsundial.pc where they belong
 *         gcc main.c $(pkg-config --cflags --libs cartsundial)
 *
 *         make library                       in the repository, without installing: proves, then writes target/staticlib/libcapi.a
 *         gcc -Iinclude main.c target/staticlib/libcapi.a
 *
 * The calls stand by job:
 *
 *     plan     a board's register sheet, or what does not fit      cartsundial_plan, _plan_where
 *     sheet    its checks, registers, IDs, command words           cartsundial_check, _lookup, _id, _command
 *     route    where a header goes                                 cartsundial_route, _route_from; for many headers _index, _find
 *     ends     who sent it and who gets it                         cartsundial_sender, _route_sent
 *     trace    a line for each captured header                     cartsundial_annotate, by an index _label, with both ends _follow;
 *                                                                  _annotate_end
 *     audit    whether a sheet that other firmware left will do    cartsundial_audit, _sound, _sound_alone, _audit_where
 *     ledger   which requests wait for completions                 cartsundial_ledger_open, _ledger_complete, _ledger_count
 *     script   a board's plan as configuration writes              cartsundial_script
 *     codec    a header's bytes as numbers, and back               cartsundial_read, _write; whether they are a header _judge
 *
 * The archive is for x86-64, System V calling convention, position independent, with SSE2. Of a C library it calls memset, and for the
 * lines of a trace memcpy; nothing else.
 * It can be built on one machine and linked on another, which needs the archive and this file only.
 *
 * docs/FORMATS.md has the formats byte by byte: headers, boards, sheets, and which of a function's registers boot code is to write.
 *
 * Every call takes any bytes and any numbers, always returns, and answers
 *
 *     0                  accepted
 *     any other number   refused, and nothing that was lent has been changed (but for the answers of cartsundial_plan_where and
 *                        cartsundial_audit_where, which are about a refusal)
 *
 * The numbers are documents 01's and 02's (the enumeration below). What each call returns and what every lent slice holds afterwards is
 * proved, as an equation with a definition: crates/capi/src/lib.rt has the contracts, and the definitions are specs/Answers.antt of
 * crates/capi_answers, for answers in a slice, and specs/Calls.antt of the crate that each call is in (crates/capi_*).
 *
 * Slices. A pointer and the number of elements behind it, bytes or 64-bit numbers. The proofs stand on what C promises here and nothing
 * checks:
 *   - the pointer is not null, is aligned for its type, and the elements are there, also for a length of 0;
 *   - a slice that a call may write overlaps no other slice of that call;
 *   - until the call returns, nobody else (no other thread, no handler, no device) writes to any slice of it, also to one that it only
 *     reads, and nobody else reads one that it may write.
 * A call counts on what it found in a slice when it looks again: a board that another thread changed during cartsundial_plan let it write
 * over the caller's stack. So copy first what a device or another thread can still write, as a header log or a ring of captured headers.
 * Where the compiler can see such a mistake at a call, it warns (CARTSUNDIAL_READS and those beside it, below).
 * Nothing is kept after a call returns: how far a trace was read, and which requests are open, is in numbers that the caller lends. There
 * is no allocation and no I/O, so calls may run at the same time where none writes to a slice of another.
 *
 * Stack to allow, measured (examples/c/stack.c) and not proved: 64 KiB for any call. cartsundial_plan, cartsundial_plan_where and
 * cartsundial_script 60 KiB each, of which a board with few bridges in a row needs 50; cartsundial_route, cartsundial_route_from,
 * cartsundial_route_sent and cartsundial_annotate 12 KiB over a planned sheet, which has at most 32 bridges above a function, and over a
 * foreign one with 255 in a row 22 KiB, cartsundial_route_from and cartsundial_route_sent 46; cartsundial_audit_where 16 KiB; every other
 * call 12 KiB. That is what a call takes. A thread's library takes its own part of the same stack (guard page, thread-local data, first
 * frames), and so does each signal handler: a pthread of glibc 2.36 needed 64 KiB for the deepest board and 52 KiB for the deepest sheet,
 * where 60 and 48 KiB were too little.
 *
 * Red zone. The code keeps live data in the 128 bytes below the stack pointer, as the System V convention allows. In user mode nothing has
 * to be done: signal handlers keep clear of it. In ring 0 an interrupt or exception that is handled on the interrupted stack overwrites
 * it, and the call is then no longer the one that was proved. So call only where every handler has a stack of its own (an interrupt stack
 * table entry), or with interrupts off and such stacks for what cannot be turned off, or from user mode. Firmware that takes its timer
 * interrupt on the one stack that there is, as UEFI usually does, must turn it off for the call. cartsundial_plan and cartsundial_script
 * keep clear of it; examples/boot/redzone tells from the archive's code which calls do not. The code uses XMM registers too: SSE must be
 * enabled, and a handler that calls it has to save them.
 *
 * Answer slices (packet of cartsundial_read, answer, written, offset, id, count). The call writes the numbers that it names, and leaves the
 * numbers past them as they were. A slice too short for them is CARTSUNDIAL_E_SHORT_ROOM, tried last: a header, board or sheet that is
 * refused gets its own number first.
 */
#ifndef CARTSUNDIAL_H
#define CARTSUNDIAL_H

#include <stddef.h>
#include <stdint.h>

#ifdef __cplusplus
extern "C" {
#endif

/* The version of this file. The archive's is what cartsundial_version answers: they are the same where both belong together. */
#define CARTSUNDIAL_VERSION_MAJOR 0
#define CARTSUNDIAL_VERSION_MINOR 34
#define CARTSUNDIAL_VERSION_PATCH 0
#define CARTSUNDIAL_VERSION_NUMBER (10000 * CARTSUNDIAL_VERSION_MAJOR + 100 * CARTSUNDIAL_VERSION_MINOR + CARTSUNDIAL_VERSION_PATCH)

/* The System V convention, also in a module that is built for another one, as UEFI's are. */
#if defined(__GNUC__) && defined(__x86_64__)
#define CARTSUNDIAL_CALL __attribute__((sysv_abi))
#else
#define CARTSUNDIAL_CALL
#endif

/*
 * What a compiler can hold a caller to, where it knows how: pointers are not null, lengths lie within what is pointed to, a slice that is
 * written is no other argument, what is read was set before, and the number is looked at. (p, n): the places of a slice's pointer and of
 * its length. A call reads, writes, or reads and changes a slice; what it does not write stays as it was. examples/c/misuse.c has what is
 * seen.
 */
#if defined(__GNUC__)
#define CARTSUNDIAL_CHECKED CARTSUNDIAL_CALL __attribute__((nonnull, warn_unused_result))
#define CARTSUNDIAL_RESTRICT __restrict__
#define CARTSUNDIAL_INLINE static __inline__
#else
#define CARTSUNDIAL_CHECKED CARTSUNDIAL_CALL
#define CARTSUNDIAL_RESTRICT
#define CARTSUNDIAL_INLINE static inline
#endif
#if defined(__GNUC__) && !defined(__clang__) && __GNUC__ >= 10
#define CARTSUNDIAL_READS(p, n) __attribute__((access(read_only, p, n)))
#define CARTSUNDIAL_WRITES(p, n) __attribute__((access(write_only, p, n)))
#define CARTSUNDIAL_CHANGES(p, n) __attribute__((access(read_write, p, n)))
#else
#define CARTSUNDIAL_READS(p, n)
#define CARTSUNDIAL_WRITES(p, n)
#define CARTSUNDIAL_CHANGES(p, n)
#endif

/* ---- numbers given back ---- */

/* 0, or why a call was refused: CARTSUNDIAL_E_ and the words that Rust's Refusal has. */
enum cartsundial_number {
    CARTSUNDIAL_ACCEPTED = 0,
    CARTSUNDIAL_E_SHORT_HEADER = 1,         /* header under 12 bytes, or under 16 in the four-dword form */
    CARTSUNDIAL_E_UNKNOWN_PAIR = 2,         /* Fmt and Type unknown, a message's routing 6 or 7 too; written: kind and form not carried */
    CARTSUNDIAL_E_NOT_CARRIED = 3,          /* AtomicOps, prefixes */
    CARTSUNDIAL_E_RESERVED_BITS = 4,        /* an unnamed bit, TH, an address's low two bits, memory AT 11, completion or message AT not 00;
                                               tag bits 9 and 8 of a memory write or message */
    CARTSUNDIAL_E_FIXED_FIELDS = 5,         /* I/O and configuration: TC, Attr, AT 0, Length 1, last enables 0; Cpl, CplLk, Msg no Length */
    CARTSUNDIAL_E_UPPER_HALF_ZERO = 6,      /* a memory request in the 64-bit form with upper half zero */
    CARTSUNDIAL_E_BYTE_ENABLES = 7,         /* memory byte enables */
    CARTSUNDIAL_E_BOUNDARY_CROSSED = 8,     /* a memory request crosses a 4 KiB boundary */
    CARTSUNDIAL_E_STATUS = 9,               /* completion status not 000, 001, 010 or 100 */
    CARTSUNDIAL_E_TOO_WIDE = 10,            /* a value that its place does not take: too wide, a wrong Length, no such field;
                                               a trace's state */
    CARTSUNDIAL_E_SHORT_ROOM = 11,          /* a lent slice is too short */
    CARTSUNDIAL_E_FRAME = 20,               /* empty; lengths not ending at the end; no host of 30; function under 6; sheet record not 90 */
    CARTSUNDIAL_E_VERSION = 21,             /* version not 1, and of a board not 2 either */
    CARTSUNDIAL_E_TOO_MANY_FUNCTIONS = 22,  /* over 512 functions */
    CARTSUNDIAL_E_ORDER = 23,               /* parent, order, depth or function 0 */
    CARTSUNDIAL_E_HEADER_TYPE = 24,         /* header type not 0 or 1, or a wrong length for it */
    CARTSUNDIAL_E_READ_BACK = 25,           /* read-back, of memory also one under 128 bytes; on a sheet also a BAR value */
    CARTSUNDIAL_E_HOST = 26,                /* first bus above last, or a pool's edges */
    CARTSUNDIAL_E_BUS_RANGE = 27,           /* sheet: not own bus = primary < secondary <= subordinate */
    CARTSUNDIAL_E_ID_TWICE = 28,            /* sheet: an ID twice */
    CARTSUNDIAL_E_WINDOW_NIBBLES = 29,      /* sheet: window nibbles */
    CARTSUNDIAL_E_NO_BUSES = 30,            /* bus numbers run out: bridges and their spare buses */
    CARTSUNDIAL_E_NO_LOW_ROOM = 31,         /* the low memory pool runs out */
    CARTSUNDIAL_E_NO_HIGH_ROOM = 32,        /* the high memory pool runs out */
    CARTSUNDIAL_E_NO_IO_ROOM = 33,          /* the I/O pool runs out */
    CARTSUNDIAL_E_NO_OWNER = 40,            /* no function has the address or the ID */
    CARTSUNDIAL_E_CONTESTED = 41,           /* two claims to it on one bus */
    CARTSUNDIAL_E_CONFIGURATION_TYPE = 42,  /* configuration type 0 for another bus than the root bus, or type 1 for the root bus */
    CARTSUNDIAL_E_UPWARD = 43,              /* a message that only travels up: routing 0, to the root complex, or 5, gathered */
    CARTSUNDIAL_E_NO_BUS_MASTER = 44,       /* from a card: it, or a bridge on its way up, is no bus master (command bit 2) */
    CARTSUNDIAL_E_NO_START = 45,            /* from a card: no type 0 function's record, or no memory or I/O request */
    CARTSUNDIAL_E_NOT_TREE = 50,            /* audit: first record not on the host's first bus; not one bridge to a bus; a bridge's buses */
    CARTSUNDIAL_E_NOT_NESTED = 51,          /* audit: a BAR or open window outside the window or pool above of its kind; sound: its space */
    CARTSUNDIAL_E_NOT_DISJOINT = 52,        /* audit: two BARs or open windows of one space overlap on a bus */
    CARTSUNDIAL_E_LEDGER_KIND = 60,         /* ledger: no non-posted request to open, or no completion */
    CARTSUNDIAL_E_ALREADY_OPEN = 61,        /* ledger: a request with this requester and tag is open */
    CARTSUNDIAL_E_LEDGER_FULL = 62,         /* ledger: 256 requests are open */
    CARTSUNDIAL_E_NOT_OPEN = 63,            /* ledger: no request with this requester and tag is open */
    CARTSUNDIAL_E_MISMATCH = 64,            /* ledger: retry for other than configuration, or a success not in the request's form */
    CARTSUNDIAL_E_TOO_MUCH_DATA = 65        /* ledger: a success with more dwords than are still to come */
};

/* ---- what is counted ---- */

/* How much there is of each; where that differs, the most, so that this much room is always enough. examples/c/sizes.c asks the calls. */
enum cartsundial_size {
    CARTSUNDIAL_FUNCTIONS = 512,               /* functions of a board or a sheet */
    CARTSUNDIAL_BRIDGES_ABOVE = 32,            /* bridges above a function of a board */
    CARTSUNDIAL_BOARD_BYTES = 16417,           /* a board: 33 bytes up to its functions, and 32 a function at the most */
    CARTSUNDIAL_HOST_BYTES = 30,               /* a board's host record, after its length */
    CARTSUNDIAL_SHEET_BYTES = 47105,           /* a sheet of 512 functions: 1, and 92 a function */
    CARTSUNDIAL_RECORD_BYTES = 92,             /* a function's record of a sheet, with its length */
    CARTSUNDIAL_REGISTER_BYTES = 64,           /* a function's configuration header */
    CARTSUNDIAL_SCRIPT_BYTES = 73692,          /* the script of any board */
    CARTSUNDIAL_SCRIPT_WRITES = 4094,          /* how many writes that is */
    CARTSUNDIAL_SCRIPT_WRITE_BYTES = 18,       /* one write of a script, with its length */
    CARTSUNDIAL_HEADER_BYTES = 16,             /* a header written: 12 or 16 bytes */
    CARTSUNDIAL_ROUTE_NUMBERS = 22,            /* record, bridges, and a packet: every route but a broadcast's */
    CARTSUNDIAL_ANY_ROUTE_NUMBERS = 534,       /* any route: a broadcast's has the records of up to 512 functions after it */
    CARTSUNDIAL_SENT_NUMBERS = 24,             /* both ends of a packet: every answer but a broadcast's */
    CARTSUNDIAL_ANY_SENT_NUMBERS = 536,        /* any: a broadcast's has the records of up to 512 functions after it */
    CARTSUNDIAL_INDEX_BYTES = 132096,          /* the index of a sheet of 512 functions */
    CARTSUNDIAL_INDEX_FRONT_BYTES = 1024,      /* of an index whatever its sheet has */
    CARTSUNDIAL_INDEX_FUNCTION_BYTES = 256,    /* and for each function */
    CARTSUNDIAL_TRACE_NUMBERS = 6,             /* the state of a trace */
    CARTSUNDIAL_LINE_BYTES = 40,               /* a line of a trace, with its newline */
    CARTSUNDIAL_FOLLOW_LINE_BYTES = 51,        /* and of a trace with both ends */
    CARTSUNDIAL_LEDGER_NUMBERS = 256           /* a ledger of open requests */
};

/* How many bytes stand before something. Record n of a sheet, from 1, starts at CARTSUNDIAL_RECORDS_OFFSET + 92 (n - 1). */
enum cartsundial_offset {
    CARTSUNDIAL_HOST_OFFSET = 3,               /* in a board: the host record, after the version and its length */
    CARTSUNDIAL_RECORDS_OFFSET = 1,            /* in a sheet: the first record */
    CARTSUNDIAL_ID_OFFSET = 2,                 /* in a record: the ID, two bytes, the high one first */
    CARTSUNDIAL_REGISTERS_OFFSET = 4,          /* in a record: the configuration header, each register's low byte first */
    CARTSUNDIAL_READ_BACKS_OFFSET = 68,        /* in a record: six read-backs of four bytes, the high one first */
    CARTSUNDIAL_WRITE_HEADER_OFFSET = 2,       /* in a script's write: its twelve header bytes */
    CARTSUNDIAL_WRITE_DATA_OFFSET = 14         /* in a script's write: its four data bytes, in register order */
};

/* ---- a packet as twenty numbers ---- */

/* A kind's code. A message has one code, whatever its routing, which stands apart in CARTSUNDIAL_ROUTING. */
enum cartsundial_kind {
    CARTSUNDIAL_KIND_MRD = 0,
    CARTSUNDIAL_KIND_MRDLK = 1,
    CARTSUNDIAL_KIND_MWR = 2,
    CARTSUNDIAL_KIND_IORD = 3,
    CARTSUNDIAL_KIND_IOWR = 4,
    CARTSUNDIAL_KIND_CFGRD0 = 5,
    CARTSUNDIAL_KIND_CFGWR0 = 6,
    CARTSUNDIAL_KIND_CFGRD1 = 7,
    CARTSUNDIAL_KIND_CFGWR1 = 8,
    CARTSUNDIAL_KIND_CPL = 9,
    CARTSUNDIAL_KIND_CPLD = 10,
    CARTSUNDIAL_KIND_CPLLK = 11,
    CARTSUNDIAL_KIND_CPLDLK = 12,
    CARTSUNDIAL_KIND_MSG = 13,
    CARTSUNDIAL_KIND_MSGD = 14,
    /* the same, shorter */
    CARTSUNDIAL_MRD = CARTSUNDIAL_KIND_MRD,
    CARTSUNDIAL_MRDLK = CARTSUNDIAL_KIND_MRDLK,
    CARTSUNDIAL_MWR = CARTSUNDIAL_KIND_MWR,
    CARTSUNDIAL_IORD = CARTSUNDIAL_KIND_IORD,
    CARTSUNDIAL_IOWR = CARTSUNDIAL_KIND_IOWR,
    CARTSUNDIAL_CFGRD0 = CARTSUNDIAL_KIND_CFGRD0,
    CARTSUNDIAL_CFGWR0 = CARTSUNDIAL_KIND_CFGWR0,
    CARTSUNDIAL_CFGRD1 = CARTSUNDIAL_KIND_CFGRD1,
    CARTSUNDIAL_CFGWR1 = CARTSUNDIAL_KIND_CFGWR1,
    CARTSUNDIAL_CPL = CARTSUNDIAL_KIND_CPL,
    CARTSUNDIAL_CPLD = CARTSUNDIAL_KIND_CPLD,
    CARTSUNDIAL_CPLLK = CARTSUNDIAL_KIND_CPLLK,
    CARTSUNDIAL_CPLDLK = CARTSUNDIAL_KIND_CPLDLK,
    CARTSUNDIAL_MSG = CARTSUNDIAL_KIND_MSG,
    CARTSUNDIAL_MSGD = CARTSUNDIAL_KIND_MSGD
};

/* A message's routing, the low three bits of Type. */
enum cartsundial_routing {
    CARTSUNDIAL_TO_ROOT = 0,
    CARTSUNDIAL_BY_ADDRESS = 1,        /* the tail is the address */
    CARTSUNDIAL_BY_ID = 2,             /* the tail's upper 16 bits are the ID */
    CARTSUNDIAL_BROADCAST = 3,         /* from the root complex to every function */
    CARTSUNDIAL_LOCAL = 4,             /* no further than the port that receives it */
    CARTSUNDIAL_GATHERED = 5
};

/* Places in a packet. A field that the kind does not have is 0 when read; when written, any other value there is 10. */
enum cartsundial_field {
    CARTSUNDIAL_KIND = 0,
    CARTSUNDIAL_FORM = 1,              /* the header's dwords: 3; 4 for messages; either for memory requests */
    CARTSUNDIAL_TC = 2,
    CARTSUNDIAL_ATTR = 3,              /* Attr2 is bit 2 */
    CARTSUNDIAL_TD = 4,                /* 0 or 1 */
    CARTSUNDIAL_EP = 5,                /* 0 or 1 */
    CARTSUNDIAL_AT = 6,
    CARTSUNDIAL_LENGTH = 7,            /* dwords, 1 to 1024; 0 for Cpl, CplLk and Msg */
    CARTSUNDIAL_REQUESTER = 8,         /* an ID: bus 8, device 5, function 3 bits */
    CARTSUNDIAL_TAG = 9,               /* ten bits; eight in a memory write or message */
    CARTSUNDIAL_LAST_ENABLES = 10,     /* requests */
    CARTSUNDIAL_FIRST_ENABLES = 11,    /* requests */
    CARTSUNDIAL_ADDRESS = 12,          /* memory and I/O requests */
    CARTSUNDIAL_ROUTING = 10,          /* messages: an enumerator of cartsundial_routing */
    CARTSUNDIAL_CODE = 11,             /* messages: the message code */
    CARTSUNDIAL_TAIL = 12,             /* messages: bytes 8 to 15 as one number, byte 8 highest */
    CARTSUNDIAL_TARGET = 13,           /* configuration requests: an ID */
    CARTSUNDIAL_REGISTER = 14,         /* configuration requests: ten bits, the extended four high */
    CARTSUNDIAL_COMPLETER = 15,        /* completions, as the four that follow: an ID */
    CARTSUNDIAL_STATUS_CODE = 16,
    CARTSUNDIAL_BCM = 17,              /* 0 or 1 */
    CARTSUNDIAL_BYTE_COUNT = 18,
    CARTSUNDIAL_LOWER_ADDRESS = 19,
    CARTSUNDIAL_PACKET_NUMBERS = 20    /* how many numbers a packet has */
};

/* ---- in words ---- */

/*
 * For people: a number in the words that Rust's Refusal has, and a kind by its name, as the lines of a trace have it. Both stand in this
 * file, so nothing is linked for them. Who wants no text in the program defines CARTSUNDIAL_NO_WORDS.
 *
 *     printf("refused %u: %s\n", (unsigned)number, cartsundial_refusal_words(number));    refused 40: no owner
 */
#ifndef CARTSUNDIAL_NO_WORDS
CARTSUNDIAL_INLINE const char *cartsundial_refusal_words(uint32_t number)
{
    switch (number) {
    case CARTSUNDIAL_ACCEPTED: return "accepted";
    case CARTSUNDIAL_E_SHORT_HEADER: return "header under 12 bytes, or under 16 in the four-dword form";
    case CARTSUNDIAL_E_UNKNOWN_PAIR: return "Fmt and Type pair unknown, or kind and form not carried";
    case CARTSUNDIAL_E_NOT_CARRIED: return "Fmt and Type pair known but not carried";
    case CARTSUNDIAL_E_RESERVED_BITS: return "a bit without a name, an address's low two, TH, or AT";
    case CARTSUNDIAL_E_FIXED_FIELDS: return "TC, Attr, AT, Length or last enables of I/O or configuration, or Length of Cpl, CplLk or Msg";
    case CARTSUNDIAL_E_UPPER_HALF_ZERO: return "64-bit form with upper half zero";
    case CARTSUNDIAL_E_BYTE_ENABLES: return "memory byte enables";
    case CARTSUNDIAL_E_BOUNDARY_CROSSED: return "memory request crosses a 4,096-byte boundary";
    case CARTSUNDIAL_E_STATUS: return "status not 000, 001, 010 or 100";
    case CARTSUNDIAL_E_TOO_WIDE: return "a value that its field does not take";
    case CARTSUNDIAL_E_SHORT_ROOM: return "short room";
    case CARTSUNDIAL_E_FRAME: return "empty, or lengths of records";
    case CARTSUNDIAL_E_VERSION: return "version not 1, of a board neither 1 nor 2";
    case CARTSUNDIAL_E_TOO_MANY_FUNCTIONS: return "over 512 functions";
    case CARTSUNDIAL_E_ORDER: return "parent, order, depth or function 0";
    case CARTSUNDIAL_E_HEADER_TYPE: return "header type, or wrong length for it";
    case CARTSUNDIAL_E_READ_BACK: return "read-back, or BAR value";
    case CARTSUNDIAL_E_HOST: return "first bus above last, or a pool's edges";
    case CARTSUNDIAL_E_BUS_RANGE: return "not own bus = primary < secondary <= subordinate";
    case CARTSUNDIAL_E_ID_TWICE: return "ID twice";
    case CARTSUNDIAL_E_WINDOW_NIBBLES: return "window nibbles";
    case CARTSUNDIAL_E_NO_BUSES: return "first bus + bridges + spare buses > last bus";
    case CARTSUNDIAL_E_NO_LOW_ROOM: return "low item ends past its pool";
    case CARTSUNDIAL_E_NO_HIGH_ROOM: return "high item ends past its pool";
    case CARTSUNDIAL_E_NO_IO_ROOM: return "I/O item ends past its pool";
    case CARTSUNDIAL_E_NO_OWNER: return "no owner";
    case CARTSUNDIAL_E_CONTESTED: return "contested";
    case CARTSUNDIAL_E_CONFIGURATION_TYPE: return "wrong configuration type";
    case CARTSUNDIAL_E_UPWARD: return "a message that only travels up";
    case CARTSUNDIAL_E_NO_BUS_MASTER: return "no bus master: the starting function, or a bridge on the way up";
    case CARTSUNDIAL_E_NO_START: return "no start: the record is no type 0 function, or the packet no memory or I/O request";
    case CARTSUNDIAL_E_NOT_TREE: return "first record's bus, the bridge to a bus, or a bridge's buses";
    case CARTSUNDIAL_E_NOT_NESTED: return "a BAR or window outside the window or pool above";
    case CARTSUNDIAL_E_NOT_DISJOINT: return "two BARs or windows overlap on a bus";
    case CARTSUNDIAL_E_LEDGER_KIND: return "no non-posted request to open, or no completion";
    case CARTSUNDIAL_E_ALREADY_OPEN: return "a request with this requester and tag is open";
    case CARTSUNDIAL_E_LEDGER_FULL: return "256 requests are open";
    case CARTSUNDIAL_E_NOT_OPEN: return "no request with this requester and tag is open";
    case CARTSUNDIAL_E_MISMATCH: return "a completion that the open request does not get";
    case CARTSUNDIAL_E_TOO_MUCH_DATA: return "more dwords than are still to come";
    default: return "no number of this library";
    }
}

CARTSUNDIAL_INLINE const char *cartsundial_kind_name(uint64_t kind)
{
    switch (kind) {
    case CARTSUNDIAL_KIND_MRD: return "MRd";
    case CARTSUNDIAL_KIND_MRDLK: return "MRdLk";
    case CARTSUNDIAL_KIND_MWR: return "MWr";
    case CARTSUNDIAL_KIND_IORD: return "IORd";
    case CARTSUNDIAL_KIND_IOWR: return "IOWr";
    case CARTSUNDIAL_KIND_CFGRD0: return "CfgRd0";
    case CARTSUNDIAL_KIND_CFGWR0: return "CfgWr0";
    case CARTSUNDIAL_KIND_CFGRD1: return "CfgRd1";
    case CARTSUNDIAL_KIND_CFGWR1: return "CfgWr1";
    case CARTSUNDIAL_KIND_CPL: return "Cpl";
    case CARTSUNDIAL_KIND_CPLD: return "CplD";
    case CARTSUNDIAL_KIND_CPLLK: return "CplLk";
    case CARTSUNDIAL_KIND_CPLDLK: return "CplDLk";
    case CARTSUNDIAL_KIND_MSG: return "Msg";
    case CARTSUNDIAL_KIND_MSGD: return "MsgD";
    default: return "-";
    }
}
#endif

/* ---- version ---- */

/* The version of the archive, as CARTSUNDIAL_VERSION_NUMBER is that of this file. */
CARTSUNDIAL_CALL uint32_t cartsundial_version(void);

/* ---- plan ---- */

/*
 * Plans a board: numbers its buses, places every BAR and window, and writes the register sheet at the front of sheet, nothing past it.
 * A board of version 2 says of each bridge how many buses and how many MiB of low memory are to stay free below it; version 1 has none.
 * written: the sheet's length, at most CARTSUNDIAL_SHEET_BYTES.
 * Refused: 20 to 26 (the board), 30 to 33 (what runs out), then 11 for a short sheet, or a written slice of no numbers.
 * cartsundial_plan_where says which record is meant, and how much of what runs out is needed.
 */
CARTSUNDIAL_CHECKED uint32_t cartsundial_plan(const uint8_t *board, size_t board_len, uint8_t *CARTSUNDIAL_RESTRICT sheet, size_t sheet_len,
                                              uint64_t *CARTSUNDIAL_RESTRICT written, size_t written_len)
    CARTSUNDIAL_READS(1, 2) CARTSUNDIAL_WRITES(3, 4) CARTSUNDIAL_WRITES(5, 6);

/* Places in the answer of cartsundial_plan_where. */
enum cartsundial_plan_who {
    CARTSUNDIAL_PLAN_RECORD = 0,            /* a record, from 1, and its place: 0 to 5, a BAR's slot, or one of cartsundial_place */
    CARTSUNDIAL_PLAN_PLACE = 1,
    CARTSUNDIAL_PLAN_LOST_RECORD = 2,       /* before whom most room is lost to alignment, and the place */
    CARTSUNDIAL_PLAN_LOST_PLACE = 3,
    CARTSUNDIAL_NEEDS_BUSES = 4,            /* bus numbers */
    CARTSUNDIAL_NEEDS_LOW = 5,              /* bytes of the low pool, the high pool, the I/O pool */
    CARTSUNDIAL_NEEDS_HIGH = 6,
    CARTSUNDIAL_NEEDS_IO = 7,
    CARTSUNDIAL_NEEDS_LOW_ALIGN = 8,        /* the same pools: from any multiple of this the bytes are enough, where the pool is closed */
    CARTSUNDIAL_NEEDS_HIGH_ALIGN = 9,
    CARTSUNDIAL_NEEDS_IO_ALIGN = 10,
    CARTSUNDIAL_PLAN_WHO_NUMBERS = 11       /* how many numbers the answer has */
};

/*
 * Judges a board as cartsundial_plan does, without a sheet: returns its number, but for the sheet's room, and says whom that is about and
 * what the board needs. who: eleven numbers, at the places of cartsundial_plan_who.
 * Record and place: for 24, 23 and 25 the first record that fails that check, at CARTSUNDIAL_PLACE_ID, for 25 at its first wrong slot; for
 * 31, 32 and 33 the first item of the root bus that ends past its pool, in record order, a BAR or a window. Room lost, for 31, 32 and 33:
 * the item of that pool, on any bus, before which most addresses stay empty, the first of those. All are 0 where there is none.
 * Needs: the root bus's number and those of bridges and their spares; of each pool the bytes from its base to the edge of a granule after
 * the last item of the root bus, 0 where there is none, and the largest alignment among those items, no less than the granule. A closed
 * pool has no base: its bytes are enough from any multiple of its alignment, and from another base it can take more. They are there for 0
 * and for 30 to 33, and all 0 where the board fails its own checks. So a host short of room is told how much it has to have, and where.
 * An address past 2^62, which is past every pool, counts as 2^62: in the bytes that are needed, and in the addresses that stay empty.
 * A refused board has its answer: this call, and cartsundial_audit_where, write where they do not return 0. Before 0.31.0 the answer had
 * the first eight numbers. With room for eight to ten, as a caller of that time has, the call writes those eight and no other; with room
 * for fewer who stays as it was, and 0 becomes 11.
 */
CARTSUNDIAL_CHECKED uint32_t cartsundial_plan_where(const uint8_t *board, size_t board_len,
                                                    uint64_t *CARTSUNDIAL_RESTRICT who, size_t who_len)
    CARTSUNDIAL_READS(1, 2) CARTSUNDIAL_WRITES(3, 4);

/* ---- sheet ---- */

/*
 * 0 for a sheet that passes its checks, or the number of the first that it fails, 20 to 29. Give the sheet's own length, not the buffer's.
 */
CARTSUNDIAL_CHECKED uint32_t cartsundial_check(const uint8_t *sheet, size_t sheet_len)
    CARTSUNDIAL_READS(1, 2);

/*
 * Finds the function with an ID. offset: where its 64 register bytes start in the sheet.
 * Refused: the sheet's number, then 40 where no function has the ID (an ID above FFFFh is no function's), then 11 for an offset slice of no
 * numbers.
 */
CARTSUNDIAL_CHECKED uint32_t cartsundial_lookup(const uint8_t *sheet, size_t sheet_len, uint32_t id,
                                                uint64_t *CARTSUNDIAL_RESTRICT offset, size_t offset_len)
    CARTSUNDIAL_READS(1, 2) CARTSUNDIAL_WRITES(4, 5);

/*
 * The ID of the function with a record number, from 1 on: bus in bits 15:8, device in 7:3, function in 2:0. It turns the record that
 * cartsundial_route answers into an ID.
 * Refused: the sheet's number, then 40 where there is no such record (0 is none), then 11 for an id slice of no numbers.
 */
CARTSUNDIAL_CHECKED uint32_t cartsundial_id(const uint8_t *sheet, size_t sheet_len, uint32_t record,
                                            uint64_t *CARTSUNDIAL_RESTRICT id, size_t id_len)
    CARTSUNDIAL_READS(1, 2) CARTSUNDIAL_WRITES(4, 5);

/*
 * Rewrites the command word of the function with an ID, and no other byte.
 * Refused: 10 for a command above FFFFh, tried before the sheet is read, then the sheet's number, then 40.
 */
CARTSUNDIAL_CHECKED uint32_t cartsundial_command(uint8_t *CARTSUNDIAL_RESTRICT sheet, size_t sheet_len, uint32_t id, uint32_t command)
    CARTSUNDIAL_CHANGES(1, 2);

/* ---- route ---- */

/*
 * header, here and wherever a packet is delivered: bytes in the order of the link, byte 0 (Fmt and Type) first, and each number's high byte
 * first. Of 32-bit words, as a header log has them, give each word's high byte first.
 */

/*
 * Walks a header from the host over a sheet. answer: two numbers that say where it goes, then the twenty numbers of the packet as it
 * arrives: configuration type 1 arrives as type 0, everything else unchanged.
 *
 *     goes to                      answer[0]            answer[1]           after the packet
 *     one function                 its record, from 1   bridges crossed     nothing
 *     every function (broadcast)   0                    how many, n         the n record numbers, in the sheet's order
 *     the port (routing 4)         0                    0                   nothing
 *
 * A broadcast's n is never 0. Only a broadcast has more than CARTSUNDIAL_ROUTE_NUMBERS: 22 + n.
 * Refused: the header's number, 1 to 9, before the sheet is read; the sheet's number, 20 to 29; 40, 41, 42 or 43; then 11 for fewer numbers
 * than the answer has. Over 22 numbers, then, 11 is a broadcast that would be answered.
 */
CARTSUNDIAL_CHECKED uint32_t cartsundial_route(const uint8_t *header, size_t header_len, const uint8_t *sheet, size_t sheet_len,
                                               uint64_t *CARTSUNDIAL_RESTRICT answer, size_t answer_len)
    CARTSUNDIAL_READS(1, 2) CARTSUNDIAL_READS(3, 4) CARTSUNDIAL_WRITES(5, 6);

/*
 * Walks a memory or I/O request that starts at a type 0 function of the sheet, a card that writes or reads by itself. record: that
 * function's record, from 1 on. The answer has CARTSUNDIAL_ROUTE_NUMBERS numbers, the packet unchanged.
 *
 *     goes to                      answer[0]            answer[1]
 *     one function                 its record, from 1   bridges crossed, up and down together
 *     the host                     0                    bridges crossed upward
 *
 * On each bus BARs and windows claim the address as for cartsundial_route; where none does, the request goes up through the bridge whose
 * secondary bus it is on, and from the root bus, which is the first record's, to the host.
 * Refused, in this order: the header's number, 1 to 9, before the sheet is read; the sheet's number, 20 to 29; 45 for a record that is no
 * type 0 function of the sheet (0, and any above its functions) or a packet that is no memory or I/O request, messages too; 44 where the
 * function is no bus master; 40 for an address in one of its own BARs; then on the way 41 for two claims on a bus or two bridges above
 * it, 40 where no bridge is above or one of its windows holds the address, enabled or not, 44 where that bridge is no bus master; 40 or
 * 41 on the way down; and 11 for fewer numbers than the answer has.
 * Over a sheet that cartsundial_audit accepts, and so over a planned one, it is never 41, and over a planned one at most 64 bridges are
 * crossed. Both are proved.
 */
CARTSUNDIAL_CHECKED uint32_t cartsundial_route_from(uint32_t record, const uint8_t *header, size_t header_len,
                                                    const uint8_t *sheet, size_t sheet_len,
                                                    uint64_t *CARTSUNDIAL_RESTRICT answer, size_t answer_len)
    CARTSUNDIAL_READS(2, 3) CARTSUNDIAL_READS(4, 5) CARTSUNDIAL_WRITES(6, 7);

/* ---- both ends ---- */

/*
 * A header says who sent it. These calls read it so: a completion names its sender by its completer ID, any other header by its requester
 * ID. Configuration requests and messages 011 (broadcast) start at the host, whoever they name; so does a header that names the host's own
 * ID, also where a function has that ID too, or an ID that no function of the sheet has. Any other starts at the function with that ID.
 * host_id: the host's own ID, the requester ID of its own requests; FFFFh where you do not know it.
 *
 * sender: one number, 0 for the host, else the record, from 1. A packet that cartsundial_route_sent refuses with 40, 41, 44 or 45 has a
 * sender too, and this call tells it.
 * Refused: 10 for a host_id above FFFFh, before anything is read; the header's number, 1 to 9; the sheet's, 20 to 29; 11 for no number of
 * room.
 */
CARTSUNDIAL_CHECKED uint32_t cartsundial_sender(uint64_t host_id, const uint8_t *header, size_t header_len, const uint8_t *sheet,
                                                size_t sheet_len, uint64_t *CARTSUNDIAL_RESTRICT sender, size_t sender_len)
    CARTSUNDIAL_READS(2, 3) CARTSUNDIAL_READS(4, 5) CARTSUNDIAL_WRITES(6, 7);

/* Places in the answer of cartsundial_route_sent. */
enum cartsundial_sent {
    CARTSUNDIAL_SENT_SENDER = 0,               /* as cartsundial_sender tells it */
    CARTSUNDIAL_SENT_TO = 1,                   /* one of enum cartsundial_goal */
    CARTSUNDIAL_SENT_RECORD = 2,               /* the record that gets it, from 1; 0 where it is none */
    CARTSUNDIAL_SENT_BRIDGES = 3,              /* bridges crossed, up and down together; of a broadcast how many functions */
    CARTSUNDIAL_SENT_PACKET = 4,               /* the packet as it arrives, in the places of enum cartsundial_field */
    CARTSUNDIAL_SENT_LIST = 24                 /* of a broadcast the record numbers, in the sheet's order */
};

/* Where a packet goes. */
enum cartsundial_goal {
    CARTSUNDIAL_TO_FUNCTION = 0,
    CARTSUNDIAL_TO_HOST = 1,
    CARTSUNDIAL_TO_PORT = 2,
    CARTSUNDIAL_TO_EVERY = 3
};

/*
 * Both ends of a packet: who sends it, as above, and what becomes of it. From the host the answer is that of cartsundial_route, with its
 * numbers. From a function a memory or I/O request goes as cartsundial_route_from has it, with its numbers; messages 000 and 101 go up to
 * the host, 100 ends at the port, and 001 is 45; a completion or a message 010 goes by ID. Command bits matter for requests only.
 *
 *     goes to                      answer[1]   answer[2]            answer[3]                     after the packet
 *     one function                 0           its record, from 1   bridges crossed, up and down  nothing
 *     the host                     1           0                    bridges crossed upward        nothing
 *     the port (routing 4)         2           0                    0                             nothing
 *     every function (broadcast)   3           0                    how many, n                   the n record numbers
 *
 * answer[0] is the sender. Only a broadcast, which the host sends, has more than CARTSUNDIAL_SENT_NUMBERS: 24 + n.
 * By ID from a function: the host's own ID goes up to the host, and the sender's own is 40. Else on each bus from the sender's on another
 * function with that ID claims it, or a bridge whose buses hold the ID's bus, from which the packet goes down; where none does, it goes up,
 * unless the bridge above has the ID's bus among its own, which is 40, and from the root bus to the host. No bridge above a bus is 40, two
 * are 41, and so are two claims.
 * Refused, in this order: 10 for a host_id above FFFFh; the header's number, 1 to 9; the sheet's, 20 to 29; 40 to 45 as said; and 11 for
 * fewer numbers than the answer has.
 * Over a sheet that cartsundial_audit accepts, and so over a planned one, it is never 41, and every packet has one sender and, a broadcast
 * apart, at most one receiver. Both are proved.
 */
CARTSUNDIAL_CHECKED uint32_t cartsundial_route_sent(uint64_t host_id, const uint8_t *header, size_t header_len, const uint8_t *sheet,
                                                    size_t sheet_len, uint64_t *CARTSUNDIAL_RESTRICT answer, size_t answer_len)
    CARTSUNDIAL_READS(2, 3) CARTSUNDIAL_READS(4, 5) CARTSUNDIAL_WRITES(6, 7);

/* ---- route, by an index ---- */

/*
 * For many headers over one sheet: an index of it, built once, and a search in it for each header in place of the walk.
 *
 * Builds the index of a sheet that cartsundial_audit accepts for the host, at the front of index: 1,024 bytes, and 256 for each function.
 * Nothing past them is written. host: as for cartsundial_audit.
 * Refused: the audit's number, 20 to 29 and 50 to 52; then 11 for a shorter slice.
 * The index is of the sheet as it is now: build it again after cartsundial_command. It holds no addresses of memory, so it may be copied.
 */
CARTSUNDIAL_CHECKED uint32_t cartsundial_index(const uint8_t *host, size_t host_len, const uint8_t *sheet, size_t sheet_len,
                                               uint8_t *CARTSUNDIAL_RESTRICT index, size_t index_len)
    CARTSUNDIAL_READS(1, 2) CARTSUNDIAL_READS(3, 4) CARTSUNDIAL_WRITES(5, 6);

/*
 * The same for every sheet that cartsundial_sound is 0 for: refused by its number, then 11. For a sheet that cartsundial_audit accepts the
 * two calls leave the same bytes.
 */
CARTSUNDIAL_CHECKED uint32_t cartsundial_index_sound(const uint8_t *host, size_t host_len, const uint8_t *sheet, size_t sheet_len,
                                                     uint8_t *CARTSUNDIAL_RESTRICT index, size_t index_len)
    CARTSUNDIAL_READS(1, 2) CARTSUNDIAL_READS(3, 4) CARTSUNDIAL_WRITES(5, 6);

/*
 * The same for a sheet without a host record: refused by the number of cartsundial_sound_alone, then 11.
 */
CARTSUNDIAL_CHECKED uint32_t cartsundial_index_alone(const uint8_t *sheet, size_t sheet_len,
                                                     uint8_t *CARTSUNDIAL_RESTRICT index, size_t index_len)
    CARTSUNDIAL_READS(1, 2) CARTSUNDIAL_WRITES(3, 4);

/*
 * Where a header goes, by an index that one of these left: for every header the answer and the number of cartsundial_route over the
 * index's sheet. A longer slice with the index at its front will do.
 * Any other bytes may be given too. The call then ends with an answer that they decide, a record and bridges that need not be anyone's,
 * or a number. A slice shorter than 1,024 bytes, or than the number of functions in its first two bytes asks for, has no functions: 40.
 * A broadcast's n is at most 65,535 then, and at most 512 for an index that was built.
 * Refused: the header's number, 1 to 9, before the index is read; 40, 42 or 43; then 11 for fewer numbers than the answer has.
 */
CARTSUNDIAL_CHECKED uint32_t cartsundial_find(const uint8_t *header, size_t header_len, const uint8_t *index, size_t index_len,
                                              uint64_t *CARTSUNDIAL_RESTRICT answer, size_t answer_len)
    CARTSUNDIAL_READS(1, 2) CARTSUNDIAL_READS(3, 4) CARTSUNDIAL_WRITES(5, 6);

/* ---- trace ---- */

/*
 * A trace is the version byte 1, then for each captured header two bytes of length, the high one first, and the header's bytes. It is given
 * in pieces, cut anywhere; a piece may hold no bytes. With the last byte of each record comes its line, in ASCII with a newline at the end:
 *
 *     1 MRd owner 2        record 1 of the trace, a memory read, goes to the function of the sheet's record 2
 *     2 IOWr refused 40    an I/O write that has no owner
 *     3 - refused 4        no header: cartsundial_read refuses it
 *     4 Msg owner all      a broadcast
 *     5 Msg owner port     a message that ends at the port
 *
 * The kind is that of the header as read: a CfgRd1 that arrives as CfgRd0 stays a CfgRd1. A record of no bytes is whole: `6 - refused 1`.
 * Of a record over 16 bytes the first 16 are looked at. A sheet that fails its checks is in the lines too: `1 MRd refused 27`. The numbers
 * of the records start at 1; after 2^64 - 1 comes 0. A first byte other than 1 gives the line `refused 21`, and nothing after it a line.
 *
 * state: CARTSUNDIAL_TRACE_NUMBERS numbers, which say how far the trace was read. Start with all of them 0, and keep them between calls;
 * a copy of them is a place to go on from.
 *
 *     state[0]      where the next byte falls: 0 at the start, 1 after another version, 2 between records, 3 after the first byte of a
 *                   length, 4 inside a record
 *     state[1]      at 3 that byte of the length; at 4 how many bytes of the record are to come, 1 to 65,535; else 0
 *     state[2]      the number of the last whole record
 *     state[3]      how many bytes are kept of the record under way, at most 16
 *     state[4..5]   bytes 0 to 7, and 8 to 15, of those kept, each as one number, the first byte highest
 *
 * Of a record that is finished nothing is kept: from zeros on, all but state[0] and state[2] are 0 between records. Any other number at
 * state[0], at state[1] or at state[3] is no state; state[2] and state[4..5] may hold any.
 *
 * With the same sheet or index throughout, the lines of all pieces together, with that of the end, are those of the trace in one piece,
 * wherever the cuts fall; so is the state. That is proved.
 */

/*
 * Takes the next piece of a trace, and writes the lines of the records that end in it at the front of lines, nothing past them.
 * state: as it is after the piece. written: how many bytes of lines.
 * Refused: 11 for fewer than six numbers of state, 10 for numbers that are no state, both tried first; then 11 for lines that do not fit,
 * or a written slice of no numbers. A refused piece is not taken: give it again with more room, or in smaller pieces.
 * Room for CARTSUNDIAL_LINE_BYTES a record is always enough, and so for piece_len / 2 + 1 lines whatever the piece holds; with less, each
 * line may have to be made twice. The sheet is checked once a call, so pieces of some KiB are better than single records.
 */
CARTSUNDIAL_CHECKED uint32_t cartsundial_annotate(uint64_t *CARTSUNDIAL_RESTRICT state, size_t state_len,
                                                  const uint8_t *sheet, size_t sheet_len, const uint8_t *piece, size_t piece_len,
                                                  uint8_t *CARTSUNDIAL_RESTRICT lines, size_t lines_len,
                                                  uint64_t *CARTSUNDIAL_RESTRICT written, size_t written_len)
    CARTSUNDIAL_CHANGES(1, 2) CARTSUNDIAL_READS(3, 4) CARTSUNDIAL_READS(5, 6) CARTSUNDIAL_WRITES(7, 8) CARTSUNDIAL_WRITES(9, 10);

/*
 * The same by an index in place of the sheet. By an index that cartsundial_index left, the call returns and writes what
 * cartsundial_annotate does over the index's sheet, in far less time where the sheet has many functions; so the two may take turns on one
 * state. A longer slice with the index at its front will do.
 * Any other bytes may be given too: the lines then say what cartsundial_find answers over them.
 * Refused: as cartsundial_annotate. The index is not checked, so single records cost no more than larger pieces.
 */
CARTSUNDIAL_CHECKED uint32_t cartsundial_label(uint64_t *CARTSUNDIAL_RESTRICT state, size_t state_len,
                                               const uint8_t *index, size_t index_len, const uint8_t *piece, size_t piece_len,
                                               uint8_t *CARTSUNDIAL_RESTRICT lines, size_t lines_len,
                                               uint64_t *CARTSUNDIAL_RESTRICT written, size_t written_len)
    CARTSUNDIAL_CHANGES(1, 2) CARTSUNDIAL_READS(3, 4) CARTSUNDIAL_READS(5, 6) CARTSUNDIAL_WRITES(7, 8) CARTSUNDIAL_WRITES(9, 10);

/*
 * The same with both ends of each packet (document 03), over a sheet and with the host's own ID, bus, device and function as in a header:
 *
 *     4 MWr from 3 to host        a memory write from the function of the sheet's record 3, up to the host
 *     6 MRd from host to 4        a memory read that the host starts, or that names an ID which no function of the sheet has
 *     7 MWr from 3 refused 44     the sender is told also where the packet is refused on its way
 *     8 Msg from host to all      a broadcast
 *     9 Msg from 3 to port        a message that ends at the port
 *
 * A header that is not read stays `2 - refused 4`, and over a sheet that fails its checks `1 MRd refused 27` names no sender.
 * Refused: 10 for a host_id above FFFFh, first; then as cartsundial_annotate. Room for CARTSUNDIAL_FOLLOW_LINE_BYTES a record is enough.
 */
CARTSUNDIAL_CHECKED uint32_t cartsundial_follow(uint64_t host_id, uint64_t *CARTSUNDIAL_RESTRICT state, size_t state_len,
                                                const uint8_t *sheet, size_t sheet_len, const uint8_t *piece, size_t piece_len,
                                                uint8_t *CARTSUNDIAL_RESTRICT lines, size_t lines_len,
                                                uint64_t *CARTSUNDIAL_RESTRICT written, size_t written_len)
    CARTSUNDIAL_CHANGES(2, 3) CARTSUNDIAL_READS(4, 5) CARTSUNDIAL_READS(6, 7) CARTSUNDIAL_WRITES(8, 9) CARTSUNDIAL_WRITES(10, 11);

/*
 * The line that a trace gets if it ends here, at the front of lines: `cut` inside a record or its length, `refused 20` where there was no
 * byte, else none. written: how many bytes. The state stays as it was, and more pieces may follow. It needs neither sheet nor index, so it
 * ends a trace of each of these calls.
 * Refused: as cartsundial_annotate.
 */
CARTSUNDIAL_CHECKED uint32_t cartsundial_annotate_end(const uint64_t *state, size_t state_len,
                                                      uint8_t *CARTSUNDIAL_RESTRICT lines, size_t lines_len,
                                                      uint64_t *CARTSUNDIAL_RESTRICT written, size_t written_len)
    CARTSUNDIAL_READS(1, 2) CARTSUNDIAL_WRITES(3, 4) CARTSUNDIAL_WRITES(5, 6);

/* ---- audit ---- */

/*
 * Judges a sheet, whoever wrote it, for a host: 0 for one that is accepted, or the number of the first check that fails. host: the
 * CARTSUNDIAL_HOST_BYTES bytes of a board's host record, without its length; in a board they start at CARTSUNDIAL_HOST_OFFSET.
 * Refused: 20 for a host of another length, then 26 for its buses or edges; the sheet's number, 20 to 29; then
 *     50   the first record is not on the host's first bus; a function's bus is neither that nor the secondary bus of exactly one bridge;
 *          a bridge's buses do not lie in the parent's and the host's; two bridges on one bus share a bus
 *     51   a BAR or an open window does not lie in the window above, or on the root bus in the pool, of its kind: low memory, high memory
 *          (from 4 GiB on, for what is 64-bit and prefetchable) or I/O
 *     52   on one bus two BARs or open windows of one space overlap, enabled or not, also of one function
 * Every sheet from cartsundial_plan is accepted for its own host record. Over an accepted sheet cartsundial_route gives a memory or I/O
 * request to the one function whose BAR holds the address, where that function and all bridges above it are enabled, and else answers 40,
 * never 41. Both are proved.
 */
CARTSUNDIAL_CHECKED uint32_t cartsundial_audit(const uint8_t *host, size_t host_len, const uint8_t *sheet, size_t sheet_len)
    CARTSUNDIAL_READS(1, 2) CARTSUNDIAL_READS(3, 4);

/*
 * One owner for every address: cartsundial_audit, but for 51, which is asked of the address space and not of the kind. A memory BAR or an
 * open memory window lies in the low or the high window of the bridge above, whichever its own kind is, and on the root bus in the low or
 * the high pool. So a sheet with prefetchable windows below 4 GiB, as much firmware leaves it, need not be 51. All else is the same: the
 * other checks, their numbers and their order.
 * Every sheet that cartsundial_audit accepts is 0 here too. Over a sheet that is 0 here no two functions have BARs over one address, and
 * cartsundial_route answers as over an accepted one: a memory or I/O request goes to the one function whose BAR holds the address, where
 * that function and all bridges above it are enabled, and else is 40; no packet is 41. It stays so when command words are rewritten. All
 * of this is proved. cartsundial_index_sound makes the index of such a sheet.
 */
CARTSUNDIAL_CHECKED uint32_t cartsundial_sound(const uint8_t *host, size_t host_len, const uint8_t *sheet, size_t sheet_len)
    CARTSUNDIAL_READS(1, 2) CARTSUNDIAL_READS(3, 4);

/*
 * One owner for every address of a sheet without a host record: the sheet's own number, 20 to 29, then that of cartsundial_sound for a host
 * that is as wide as check 26 lets one be: buses from the first record's to FFh, low memory below 4 GiB, high memory from there to 2^52,
 * all I/O. It is 0 exactly where cartsundial_sound is 0 for some host. What it does not say is where the pools of the sheet's own host end.
 */
CARTSUNDIAL_CHECKED uint32_t cartsundial_sound_alone(const uint8_t *sheet, size_t sheet_len) CARTSUNDIAL_READS(1, 2);

/* A place of a record, as cartsundial_plan_where and cartsundial_audit_where name it: 0 to 5 is a BAR's slot. */
enum cartsundial_place {
    CARTSUNDIAL_PLACE_LOW_WINDOW = 6,
    CARTSUNDIAL_PLACE_HIGH_WINDOW = 7,
    CARTSUNDIAL_PLACE_IO_WINDOW = 8,
    CARTSUNDIAL_PLACE_BUS_REGISTERS = 9,
    CARTSUNDIAL_PLACE_ID = 10               /* and so the function as a whole */
};

/* How many numbers cartsundial_audit_where answers with. */
#define CARTSUNDIAL_WHO_NUMBERS 4

/*
 * Judges a sheet as cartsundial_audit does, with its number, and says whom the number is about. who: the record, from 1, and its place;
 * then the other record that it meets there and that one's place; each 0 where there is none.
 * For 24, 25, 27 to 29 and 50 to 52 it is the first record at which that check fails, in record order, at the first place that is wrong,
 * a 64-bit BAR at its lower slot; the other one has the same ID (28), is a bridge that leads to its bus or shares a bus with it (50), or
 * has an address in common (52), and no lesser one does. For 20 to 22, and for 26, which is of the host, all four are 0. All of this is
 * proved.
 * A refused sheet has its answer: this call, and cartsundial_plan_where, write where they do not return 0. With room for fewer than four
 * numbers who stays as it was, and 0 becomes 11.
 */
CARTSUNDIAL_CHECKED uint32_t cartsundial_audit_where(const uint8_t *host, size_t host_len, const uint8_t *sheet, size_t sheet_len,
                                                     uint64_t *CARTSUNDIAL_RESTRICT who, size_t who_len)
    CARTSUNDIAL_READS(1, 2) CARTSUNDIAL_READS(3, 4) CARTSUNDIAL_WRITES(5, 6);

/* ---- ledger ---- */

/*
 * A ledger holds up to 256 non-posted requests, by requester ID and tag, from their opening until completions close them: a read when all
 * its dwords were delivered, a write at its first success, either at another status. ledger: CARTSUNDIAL_LEDGER_NUMBERS numbers that the
 * caller keeps, all zero at first. Any numbers are a ledger; docs/FORMATS.md has their meaning. A free place has a number below 2^32.
 * From empty on, after any calls, requests opened are those closed and those open together, and a key has one place. That is proved.
 */

/*
 * Opens the request of a header: MRd, MRdLk, IORd, IOWr, CfgRd0, CfgWr0, CfgRd1 or CfgWr1.
 * Refused: 11 for fewer than 256 numbers, tried first; then the header's number, 1 to 9; 60 for any other kind; 61 where its requester and
 * tag are open already; 62 where 256 requests are open.
 */
CARTSUNDIAL_CHECKED uint32_t cartsundial_ledger_open(uint64_t *CARTSUNDIAL_RESTRICT ledger, size_t ledger_len,
                                                     const uint8_t *header, size_t header_len)
    CARTSUNDIAL_CHANGES(1, 2) CARTSUNDIAL_READS(3, 4);

/*
 * Completes the request with the requester and the tag of a completion.
 * Refused: 11 for fewer than 256 numbers, tried first; then the header's number, 1 to 9; 60 for any other kind; 63 where no such request is
 * open; 64 for retry (status 010) where it is not configuration, and for a success with data for a write, without data for a read, in the
 * locked form for any but MRdLk, or not in it for MRdLk; 65 for a success with more dwords than are still to come.
 */
CARTSUNDIAL_CHECKED uint32_t cartsundial_ledger_complete(uint64_t *CARTSUNDIAL_RESTRICT ledger, size_t ledger_len,
                                                         const uint8_t *header, size_t header_len)
    CARTSUNDIAL_CHANGES(1, 2) CARTSUNDIAL_READS(3, 4);

/*
 * count: how many requests are open.
 * Refused: 11 for fewer than 256 numbers, or a count slice of no numbers.
 */
CARTSUNDIAL_CHECKED uint32_t cartsundial_ledger_count(const uint64_t *ledger, size_t ledger_len,
                                                      uint64_t *CARTSUNDIAL_RESTRICT count, size_t count_len)
    CARTSUNDIAL_READS(1, 2) CARTSUNDIAL_WRITES(3, 4);

/* ---- script ---- */

/*
 * Writes a board's plan as the configuration writes that boot code makes, at the front of script and nothing past them: a record for each
 * write, of two length bytes (0, 16), twelve header bytes and four data bytes in register order. First come the bus registers of the
 * bridges, then the used BARs and all window registers, then the command words, each by record; type 0 for the host's first bus and type 1
 * below; a byte that a write does not enable is 0. requester: the ID that the writes come from. first_tag: the first write's tag, one up at
 * each write, 0 after 255. written: the script's length, at most CARTSUNDIAL_SCRIPT_BYTES.
 * Made in this order on functions whose other registers are zero, each write reaches its function, the last leaves the planned sheet, and
 * after any of them a memory or I/O address has the owner that it will have, or none. That is proved.
 * Refused: 10 for a requester above FFFFh or a first_tag above FFh, tried first; 20 to 26 and 30 to 33, as cartsundial_plan; then 11 for a
 * short script slice, or a written slice of no numbers.
 */
CARTSUNDIAL_CHECKED uint32_t cartsundial_script(const uint8_t *board, size_t board_len, uint32_t requester, uint32_t first_tag,
                                                uint8_t *CARTSUNDIAL_RESTRICT script, size_t script_len,
                                                uint64_t *CARTSUNDIAL_RESTRICT written, size_t written_len)
    CARTSUNDIAL_READS(1, 2) CARTSUNDIAL_WRITES(5, 6) CARTSUNDIAL_WRITES(7, 8);

/* ---- codec ---- */

/*
 * Reads the header at the front of any bytes. packet: its twenty numbers. Later bytes are not looked at.
 * Refused: 1 to 9, then 11 for a packet slice of fewer than twenty numbers.
 */
CARTSUNDIAL_CHECKED uint32_t cartsundial_read(const uint8_t *header, size_t header_len,
                                              uint64_t *CARTSUNDIAL_RESTRICT packet, size_t packet_len)
    CARTSUNDIAL_READS(1, 2) CARTSUNDIAL_WRITES(3, 4);

/*
 * 0 for a header that cartsundial_read reads, or the number with which it refuses it, 1 to 9. Nothing is written: the quickest way to tell.
 */
CARTSUNDIAL_CHECKED uint32_t cartsundial_judge(const uint8_t *header, size_t header_len) CARTSUNDIAL_READS(1, 2);

/*
 * Writes the packet that the first twenty numbers are, 12 or 16 bytes at the front of the room and nothing past them. written: how many.
 * Refused: 11 for fewer than twenty numbers, tried first; 2 for a kind or form outside the list, or not carried together, or a message's
 * routing 6 or 7; 10 for a number that its field does not take (too large, a Length outside 1 to 1,024, or of Cpl, CplLk and Msg other
 * than 0), or other than 0 in a field that the kind does not have; 4 to 9; 11 for a short room, or a written slice of no numbers.
 * What cartsundial_read gave is written back to the same bytes, and what was written is read back as the same twenty numbers.
 */
CARTSUNDIAL_CHECKED uint32_t cartsundial_write(const uint64_t *packet, size_t packet_len,
                                               uint8_t *CARTSUNDIAL_RESTRICT room, size_t room_len,
                                               uint64_t *CARTSUNDIAL_RESTRICT written, size_t written_len)
    CARTSUNDIAL_READS(1, 2) CARTSUNDIAL_WRITES(3, 4) CARTSUNDIAL_WRITES(5, 6);

#ifdef __cplusplus
}
#endif

#endif
