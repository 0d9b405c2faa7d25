//! The refusal numbers of documents 01 and 02.

use core::error::Error;
use core::fmt;
use core::str::FromStr;

/// Makes the enum of a table: its name, its number, its meaning in a few words and in full, what most often leads to it, what to do, and
/// an example. The C header and docs/NUMBERS.md are held against this table by a test, and `cartsundial explain` prints it.
macro_rules! refusals {
    ($($(#[$doc:meta])* $name:ident = $number:literal, $meaning:literal {
        means: $means:literal,
        cause: $cause:literal,
        remedy: $remedy:literal,
        example: $example:literal,
    })*) => {
        /// Why a call was refused: document 01's number and its meaning. The C header has the same names, `NoOwner` as
        /// `CARTSUNDIAL_E_NO_OWNER`.
        #[derive(Clone, Copy, PartialEq, Eq, PartialOrd, Ord, Hash)]
        #[repr(u8)]
        #[non_exhaustive]
        pub enum Refusal {
            $($(#[$doc])* $name = $number,)*
        }

        impl Refusal {
            /// Every refusal, by rising number.
            pub const ALL: &'static [Refusal] = &[$(Refusal::$name,)*];

            /// The name: `NoOwner`.
            pub const fn name(self) -> &'static str {
                match self {
                    $(Refusal::$name => stringify!($name),)*
                }
            }

            /// Document 01's meaning.
            pub const fn meaning(self) -> &'static str {
                match self {
                    $(Refusal::$name => $meaning,)*
                }
            }

            /// The meaning in full.
            pub const fn means(self) -> &'static str {
                match self {
                    $(Refusal::$name => $means,)*
                }
            }

            /// What most often leads to it.
            pub const fn cause(self) -> &'static str {
                match self {
                    $(Refusal::$name => $cause,)*
                }
            }

            /// What to do.
            pub const fn remedy(self) -> &'static str {
                match self {
                    $(Refusal::$name => $remedy,)*
                }
            }

            /// What is refused so: a command at a shell, or words.
            pub const fn example(self) -> &'static str {
                match self {
                    $(Refusal::$name => $example,)*
                }
            }
        }

        /// The refusal with this number.
        impl TryFrom<u32> for Refusal {
            type Error = NoRefusal;

            fn try_from(number: u32) -> Result<Refusal, NoRefusal> {
                match number {
                    $($number => Ok(Refusal::$name),)*
                    _ => Err(NoRefusal),
                }
            }
        }
    };
}

refusals! {
    /// A header under 12 bytes, or under 16 in the four-dword form.
    ShortHeader = 1, "header under 12 bytes, or under 16 in the four-dword form" {
        means: "a header under 12 bytes, or under 16 in the four-dword form",
        cause: "the capture or the copy was cut, or not all dwords of a log's line were given",
        remedy: "give the whole header: 12 bytes, or 16 where bit 5 of byte 0 is set",
        example: "cartsundial decode 00000001 0000010F",
    }
    /// A Fmt and Type pair that is unknown; of the writer, a kind and form not carried.
    UnknownPair = 2, "Fmt and Type pair unknown, or kind and form not carried" {
        means: "Fmt and Type unknown, a message's routing 110 or 111 among them; written: the kind is not carried in that form",
        cause: "byte 0 is not a header's first: the bytes of a dword the other way round, or bytes that start elsewhere",
        remedy: "give byte 0 first, as 00 of a memory read; memory requests have both forms, messages four dwords, all others three",
        example: "cartsundial decode 0F000001 0000010F F8000000",
    }
    /// A pair that is known but not carried: AtomicOps and prefixes.
    NotCarried = 3, "Fmt and Type pair known but not carried" {
        means: "known, not carried: AtomicOps, prefixes",
        cause: "the header is an AtomicOp's, or a prefix stands before it",
        remedy: "leave it out: nothing here reads one; what follows a prefix is a header of its own",
        example: "cartsundial decode 4C000001 0000010F F8000000",
    }
    /// A bit that has no name, an address's low two or TH set; memory AT 11, completion or message AT not 00.
    ReservedBits = 4, "a bit without a name, an address's low two, TH, or AT" {
        means:
            "a bit that the layout does not name, TH, tag bits 9 and 8 of a memory write or message, an address's low two bits, memory \
            AT 11, completion or message AT not 00",
        cause: "the words of a log with the low byte first, or a device that uses a bit of a later version of the specification",
        remedy: "look at byte 1 first: it has the most reserved bits. A header log's words are to be given high byte first",
        example: "cartsundial decode 00010001 0000010F F8000000",
    }
    /// I/O and configuration: TC, Attr, AT or last enables not zero, or Length not 1. Cpl, CplLk and Msg: Length code not
    /// 0.
    FixedFields = 5, "TC, Attr, AT, Length or last enables of I/O or configuration, or Length of Cpl, CplLk or Msg" {
        means: "I/O or configuration: TC, Attr, AT or last enables not 0, Length not 1; Cpl, CplLk, Msg: a Length",
        cause: "the fields of a memory request in a header of another kind",
        remedy: "these kinds have one value there: put 0, and Length 1 for I/O and configuration",
        example: "cartsundial decode 02100001 0000010F 00004000",
    }
    /// A memory request in the 64-bit form with upper half zero.
    UpperHalfZero = 6, "64-bit form with upper half zero" {
        means: "a memory request in the 64-bit form with upper half zero",
        cause: "the four-dword form for an address below 4 GiB",
        remedy: "use the three-dword form below 4 GiB",
        example: "cartsundial decode 20000001 0000010F 00000000 F8000000",
    }
    /// Memory byte enables.
    ByteEnables = 7, "memory byte enables" {
        means: "memory byte enables",
        cause: "enables that leave a gap, or a last one that does not go with Length",
        remedy:
            "Length 1: last 0; Length 2 at a multiple of 8: both nonzero; else first 1111 1110 1100 1000, last 1111 0111 0011 0001",
        example: "cartsundial decode 00000002 0000010F F8000000",
    }
    /// A memory request crosses a 4,096-byte boundary.
    BoundaryCrossed = 8, "memory request crosses a 4,096-byte boundary" {
        means: "a memory request crosses a 4 KiB boundary",
        cause: "a request that starts near the end of a page and is longer than what is left of it",
        remedy: "split the request at the multiple of 4,096",
        example: "cartsundial decode 00000002 000001FF F8000FFC",
    }
    /// A completion status that is not 000, 001, 010 or 100.
    Status = 9, "status not 000, 001, 010 or 100" {
        means: "completion status not 000, 001, 010, 100",
        cause: "bits 7 to 5 of byte 6 are reserved values, most often because the header is not a completion's or is cut before it",
        remedy: "look at byte 6: its upper three bits are the status, 000 for a success",
        example: "cartsundial decode 0A000000 01006004 00000100",
    }
    /// A value that its field does not take: too wide, a Length outside 1 to 1,024 (of Cpl, CplLk and Msg: other than 0),
    /// or an address of 4 GiB or more in the three-dword form.
    TooWide = 10, "a value that its field does not take" {
        means:
            "a value that its field does not take: too wide; a Length outside 1 to 1,024, of Cpl, CplLk and Msg other than 0; 4 GiB or \
            more in the three-dword form. From C also a value in a field that the kind does not have, a command word or a requester \
            above FFFFh, a first tag above FFh, or numbers that are no state of a trace",
        cause: "a program that writes a header puts a value there that the field has no bits for",
        remedy: "hold the packet's fields against the layout",
        example: "a tag of 400h in a packet that is to be written: a tag has ten bits",
    }
    /// Short room.
    ShortRoom = 11, "short room" {
        means:
            "a lent slice is too short; tried last, but from C first for fewer than the twenty numbers of a packet to be written, the \
            six of a trace's state or the 256 of a ledger",
        cause: "a program lends less room than the answer takes",
        remedy:
            "lend 16 bytes for a header, 47,105 for any sheet, 73,692 for any script, 1,024 and 256 a function for an index, 40 bytes \
            a record for the lines of a trace, 51 with both ends. From C twenty numbers for a packet, 22 for a route, 24 for both \
            ends, and one more for each function where it is a broadcast, four for who fails an audit, eleven for what does not fit \
            of a board (eight will do for all but the alignments), 256 for a ledger",
        example: "92 bytes lent for the sheet of one function: it takes 93",
    }
    /// Empty; lengths not ending at the end; no host record, or host not 30; function under 6; sheet record not 90.
    Frame = 20, "empty, or lengths of records" {
        means:
            "empty; lengths that do not end at the end; no host record, or not 30 bytes; a function under 6; a sheet record not 90",
        cause: "a file that is empty or was cut, a length that was changed, or a file of another kind",
        remedy:
            "make the file anew if it is empty or cut; else follow the two-byte lengths from byte 1 on: they leave out their own two \
            bytes",
        example: "printf '' | cartsundial plan -",
    }
    /// Version not 1; of a board, neither 1 nor 2.
    Version = 21, "version not 1, of a board neither 1 nor 2" {
        means: "version not 1; of a board, neither 1 nor 2",
        cause: "a file of another kind, or one that lost its first byte",
        remedy: "put the version byte first: 1, or 2 for a board with spares",
        example: "printf '\\003' | cartsundial plan -",
    }
    /// Over 512 functions.
    TooManyFunctions = 22, "over 512 functions" {
        means: "over 512 functions",
        cause: "a board with more cards and bridges than this planner takes",
        remedy: "leave out what is over 512, or give each host bridge a board of its own",
        example: "three bridges with 256 functions below each: 771",
    }
    /// Parent, order, depth or function 0.
    Order = 23, "parent, order, depth or function 0" {
        means: "board: parent, order, depth or function 0",
        cause:
            "lines that are not in the order of their devices, a device's function 1 without its function 0, or more than 32 bridges \
            in a row",
        remedy:
            "records go depth-first, siblings by rising device/function; a device with more functions has function 0 with header type \
            bit 7 set; at most 32 bridges above",
        example: "printf 'host\\ncard 01.0\\ncard 00.0\\n' | cartsundial plan -",
    }
    /// Header type's low seven bits not 0 or 1, or wrong length for it.
    HeaderType = 24, "header type, or wrong length for it" {
        means: "header type not 0 or 1, or a record of the wrong length for it",
        cause: "a CardBus bridge (type 2), or a record that is of the other version or the other type",
        remedy: "30 bytes for type 0, 14 for type 1; on a board of version 2 a type 1 record has 17, the last three its spares",
        example:
            "echo '01 001E 00FF FFFFFFFF 00000000 FFFFFFFFFFFFFFFF 0000000000000000 FFFF 0000 0006 0000 00 02 0003' | cartsundial plan \
            -",
    }
    /// A read-back, of memory also one under 128 bytes; on a sheet also a BAR value that does not fit its read-back.
    ReadBack = 25, "read-back, or BAR value" {
        means: "a read-back, of memory also one under 128 bytes; on a sheet also a BAR value off its size or type bits",
        cause: "a size that is no power of two or too small, or a BAR's value in the place of its read-back",
        remedy:
            "a size is a power of two, of a memory BAR 128 bytes or more, of an I/O BAR 4 or more; a 64-bit BAR takes two slots. In \
            bytes it is the read-back after writing all ones, not the value",
        example: "printf 'host low F8000000+1M\\ncard 00.0 mem32 64\\n' | cartsundial plan -",
    }
    /// First bus above last, or a pool's edges.
    Host = 26, "first bus above last, or a pool's edges" {
        means: "first bus above last, or an open pool off its edges",
        cause: "a pool that starts or ends between two edges, or buses the wrong way round",
        remedy: "1 MiB edges for memory, 4 KiB for I/O; high from 4 GiB to below 2^52",
        example: "printf 'host low F8000000+3K\\n' | cartsundial plan -",
    }
    /// Sheet: not own bus = primary < secondary <= subordinate.
    BusRange = 27, "not own bus = primary < secondary <= subordinate" {
        means: "sheet: not own bus = primary < secondary <= subordinate",
        cause: "a bridge whose bus registers were not written, 0 in all three, or were written for another place",
        remedy: "write the three bus registers of that bridge, 18h to 1Ah: its own bus, the bus below, the last bus below",
        example: "a bridge 00:1C.0 with primary 00, secondary 00, subordinate 00",
    }
    /// Sheet: ID twice.
    IdTwice = 28, "ID twice" {
        means: "sheet: an ID twice",
        cause: "two records with one ID, as after a sheet was put together from two captures",
        remedy: "keep one of the two records, or give the other its own bus, device and function",
        example: "03:00.0 in record 4 and in record 9",
    }
    /// Sheet: window nibbles.
    WindowNibbles = 29, "window nibbles" {
        means: "sheet: a window register's low nibble",
        cause: "a window register with a nibble of another type, as of a prefetchable window of 32 bits",
        remedy: "0 for low memory and I/O, 1 for high memory",
        example: "prefetchable base FFF0h at 24h: a 64-bit window has FFF1h",
    }
    /// First bus + bridges + spare buses > last bus.
    NoBuses = 30, "first bus + bridges + spare buses > last bus" {
        means: "first bus + bridges + spare buses > last bus",
        cause: "more bridges and spare buses than the host has bus numbers",
        remedy:
            "every type 1 function takes one number and one for each of its spare buses; give the host more buses, or keep fewer spares",
        example: "printf 'host buses 00-00\\nbridge 00.0\\n' | cartsundial plan -",
    }
    /// A low item ends past its pool.
    NoLowRoom = 31, "low item ends past its pool" {
        means: "an item of the root bus ends past the low memory pool",
        cause:
            "BARs below 4 GiB that are larger than the pool together, or room that is lost to alignment between small and large ones",
        remedy:
            "enlarge the pool, leave a card out, or put large BARs first; keep less spare memory, which makes the low windows larger",
        example: "printf 'host low F8000000+1M\\ncard 00.0 mem32 2M\\n' | cartsundial plan -",
    }
    /// A high item ends past its pool.
    NoHighRoom = 32, "high item ends past its pool" {
        means: "an item of the root bus ends past the high memory pool",
        cause: "64-bit prefetchable BARs that are larger than the pool together, or room that is lost to alignment, or a closed pool",
        remedy: "enlarge the pool, or open it where it is closed; leave a card out, or put large BARs first",
        example: "printf 'host high 4G+1G\\ncard 00.0 mem64p 2G\\n' | cartsundial plan -",
    }
    /// An I/O item ends past its pool.
    NoIoRoom = 33, "I/O item ends past its pool" {
        means: "an item of the root bus ends past the I/O pool",
        cause: "I/O BARs behind many bridges, each of which takes 4 KiB, or a closed pool",
        remedy:
            "enlarge the pool, or open it where it is closed; leave a card out: each bridge above an I/O BAR takes 4 KiB at least",
        example: "printf 'host\\ncard 00.0 io 4\\n' | cartsundial plan -",
    }
    /// No owner.
    NoOwner = 40, "no owner" {
        means: "no owner; asked for an ID, no function has it",
        cause:
            "nobody enabled holds the address: the command words are 0, a bridge above is disabled, or a card sent it to the host's \
            memory",
        remedy:
            "look at the command words first: bit 1 is memory, bit 0 I/O, and a disabled bridge hides all below it. For what cards \
            send ask for both ends",
        example: "printf 'host low F8000000+1M\\ncard 00.0 mem32 4K\\n' | cartsundial route - 00000001 0000010F F8080000",
    }
    /// Contested: two claims.
    Contested = 41, "contested" {
        means: "two claims on one bus",
        cause: "a sheet on which two BARs or windows overlap",
        remedy:
            "never over a planned sheet or an accepted one, nor from the host over a sound one: `cartsundial audit` says what is wrong \
            with any other",
        example: "a read of I/O port 6200 where a window has 6000-6FFF and a BAR beside it 6200-62FF",
    }
    /// Wrong configuration type.
    ConfigurationType = 42, "wrong configuration type" {
        means: "configuration type 0 for another bus than the root bus, or type 1 for the root bus",
        cause: "the header as it arrives at a card, which is type 0 there, judged as one that leaves the host",
        remedy: "from the host: type 0 for the root bus, type 1 for every other",
        example: "printf 'host low F8000000+1M\\ncard 00.0 mem32 4K\\n' | cartsundial route - 04000001 0000010F 01000000",
    }
    /// A message that only travels up: to the root complex, or gathered on its way there.
    Upward = 43, "a message that only travels up" {
        means: "a message that only travels up, routing 000 or 101",
        cause: "a card's message to the root complex, as PM_PME or an error, judged as one that leaves the host",
        remedy: "it has no owner below the host: it was sent by a card; ask for both ends",
        example: "printf 'host low F8000000+1M\\ncard 00.0 mem32 4K\\n' | cartsundial route - 30000000 01000018 00000000 00000000",
    }
    /// Card to card: the starting function, or a bridge that the request would go up through, is no bus master.
    NoBusMaster = 44, "no bus master: the starting function, or a bridge on the way up" {
        means: "a request from a card: it, or a bridge that it would go up through, is no bus master",
        cause: "command bit 2 is 0 on the card, or on a bridge above it",
        remedy: "set command bit 2 there; both ends tells which card sent it",
        example:
            "printf 'host low F8000000+1M\\ncard 00.0 mem32 4K, command 0002\\n' | cartsundial route - --from 00:00.0 40000001 \
            0000000F 00100000",
    }
    /// Card to card: the record is no type 0 function of the sheet, or the packet is no memory or I/O request.
    NoStart = 45, "no start: the record is no type 0 function, or the packet no memory or I/O request" {
        means:
            "from a card: the record is no type 0 function of the sheet, or the packet no memory or I/O request; of both ends a \
            bridge's own request, or a message 001 from a function",
        cause: "a bridge named as the sender, or a completion or message where a request is asked for",
        remedy: "name a card as the sender, and give a memory or I/O request; functions are numbered from 1, bridges among them",
        example:
            "printf 'host low F8000000+1M\\ncard 00.0 mem32 4K\\n' | cartsundial route - --from 00:00.0 0A000000 01000004 00000100",
    }
    /// Audit: the first record is not on the host's first bus, not exactly one bridge leads to a function's bus, or a
    /// bridge's buses lie outside the parent's or the host's or meet a sibling's.
    NotTree = 50, "first record's bus, the bridge to a bus, or a bridge's buses" {
        means:
            "the first record is not on the host's first bus; a function's bus is neither that nor the secondary bus of exactly one \
            bridge; a bridge's buses lie outside the parent's or the host's, or meet a sibling's",
        cause: "a host record of another root bus, or bus registers of two bridges that overlap",
        remedy: "compare the host record's first and last bus with the bridges' bus registers",
        example:
            "printf 'host low F8000000+1M\\ncard 00.0 mem32 4K\\n' > box.txt; printf 'host buses 10-1F\\n' | cartsundial audit box.txt \
            --host -",
    }
    /// Audit: a BAR or open window outside the window above, or the pool, of its kind; of [`sound`](crate::sound), of its
    /// address space.
    NotNested = 51, "a BAR or window outside the window or pool above" {
        means: "a BAR or an open window outside the window above, or on the root bus the pool, of its kind",
        cause: "prefetchable windows below 4 GiB, which much firmware leaves, or pools that are not those of the machine",
        remedy:
            "64-bit prefetchable BARs and prefetchable windows lie in the high pool, from 4 GiB on, all other memory in the low one. \
            Where firmware leaves prefetchable windows below 4 GiB, as SeaBIOS does, go by the second verdict, one owner for every \
            address",
        example:
            "printf 'host low F8000000+1M\\ncard 00.0 mem32 4K\\n' > box.txt; printf 'host low E0000000+1M\\n' | cartsundial audit \
            box.txt --host -",
    }
    /// Audit: two BARs or open windows of one space overlap on a bus.
    NotDisjoint = 52, "two BARs or windows overlap on a bus" {
        means: "two BARs or open windows of one space overlap on a bus, enabled or not",
        cause: "two functions that were given the same addresses, or a bridge's own BAR in its own window",
        remedy: "move one of the two: a planned board has no such pair",
        example: "a window 6000-6FFF, and beside it a BAR 6200-62FF",
    }
    /// Ledger: opened with anything but a non-posted request, or completed with anything but a completion.
    LedgerKind = 60, "no non-posted request to open, or no completion" {
        means: "opened with anything but a non-posted request, or completed with anything but a completion",
        cause: "a memory write or a message given as a request to open",
        remedy: "memory writes and messages are posted: nothing answers them",
        example: "a memory write that is to be opened",
    }
    /// Ledger: a request with this requester and tag is open already.
    AlreadyOpen = 61, "a request with this requester and tag is open" {
        means: "a request with this requester and tag is open",
        cause: "a tag used again before its answer, or an answer that the trace missed",
        remedy: "look for the answer to the first one: one of the two is missing in the trace, or the requester does not wait",
        example: "printf 'trace\\n01\\n000C 00000001 0000010F F8000000\\n000C 00000001 0000010F F8000004\\n' | cartsundial ledger -",
    }
    /// Ledger: 256 requests are open.
    LedgerFull = 62, "256 requests are open" {
        means: "256 requests are open",
        cause: "a trace in which answers were not captured",
        remedy: "capture the completions too, or follow the trace in parts",
        example: "257 reads in a row with different tags, and no completion",
    }
    /// Ledger: no request with this requester and tag is open.
    NotOpen = 63, "no request with this requester and tag is open" {
        means: "no request with this requester and tag is open",
        cause: "a completion that belongs to nothing: the request was not captured, or has been answered",
        remedy: "start the capture before the request",
        example: "printf 'trace\\n01\\n000C 4A000001 01000004 00000100\\n' | cartsundial ledger -",
    }
    /// Ledger: retry for a request that is not configuration; or a success with data for a write, without for a read, in the
    /// locked form for any but MRdLk, or not in it for MRdLk.
    Mismatch = 64, "a completion that the open request does not get" {
        means:
            "retry for a request that is not configuration; a success with data for a write, without for a read, in the locked form \
            for any but MRdLk, or not in it for MRdLk",
        cause: "a completion of another request: a tag that was used again, or a completer that answers in the wrong form",
        remedy: "compare the completion's kind and status with the request of the same requester and tag",
        example: "printf 'trace\\n01\\n000C 42000001 0000010F 00004000\\n000C 4A000001 01000004 00000100\\n' | cartsundial ledger -",
    }
    /// Ledger: a success with more dwords than are still to come.
    TooMuchData = 65, "more dwords than are still to come" {
        means: "a success with more dwords than are still to come",
        cause: "a completion of another request, or a completer that sends too much",
        remedy: "compare its Length with the request's, less what came before it",
        example: "printf 'trace\\n01\\n000C 00000001 0000010F F8000000\\n000C 4A000002 01000008 00000100\\n' | cartsundial ledger -",
    }
}

impl Refusal {
    /// Document 01's number.
    pub const fn number(self) -> u8 {
        self as u8
    }
}

/// `40`, as in the lines of a trace.
impl FromStr for Refusal {
    type Err = NoRefusal;

    fn from_str(number: &str) -> Result<Refusal, NoRefusal> {
        number.parse::<u32>().map_err(|_| NoRefusal)?.try_into()
    }
}

/// The number is no refusal's.
#[derive(Clone, Copy, Debug, PartialEq, Eq)]
pub struct NoRefusal;

impl fmt::Display for NoRefusal {
    fn fmt(&self, f: &mut fmt::Formatter<'_>) -> fmt::Result {
        f.write_str("not a refusal's number: those of document 01 are 1 to 65, with gaps, and 0 is accepted")
    }
}

impl Error for NoRefusal {}

/// `refused 40: no owner`.
impl fmt::Display for Refusal {
    fn fmt(&self, f: &mut fmt::Formatter<'_>) -> fmt::Result {
        write!(f, "refused {}: {}", self.number(), self.meaning())
    }
}

/// `Refusal(40: no owner)`: what a test that fails shows.
impl fmt::Debug for Refusal {
    fn fmt(&self, f: &mut fmt::Formatter<'_>) -> fmt::Result {
        write!(f, "Refusal({}: {})", self.number(), self.meaning())
    }
}

impl Error for Refusal {}
