//! The help texts.

pub const USAGE: &str = "\
usage: lumbryth import TRACE --out DIR [options]
       lumbryth frames TRACE [options]
       lumbryth records TRACE [options]
       lumbryth channels TRACE [options]
       lumbryth sizes TRACE [options]
       lumbryth check DIR [TRACE] [options]
       lumbryth COMMAND --help
";

pub const ALL: &str = "\
lumbryth: the MDR frames that a headset and a phone exchanged, from a recorded
Bluetooth trace (a btsnoop or pcap file of at most 1048576 bytes)

usage: lumbryth import TRACE --out DIR [options]   write each frame to a file
       lumbryth frames TRACE [options]             list the frames
       lumbryth records TRACE [options]            list the records that carry them
       lumbryth channels TRACE [options]           list the channels, and which have frames
       lumbryth sizes TRACE [options]              tell how much import needs and TRACE holds
       lumbryth check DIR [TRACE] [options]        check what import wrote
       lumbryth COMMAND --help                     more about a command
       lumbryth --version

TRACE is a btsnoop file, or a pcap file of link type 201, Bluetooth HCI H4 with
pseudo-header; its first bytes tell which. A pcapng file, which Wireshark saves by default,
has to be saved as pcap first: editcap -F pcap TRACE NEW

Exit status: 0 if it was done; 1 if it was refused or something could not be read or
written, with the reason on standard error; 2 if the command line is wrong.
";

pub const IMPORT: &str = "\
usage: lumbryth import TRACE --out DIR [options]

Writes each frame of TRACE to a file of its own in DIR, named by time, counter, direction,
type, sequence number and command, and says what was found. One more file,
fixtures.sha256, says where the set came from, what is in it and what is not, and why.
lumbryth check DIR checks the set by it; so does, in DIR, sha256sum -c fixtures.sha256.

  --out DIR        where the files go; made if it is not there
  --channel N      only RFCOMM channel N, 0 to 31; else the first that carries frames
  --tolerant       read a file that ends inside a record up to there, and say what was
                   kept and what is missing; else such a file is refused
  --check-fcs      pass over RFCOMM's UIH frames whose check byte, the FCS, is wrong, as
                   a noisy adapter gives them, and say how many; else it is not checked
  --link INDEX:HANDLE
                   only the frames of one connection, by the adapter's index and the
                   handle, such as 0:6; needs --dlci
  --dlci N         with --link: the DLCI whose frames are taken, 1 to 63
  --exclude NAME   leave out the frames of a command, such as POWER_GET_STATUS, or of
                   none, NO_COMMAND; may be given again for more
  --dry-run        write nothing: print the names of the files, and on standard error
                   what was found
  --               what follows is no option

A frame that does not unpack, or is left out, still counts, so that a gap in the counters
tells of it. No file is ever overwritten: if one is there that holds something else,
nothing is written. Nor is a set mixed with another: a directory with the set of another
trace, or of this one asked for otherwise, is refused. A set appears whole or not at all,
also where the program is interrupted.

Whether a file that ends at a record's end was longer once cannot be seen in it.

Other DLCIs that have frames are named, with the --channel that takes them. If nothing has
frames, lumbryth channels TRACE shows why.

Unfinished are bytes at the end that have no end marker: told by handle, direction
(received is from the headset), DLCI and how many are held. They make no file. Packets
that were not complete are not counted there.

A line accounts for every byte that was taken in on the DLCI: how many are in frames (also
in those that do not unpack), were dropped before a start marker or for want of one, were
cleared because over 65536 had no end marker, or are left without one at the end. Bytes that
a packet lacks, or that came with a wrong FCS under --check-fcs, were not taken in.

With --check-fcs, a UIH frame with a wrong FCS is passed over as if it had not come. Those
on the DLCI that is taken are counted, with information or without. Another DLCI may be
taken than without --check-fcs, or none; then it is said which is taken without. lumbryth
channels TRACE shows how many UIH frames on each DLCI have a wrong FCS. The FCS is of a
frame's first two bytes, and tells nothing of the information in it.

Losses that the file itself shows are told, a line each: what, how many, at which byte
first. They are of the whole file. Hints come after them and are less: by the frames alone,
what may be missing, such as the answer to a question. Where neither is told, something
may be missing all the same. What the recorder dropped, by its own count, only a btsnoop
file can tell.

A trace of the Linux monitor may have more than one Bluetooth adapter. Then what is
unfinished, and a loss that is an adapter's, is told with the adapter. The frames of all
adapters come in one list, in order of completion, with one counter, and names do not tell
the adapters apart; hints go by that list, and may take one adapter's frame for another's.
lumbryth channels TRACE shows how many frames each adapter has.

Where two headsets share a desk, --link and --dlci take the frames of one of them alone. A
link is one connection, an adapter's index and a handle; lumbryth channels TRACE shows what
to give for each link and DLCI. Where the frames that are taken without --link are of several
links, that is said, with an example. What is taken depends on that link's own packets alone,
which is proved: no other link adds a frame, takes one away or changes one. The file is read
by the strict rule, the FCS is not checked, and a DLCI is taken, not a channel, so that
--tolerant, --check-fcs and --channel do not go with --link. Nothing has to unpack: where the
link has no frame, or none that unpacks, that is said and not refused, and the set has no
fixture, only its list. The list says that the set is of one link, and of which. Hints go by
that link's frames, losses are of the whole file. Of what is unfinished, the program tells
how many frames are begun, and not how many bytes.
";

pub const FRAMES: &str = "\
usage: lumbryth frames TRACE [options]

Lists the frames of TRACE: command, direction (rx is from the headset), counter, type,
sequence number, length on the wire, command and type as numbers, time (UTC); or why the
frame does not unpack. Before them stands where every byte of the DLCI went, as import
tells it; what is unfinished, bytes at the end that have no end marker: handle, direction
(received is from the headset), DLCI and how many are held; the losses and hints that import
tells; and other DLCIs that have frames, with the --channel that takes them. A file that ends
inside a record is listed up to there.

If the trace has more than one adapter, what is unfinished, and a loss that is an adapter's,
is told with the adapter. The frames of all adapters come in one list, in order of
completion, which does not tell the adapters apart.

With --link and --dlci only the frames of one link are listed: of one connection, which is an
adapter's index and a handle. lumbryth channels TRACE shows what to give for each link and
DLCI. No other link changes that list, which may be empty. The FCS is not checked for it, and
a file that ends inside a record is refused.

  --channel N      only RFCOMM channel N, 0 to 31; else the first that carries frames
  --check-fcs      pass over RFCOMM's UIH frames whose check byte, the FCS, is wrong, and
                   say how many there are on the DLCI; else it is not checked
  --link INDEX:HANDLE
                   only the frames of one connection, by the adapter's index and the
                   handle, such as 0:6; needs --dlci
  --dlci N         with --link: the DLCI whose frames are listed, 1 to 63
  --json           an object a line: import, unfinished, hint, frame, then other, for each
                   other DLCI that has frames; with --link link, hint, frame
  --               what follows is no option
";

pub const RECORDS: &str = "\
usage: lumbryth records TRACE [options]

Lists the records of TRACE: what the packet is, direction (rx is from the headset or the
controller), number, length of the packet (in pcap with the 4 bytes of its direction), the
byte that the record starts at, time (UTC). Before them stand the losses that the file
shows. A file that ends inside a record is listed up to there. If the trace has more than
one adapter, each packet is told with its adapter.

  --json           an object a line: file, then record
  --               what follows is no option
";

pub const CHANNELS: &str = "\
usage: lumbryth channels TRACE [options]

Lists what TRACE has inside, and what import makes of it, a line for each fact. First each
handle, with packets and PDUs each way (rx is from the headset). Under it its channels: CID,
direction, what it is, PSM if a request tells it, PDUs. Then each DLCI, in the order in
which import looks at them: its RFCOMM channel, frames (spans that unpack), spans (bytes
from 3E through 3C), pieces, and how many are unfinished; where every byte of its pieces
went, as import tells it; how import takes it; for each handle with spans on it, the --link
and --dlci by which import and frames take it alone; how many UIH frames on it have a wrong
FCS, if any, which import --check-fcs passes over; and why spans do not unpack. If import
takes none, a line at the end says why. A file that ends inside a record is not taken by
--link; if a DLCI has spans, the last line says so.

If the trace has more than one adapter, each handle is told with its adapter, since two
adapters may use the same handle. What each DLCI has is also told for each adapter and handle,
if the trace has several adapters or the DLCI several handles.

A channel is one of these:
  admitted       signals say that it is RFCOMM, PSM 0x0003: it is tried
  guessed        nothing names it, and its CID is 0x0040 or more: it is tried
  named          signals name it, and not as RFCOMM: it is passed over
  signals        CID 0x0001, where channels are named
  passed over    any other

A file that ends inside a record is looked at up to there. What is shown here is the
program's own reading and is not proved; what import gives is proved.

  --json           an object a line: file; then handle, channel; then dlci, share (what
                   each adapter and handle has of it), refused
  --               what follows is no option
";

pub const SIZES: &str = "\
usage: lumbryth sizes TRACE [options]

Tells, before anything is imported, how many bytes the list of spans takes that import makes
of TRACE, and how much TRACE holds: records, PDUs that were put together from their packets,
and pieces of information, a line for each. So it says how much output the library needs. A
trace that import refuses is refused in the same words. The numbers are proved.

  --channel N      the list of RFCOMM channel N, 0 to 31; else of the first that carries
                   frames
  --tolerant       read a file that ends inside a record up to there; else such a file is
                   refused
  --check-fcs      pass over RFCOMM's UIH frames whose check byte, the FCS, is wrong; else
                   it is not checked
  --json           an object: sizes
  --               what follows is no option

The list has 14 bytes for each span, and the span's: from 3E through 3C, also where that
does not unpack. Every whole record is counted, and every PDU that is whole, of each
adapter, handle and channel. A piece is the information of a UIH frame that is taken, if
it has any; those of every DLCI but 0 are counted, also of DLCIs that import does not
take. Beside its output the library needs work, 8 times the bytes of the file. Of one
link's list the program tells no sizes.
";

pub const CHECK: &str = "\
usage: lumbryth check DIR [TRACE] [options]

Checks a set of fixtures that import wrote to DIR, by its list, fixtures.sha256: names each
fixture that is missing, changed or unreadable, and each that is extra. With TRACE, imports that again
as the set was asked for, and names in what it differs. Files that are no fixtures are
passed over. Where the bytes went and the losses that the list tells are told again, and if
import was asked to check the FCS, how many UIH frames it passed over. If the set is of one
link alone, its adapter, handle and DLCI are told, and TRACE is imported so.

  --json           an object a line: losses; link, if the set is of one; fcs; bytes; each
                   fixture, ok, missing, changed, unreadable or extra; and what is wrong
                   with the list, or differs from the trace
  --               what follows is no option

Exit status: 0 if nothing is wrong; 1 if something is, or cannot be read; 2 if the command
line is wrong.
";
