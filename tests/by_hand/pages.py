"""Pages of a relation, the rule that rewrites them, the texts of page_tool, the log of a rewrite and
its redo.

A second implementation, for comparison: it follows the chapter "Database Page Layout" of PostgreSQL's
documentation, docs/page_tool.1.md and docs/LOG_FORMAT.md, and shares nothing with the program's sources.
"""

import enum
import os
import shutil
import struct
import subprocess
import sys
from typing import NamedTuple

PAGE_SIZE = 8192
PAGE_HEADER = struct.Struct("<IIHHHHHHI")
HEADER_SIZE = PAGE_HEADER.size
POINTER_SIZE = 4

# PostgreSQL's flags of a page.
HAS_FREE_LINES = 1
PAGE_FULL = 2
ALL_VISIBLE = 4

NEW_PAGE = bytes(PAGE_SIZE)

LOG_MAGIC = b"PGBUFLOG"
LOG_HEAD_SIZE = 16
RECORD_HEAD = struct.Struct("<IIIIIIQ")
RECORD_SIZE = RECORD_HEAD.size + PAGE_SIZE
# The kind of a record of a page.
IMAGE_KIND = 1
MAIN_FORK, LAST_FORK = 0, 3
LAST_BLOCK = 0xFFFFFFFE
# A log ends at this position at the latest.
LAST_POSITION = 1 << 62

# The exit statuses of page_tool that the scripts speak of.
DONE, MISSING, WRITE_FAULT, OUT_OF_MEMORY, POSITION_LIMIT, BAD_LOG = 0, 3, 5, 8, 9, 10


class State(enum.IntEnum):
    UNUSED = 0
    NORMAL = 1
    REDIRECT = 2
    DEAD = 3


class Kind(enum.Enum):
    NEW = "new"
    INVALID = "invalid"
    USED = "used"


class Outcome(enum.Enum):
    CHANGED = "changed"
    SAME = "same"
    SKIPPED = "skipped"


class Header(NamedTuple):
    lsn: int
    checksum: int
    flags: int
    lower: int
    upper: int
    special: int
    pagesize_version: int
    prune_xid: int

    def to_bytes(self):
        return PAGE_HEADER.pack(self.lsn >> 32, self.lsn & 0xFFFFFFFF, *self[1:])


class LinePointer(NamedTuple):
    offset: int
    state: int
    length: int

    def to_bytes(self):
        return struct.pack("<I", self.offset | self.state << 15 | self.length << 17)


class Rewritten(NamedTuple):
    outcome: Outcome
    # The page after it, with the log position of the page before it.
    page: bytes
    # How many line pointers were dead.
    dead: int


def header_of(page):
    high, low, *rest = PAGE_HEADER.unpack_from(page)
    return Header(high << 32 | low, *rest)


def with_lsn(page, lsn):
    return struct.pack("<II", lsn >> 32, lsn & 0xFFFFFFFF) + page[8:]


def line_pointers(page):
    """The line pointers of a sound page, the first one being number 1."""
    lower = header_of(page).lower
    count = max(0, (lower - HEADER_SIZE) // POINTER_SIZE)
    words = struct.unpack_from(f"<{count}I", page, HEADER_SIZE)
    return [LinePointer(it & 0x7FFF, it >> 15 & 3, it >> 17) for it in words]


def is_sound(page):
    head = header_of(page)
    return page == NEW_PAGE or (
        head.upper != 0
        and head.flags & ~(HAS_FREE_LINES | PAGE_FULL | ALL_VISIBLE) == 0
        and head.lower <= head.upper <= head.special <= PAGE_SIZE
        and head.special % 8 == 0
    )


def kind_of(page):
    if page == NEW_PAGE:
        return Kind.NEW
    return Kind.USED if is_sound(page) else Kind.INVALID


def rounded_up(number):
    return (number + 7) // 8 * 8


def is_skipped(page):
    """Whether a rewrite leaves a used page alone."""
    head = header_of(page)
    if head.checksum != 0 or head.special != PAGE_SIZE or head.lower < HEADER_SIZE:
        return True
    normal = [it for it in line_pointers(page) if it.state == State.NORMAL]
    if any(it.offset < head.upper or it.offset + it.length > head.special for it in normal):
        return True
    return sum(rounded_up(it.length) for it in normal) > head.special - head.lower


def rewritten(page):
    """What a rewrite makes of a used page."""
    if is_skipped(page):
        return Rewritten(Outcome.SKIPPED, page, 0)
    head = header_of(page)
    pointers = line_pointers(page)
    dead = sum(it.state == State.DEAD for it in pointers)
    gone = (State.DEAD, State.UNUSED)
    kept = [LinePointer(0, 0, 0) if it.state in gone else it for it in pointers]
    while kept and kept[-1].state == State.UNUSED:
        kept.pop()

    result = bytearray(page)
    place = head.special
    normal = [at for at, it in enumerate(kept) if it.state == State.NORMAL]
    for at in sorted(normal, key=lambda at: (-kept[at].offset, at)):
        offset, state, length = kept[at]
        place -= rounded_up(length)
        item = page[offset : offset + length]
        result[place : place + rounded_up(length)] = item.ljust(rounded_up(length), b"\0")
        kept[at] = LinePointer(place, state, length)

    array = b"".join(it.to_bytes() for it in kept)
    lower = HEADER_SIZE + len(array)
    result[HEADER_SIZE:place] = array.ljust(place - HEADER_SIZE, b"\0")
    flags = head.flags & ~HAS_FREE_LINES
    if any(it.state == State.UNUSED for it in kept):
        flags |= HAS_FREE_LINES
    result[:HEADER_SIZE] = head._replace(flags=flags, lower=lower, upper=place).to_bytes()
    result = bytes(result)
    return Rewritten(Outcome.SAME if result == page else Outcome.CHANGED, result, dead)


def position_text(lsn):
    return f"{lsn >> 32:X}/{lsn & 0xFFFFFFFF:X}"


def counted_states(pointers):
    return [sum(it.state == state for it in pointers) for state in (1, 2, 3, 0)]


def scan_line(block, page):
    kind = kind_of(page)
    if kind is not Kind.USED:
        return f"{block} {kind.value}\n"
    head = header_of(page)
    pointers = line_pointers(page)
    normal, redirect, dead, unused = counted_states(pointers)
    return (
        f"{block} lsn {position_text(head.lsn)} flags {head.flags} lower {head.lower}"
        f" upper {head.upper} special {head.special} items {len(pointers)} normal {normal}"
        f" redirect {redirect} dead {dead} unused {unused}\n"
    )


def item_line(page, number, pointer):
    offset, state, length = pointer
    if state == State.UNUSED:
        return f"  {number} unused\n"
    if state == State.REDIRECT:
        return f"  {number} redirect {offset}\n"
    if state == State.DEAD:
        return f"  {number} dead {offset} {length}\n"
    if offset + length > PAGE_SIZE:
        item = "outside"
    elif length == 0:
        item = "-"
    else:
        item = page[offset : offset + length].hex()
    return f"  {number} normal {offset} {length} {item}\n"


def scan_totals(pages):
    kinds = [kind_of(it) for it in pages]
    states = [0, 0, 0, 0]
    for page, kind in zip(pages, kinds):
        if kind is Kind.USED:
            states = [a + b for a, b in zip(states, counted_states(line_pointers(page)))]
    normal, redirect, dead, unused = states
    return (
        f"blocks {len(pages)} used {kinds.count(Kind.USED)} new {kinds.count(Kind.NEW)}"
        f" invalid {kinds.count(Kind.INVALID)} normal {normal} redirect {redirect}"
        f" dead {dead} unused {unused}\n"
    )


def scan_text(pages):
    lines = [scan_line(block, page) for block, page in enumerate(pages)]
    return "".join(lines) + scan_totals(pages)


def dump_text(pages):
    lines = []
    for block, page in enumerate(pages):
        lines.append(scan_line(block, page))
        if kind_of(page) is Kind.USED:
            for number, pointer in enumerate(line_pointers(page), 1):
                lines.append(item_line(page, number, pointer))
    return "".join(lines) + scan_totals(pages)


class Record(NamedTuple):
    block: int
    start: int
    image: bytes
    fork: int = MAIN_FORK

    @property
    def end(self):
        return self.start + RECORD_SIZE


class BadLog(Exception):
    """A file of 16 bytes or more that doesn't begin as a log does."""


class Log(NamedTuple):
    base: int
    records: list

    @property
    def end(self):
        return self.base + RECORD_SIZE * len(self.records)


# A log without a head.
EMPTY_LOG = Log(0, [])


def log_head(base):
    return LOG_MAGIC + struct.pack("<Q", base)


def record_bytes(relation, block, start, page, fork=MAIN_FORK):
    """The bytes of a record of a page, at the end of which the page then is."""
    head = RECORD_HEAD.pack(IMAGE_KIND, 0, 0, relation, fork, block, start)
    return head + with_lsn(page, start + RECORD_SIZE)


def record_at(start, relation, data):
    """The record that these bytes are at a position, if it is a well-formed one of the relation."""
    if len(data) < RECORD_SIZE:
        return None
    kind, tablespace, database, number, fork, block, position = RECORD_HEAD.unpack_from(data)
    record = Record(block, start, data[RECORD_HEAD.size :], fork)
    is_well_formed = (
        kind == IMAGE_KIND
        and (tablespace, database, number) == (0, 0, relation)
        and fork <= LAST_FORK
        and block <= LAST_BLOCK
        and position == start
        and record.end <= LAST_POSITION
        and kind_of(record.image) is Kind.USED
        and header_of(record.image).lsn == record.end
    )
    return record if is_well_formed else None


def read_log(relation, data):
    """The log that a file's bytes are, for the relation whose files have this number.

    Its records are those before the first that isn't well formed. The format is that of
    docs/LOG_FORMAT.md. A file that doesn't begin as a log does is a BadLog.
    """
    if len(data) < LOG_HEAD_SIZE:
        return EMPTY_LOG
    base = struct.unpack_from("<Q", data, len(LOG_MAGIC))[0]
    if not data.startswith(LOG_MAGIC) or base % 8 != 0 or base > LAST_POSITION:
        raise BadLog(f"the log's head is {data[:LOG_HEAD_SIZE].hex()}")
    log = Log(base, [])
    for at in range(LOG_HEAD_SIZE, len(data), RECORD_SIZE):
        record = record_at(log.end, relation, data[at : at + RECORD_SIZE])
        if record is None:
            break
        log.records.append(record)
    return log


def recover_text(log):
    """What page_tool prints after the recovery by a log."""
    blocks = {(it.fork, it.block) for it in log.records}
    return (
        f"log {position_text(log.base)} {position_text(log.end)} entries {len(log.records)}\n"
        f"blocks {len(blocks)} redone\n"
    )


def redone(pages, log):
    """The pages of a relation after redo of a log whose records are of its main fork."""
    result = list(pages)
    for record in log.records:
        result += [NEW_PAGE] * (record.block + 1 - len(result))
        result[record.block] = record.image
    return result


class Damaged(Exception):
    """Files that no rewrite and no recovery leaves, whole or killed."""


class Rewrite:
    """The rewrite of a relation with these pages, whose files have this number."""

    def __init__(self, relation, pages):
        self.relation = relation
        self.pages = pages
        self.kinds = [kind_of(it) for it in pages]
        self.results = [
            rewritten(page) if kind is Kind.USED else None
            for page, kind in zip(pages, self.kinds)
        ]
        lsns = [header_of(it).lsn for it in pages if is_sound(it)]
        self.largest = max(lsns, default=0)
        self.base = rounded_up(self.largest)
        self.is_past_limit = self.base + RECORD_SIZE * len(pages) > LAST_POSITION

    def blocks(self, outcome):
        """The blocks of which this becomes, in order."""
        found = enumerate(self.results)
        return [block for block, it in found if it and it.outcome is outcome]

    @property
    def changed(self):
        return self.blocks(Outcome.CHANGED)

    @property
    def end(self):
        return self.base + RECORD_SIZE * len(self.changed)

    def text(self):
        dead = sum(self.results[block].dead for block in self.changed)
        return (
            f"blocks {len(self.pages)} changed {len(self.changed)}"
            f" same {len(self.blocks(Outcome.SAME))} skipped {len(self.blocks(Outcome.SKIPPED))}"
            f" new {self.kinds.count(Kind.NEW)} invalid {self.kinds.count(Kind.INVALID)}"
            f" dead {dead}\nlog {position_text(self.base)} {position_text(self.end)}\n"
        )

    def limit_line(self):
        """The line of the error stream if the log could pass the last position."""
        largest = position_text(self.largest)
        return f"page_tool: log position limit: page {largest}, blocks {len(self.pages)}\n"

    def log_head(self):
        return log_head(self.base)

    def record_bytes(self, block, start):
        return record_bytes(self.relation, block, start, self.results[block].page)

    def records(self, log):
        """The whole records of a log by their blocks, if it is a prefix of a log of this rewrite.

        Such a log has the head, and then the records of changed blocks in any order, each once and
        each at the end of the one before, the last one maybe cut short. Anything else is Damaged.
        """
        head = self.log_head()
        if not head.startswith(log[:LOG_HEAD_SIZE]):
            raise Damaged(f"the log's head is {log[:LOG_HEAD_SIZE].hex()}")
        records = {}
        start = self.base
        left = set(self.changed)
        for at in range(LOG_HEAD_SIZE, len(log), RECORD_SIZE):
            found = log[at : at + RECORD_SIZE]
            block = self.block_of(found, start, left)
            if block is None:
                raise Damaged(f"the log from byte {at} on is no record of a block that is left")
            if len(found) == RECORD_SIZE:
                records[block] = Record(block, start, found[RECORD_HEAD.size :])
                left.remove(block)
                start += RECORD_SIZE
        return records

    def block_of(self, found, start, left):
        """A block among those left whose record, begun here, begins with what was found."""
        if len(found) >= 24:
            block = struct.unpack_from("<I", found, 20)[0]
            among = [block] if block in left else []
        else:
            among = left
        for block in among:
            if self.record_bytes(block, start).startswith(found):
                return block
        return None

    def check_done(self, pages, log):
        """Raises Damaged if these aren't the pages and the log of a rewrite that ended well."""
        if len(log) != LOG_HEAD_SIZE + RECORD_SIZE * len(self.changed):
            raise Damaged(f"the log has {len(log)} bytes")
        records = self.records(log)
        if len(pages) != len(self.pages):
            raise Damaged(f"the relation has {len(pages)} blocks")
        for block, (page, before) in enumerate(zip(pages, self.pages)):
            wanted = records[block].image if block in records else before
            if page != wanted:
                raise Damaged(f"block {block} isn't the page that the rewrite makes of it")


def segments(path):
    """The paths of a relation's files that are there."""
    found = [path] if os.path.exists(path) else []
    while found and os.path.exists(f"{path}.{len(found)}"):
        found.append(f"{path}.{len(found)}")
    return found


def split_pages(data):
    """The whole pages of a file's bytes."""
    whole = len(data) // PAGE_SIZE
    return [data[at * PAGE_SIZE : (at + 1) * PAGE_SIZE] for at in range(whole)]


def read_file(path):
    with open(path, "rb") as file:
        return file.read()


def write_file(path, data):
    with open(path, "wb") as file:
        file.write(data)


def read_relation(path, segment_blocks=131072):
    """The pages of a relation: its segments up to the first one that isn't full."""
    pages = []
    for segment in segments(path):
        found = split_pages(read_file(segment))[:segment_blocks]
        pages += found
        if len(found) < segment_blocks:
            break
    return pages


def write_relation(path, pages, segment_blocks=131072):
    """Writes the pages as a relation's segments, in the place of those that are there."""
    for segment in segments(path):
        os.remove(segment)
    for number, at in enumerate(range(0, max(len(pages), 1), segment_blocks)):
        segment = path if number == 0 else f"{path}.{number}"
        write_file(segment, b"".join(pages[at : at + segment_blocks]))


def repository():
    here = os.path.dirname(os.path.realpath(__file__))
    return os.path.dirname(os.path.dirname(here))


def built_program(given=None):
    """The path of the program: the one that was given, or the one that this repository builds."""
    if given is not None:
        found = shutil.which(given) or given
        if not os.access(found, os.X_OK):
            sys.exit(f"{given} is no program")
        return os.path.realpath(found)
    top = repository()
    # The script at the top builds the program if it isn't built yet, and says so on standard error.
    sample = f"{top}/crates/page_tool/data/base/5/16384"
    tried = subprocess.run([f"{top}/page_tool", "scan", sample], stdout=subprocess.DEVNULL)
    if tried.returncode != DONE:
        sys.exit(f"{top}/page_tool does not run")
    return f"{top}/crates/page_tool/out/page_tool"


def add_program(parser):
    parser.add_argument(
        "--program",
        metavar="PROGRAM",
        help="the program page_tool (default: the one of this repository, which is built if it"
        " isn't built yet)",
    )
