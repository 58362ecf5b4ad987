"""What the descriptions of the bench runs are made of: records of a script, tokens, constants, the two maps, lines and runs."""

RUNS = []


def number(value, size):
    return value.to_bytes(size, "little")


def words(values):
    return b"".join(number(v, 2) for v in values)


# Records.
def read(address):
    return b"\x01" + number(address, 4)


def write(address, data):
    return b"\x02" + number(address, 4) + number(data, 8)


def front(address):
    return b"\x03" + number(address, 4)


def digest(address):
    return b"\x04" + number(address, 4)


def lock(partition):
    return b"\x05" + number(partition, 1)


def move(target, token=0):
    return b"\x06" + number(target, 1) + number(token, 16)


UP = b"\x07"
# The example of document 01.
EXAMPLE = UP + write(0, 0x12345678) + read(0) + read(0x328)

# The raw tokens, and what is stored for each: make_runs.py compares with the independent program.
RAW_TOKEN = 0x0F1E2D3C4B5A69788796A5B4C3D2E1F0
TEST_UNLOCK = 0x11112222333344445555666677778888
TEST_EXIT = 0x9999AAAABBBBCCCCDDDDEEEEFFFF0001
RMA_TOKEN = 0x0123456789ABCDEFFEDCBA9876543210
HASHES = {
    RAW_TOKEN: 0x113C571A187F4D85C7A21847D49B04B4,
    TEST_UNLOCK: 0x463E743F7551E4E809759845ED22B35B,
    TEST_EXIT: 0x4F98A17C9296600CBEA7259812B312CC,
    RMA_TOKEN: 0xD4FDCFBD16DB354DF2DA99B4780F89B2,
    0: 0x3852305BAECF5FF1D5C1D25F6DB9058D,
}
# What a blank block of SECRET0 reads with the constants below: zero, unscrambled.
BLANK_READS = 0xEC66DF3A5DA109C0


def with_raw(values, stored):
    """Constants with this stored for the RAW token."""
    return values[:124] + [(stored >> (16 * i)) % 65536 for i in range(8)]


def with_words(values, at, held):
    return values[:at] + held + values[at + len(held) :]


def with_word(values, at, value):
    return with_words(values, at, [value])


def constants():
    """Keys, start value and final key by a simple rule; pairs that are valid; the hash of the RAW token."""
    keys = [(0x1357 * (i + 1)) % 65536 for i in range(36)]
    c = [0x0101 + 2 * i for i in range(24)]
    d = [v | 0x8000 for v in c]
    a = [0x0203 + 4 * i for i in range(20)]
    b = [v | 0x5000 for v in a]
    return with_raw(keys + c + d + a + b, HASHES[RAW_TOKEN])


GOOD = constants()


def state(number_of_state):
    """The words of a state."""
    has = {
        16: set(range(16)),
        17: set(range(15)) | {16},
        18: set(range(15)) | {17},
        19: set(range(17)) | {18},
        20: set(range(20)),
    }.get(number_of_state, set(range(number_of_state)))
    return [0] * 20 if number_of_state == 0 else [GOOD[104 + i] if i in has else GOOD[84 + i] for i in range(20)]


def plain_lines(*answers):
    """Lines from (kind, code, value). A value of None is the independent program's."""
    return "".join("%02x %02x %s\n" % (kind, code, "?" * 16 if value is None else "%016x" % value) for kind, code, value in answers).encode()


def lines(*answers):
    """The same, and the end line."""
    return plain_lines(*answers) + b"end %d\n" % len(answers)


class Partition:
    def __init__(self, at, name, start, digest_at, end):
        self.number, self.name, self.start, self.digest, self.end = at, name, start, digest_at, end

    def data(self):
        """The first address of each granule of the data."""
        return range(self.start, self.digest, 8 if self.name.startswith("SECRET") else 4)


class Map:
    """A map. The names of its runs begin with `prefix`, and the lines on what they show with `title`; rows are name, start, digest and end."""

    def __init__(self, prefix, title, rows):
        self.prefix, self.title = prefix, title
        self.partitions = [Partition(i, *row) for i, row in enumerate(rows)]
        self.limit = self.partitions[-1].end
        self.blank = [0] * (self.limit // 2)
        self.fronts = [p for p in self.partitions if p.name.startswith("HW_CFG")]
        self.secrets = [p for p in self.partitions if p.name.startswith("SECRET")]
        self.hardware = self.fronts + self.secrets
        self.life_cycle = self.partitions[-1]
        self.software = [p for p in self.partitions if p not in self.hardware and p is not self.life_cycle]
        self.edges = sorted({a for p in self.partitions for a in (p.start, p.digest, p.end)})

    def life(self, count, state_words):
        """An image with this count and these state words, blank elsewhere."""
        counter = [GOOD[60 + i] if i < count else GOOD[36 + i] for i in range(24)] if count else [0] * 24
        return with_words(self.blank, self.life_cycle.start // 2, counter + state_words)

    def tokens(self):
        """Writes of the hashes of three tokens to their items."""
        secret0, _, secret2 = self.secrets
        places = ((secret0.start, TEST_UNLOCK), (secret0.start + 16, TEST_EXIT), (secret2.start, RMA_TOKEN))
        return b"".join(write(a, HASHES[token] % 2**64) + write(a + 8, HASHES[token] >> 64) for a, token in places)

    def run(self, name, about, script, expected=None, image=..., consts=GOOD, last=b""):
        """A run; image and consts are words, bytes, or None for no file, and the image is blank if none is given. With no expected lines the
        independent program is asked; the lines before its end line have to end with `last`, which the paper fixes."""
        as_bytes = lambda x: x if x is None or isinstance(x, bytes) else words(x)
        RUNS.append((self.prefix + name, self.title + about, script, as_bytes(self.blank if image is ... else image), as_bytes(consts), expected, last))


def adjoining(sizes):
    """Rows of partitions from address 0 on, each with a digest in its last 8 bytes but for LIFE_CYCLE."""
    start = 0
    for name, size in sizes:
        yield name, start, start + size - (0 if name == "LIFE_CYCLE" else 8), start + size
        start += size


# Document 01's table, and document 02's sizes.
MAP1 = Map("", "", (
    ("CREATOR_SW_CFG", 0x000, 0x0F8, 0x100),
    ("OWNER_SW_CFG", 0x100, 0x1F8, 0x200),
    ("HW_CFG", 0x200, 0x248, 0x250),
    ("SECRET0", 0x250, 0x270, 0x278),
    ("SECRET1", 0x278, 0x2C8, 0x2D0),
    ("SECRET2", 0x2D0, 0x320, 0x328),
    ("LIFE_CYCLE", 0x328, 0x380, 0x380),
))
MAP2 = Map("map2_", "Map 2: ", adjoining((
    ("VENDOR_TEST", 64),
    ("CREATOR_SW_CFG", 256),
    ("OWNER_SW_CFG", 256),
    ("ROT_CREATOR_AUTH_CODESIGN", 472),
    ("ROT_CREATOR_AUTH_STATE", 40),
    ("HW_CFG0", 72),
    ("HW_CFG1", 16),
    ("SECRET0", 40),
    ("SECRET1", 88),
    ("SECRET2", 88),
    ("LIFE_CYCLE", 88),
)))
