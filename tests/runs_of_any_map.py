"""Bench runs that are made on each map: the 14 cases of document 01, edges, a full provisioning, a life cycle from RAW to SCRAP, power-ups that fail."""
from run_terms import (EXAMPLE, GOOD, MAP1, MAP2, RAW_TOKEN, RMA_TOKEN, TEST_EXIT, TEST_UNLOCK, UP, digest, front, lines, lock, move, plain_lines, read, state,
                       with_word, write)


def cases(m):
    """The 14 cases: what they say of address 0 and of partition 0 is said of the map's first partition."""
    first, device, life = m.partitions[0], m.fronts[0].start, m.life_cycle
    yield "blank power-up", UP, lines((7, 0, 0)), m.blank
    yield ("blank reads at both ends of direct access", UP + read(life.start - 1) + read(life.start) + read(m.limit - 1) + read(m.limit),
           lines((7, 0, 0), (1, 0, 0), (1, 5, 0), (1, 5, 0), (1, 5, 0)), m.blank)
    yield "a write at 3 acts at 0", UP + write(3, 0x55) + read(0), lines((7, 0, 0), (2, 0, 0), (1, 0, 0x55)), m.blank
    yield ("0x0F, then 0xF0, then 0xFF at 0", UP + write(0, 0x0F) + write(0, 0xF0) + write(0, 0xFF),
           lines((7, 0, 0), (2, 0, 0), (2, 4, 0), (2, 4, 0)), m.blank)
    yield "a write at a hardware digest", UP + write(m.fronts[0].digest, 1), lines((7, 0, 0), (2, 5, 0)), m.blank
    yield ("digest commands at no start of %d to %d" % (m.hardware[0].number, m.hardware[-1].number), UP + digest(0x000) + digest(device + 4),
           lines((7, 0, 0), (4, 5, 0), (4, 5, 0)), m.blank)
    yield ("a digest, written in one piece, locks from the next power-up",
           UP + write(first.digest, 1) + read(first.digest + 4) + write(0x004, 1) + UP + write(0x004, 3),
           lines((7, 0, 0), (2, 0, 0), (1, 0, 1), (2, 0, 0), (7, 0, 0), (2, 5, 0)), m.blank)
    yield ("a read lock hides data and not the digest", UP + lock(0) + read(0x000) + read(first.digest),
           lines((7, 0, 0), (5, 0, 0), (1, 5, 0), (1, 0, 0)), m.blank)
    yield ("RAW to state 1, then only a power-up",
           UP + move(1, RAW_TOKEN) + read(0) + write(0, 0) + front(device) + digest(device) + lock(0) + move(1, RAW_TOKEN) + UP,
           lines((7, 0, 0), (6, 0, 0), (1, 7, 0), (2, 7, 0), (3, 7, 0), (4, 7, 0), (5, 7, 0), (6, 7, 0), (7, 0, 257)), m.blank)
    yield "a wrong token", UP + move(1, RAW_TOKEN ^ 1) + UP, lines((7, 0, 0), (6, 0x23, 0), (7, 0, 256)), m.blank
    yield "RAW to DEV", UP + move(16, RAW_TOKEN) + UP, lines((7, 0, 0), (6, 0x21, 0), (7, 0, 256)), m.blank
    yield "24 strokes used", UP + move(20) + UP, lines((7, 0, 6144), (6, 0x20, 0), (7, 0, 6144)), m.life(24, state(0))
    yield ("a token's partition that is open", UP + move(1, RAW_TOKEN) + UP + move(2) + UP + move(3) + UP,
           lines((7, 0, 0), (6, 0, 0), (7, 0, 257), (6, 0, 0), (7, 0, 514), (6, 0x22, 0), (7, 0, 770)), m.blank)
    yield ("DEVICE_ID: the front read is old until a power-up", UP + write(device, 0x99) + front(device) + read(device) + UP + front(device) + read(device),
           lines((7, 0, 0), (2, 0, 0), (3, 0, 0), (1, 0, 0x99), (7, 0, 0), (3, 0, 0x99), (1, 0, 0x99)), m.blank)


def all_cases(m):
    for i, (about, script, expected, image) in enumerate(cases(m), 1):
        m.run("case_%02d" % i, "case %d: %s" % (i, about), script, expected, image)


def edges(m):
    """Commands at both sides of every edge, and digests again."""
    m.run("addresses_at_edges", "reads, writes and front reads at both sides of every edge of the map",
          UP + b"".join(read(a + d) + front(a + d) + write(a + d, 1) for a in m.edges for d in (-4, -1, 0, 3) if a + d >= 0) + read(0xFFFFFFFF))
    places = [a + d for a in m.edges for d in (-4, 0, 1, 4) if a + d >= 0] + [0xFFFFFFFF]
    starts = [p.start for p in m.hardware]
    m.run("digests_at_edges", "digest commands at both sides of every edge of the map: those at the start of a partition with a hardware digest are done",
          UP + b"".join(digest(a) for a in places) + UP, lines((7, 0, 0), *[(4, 0, None) if a in starts else (4, 5, 0) for a in places], (7, 0, 0)))
    m.run("hardware_digest_reads",
          "a read anywhere in a hardware digest answers its 64 bits, beside its data and the next partition's; a write there is refused",
          UP + b"".join(digest(p.start) for p in m.hardware)
          + b"".join(read(p.digest + d) + write(p.digest + 4, 1) for p in m.hardware for d in (-1, 0, 3, 4, 7, 8)))
    m.run("digests_again", "each digest command again answers 4 with the first word of the digest, though it computes the same, and the digest stays",
          UP + b"".join(digest(p.start) * 2 + read(p.digest) for p in m.hardware) + UP,
          lines((7, 0, 0), *[line for p in m.hardware for line in ((4, 0, None), (4, 4, p.digest // 2), (1, 0, None))], (7, 0, 0)))


def filled(m):
    """Writes to all granules of the data; the secrets hold the hashes of the tokens."""
    secret0, secret1, secret2 = m.secrets
    software = (lambda a: 0x01010101 * (a % 251) + a, lambda a: 0x10001 * a)
    return (b"".join(write(a, software[p.number % 2](a)) for p in m.software for a in p.data())
            + b"".join(write(a, 0xD00D0000 + a) for p in m.fronts for a in p.data()) + m.tokens()
            + b"".join(write(a, 0x0123456789ABCDEF ^ a) for a in secret1.data())
            + b"".join(write(a, 0xFEDCBA9876543210 ^ a) for a in secret2.data()[2:]))


def shown(m):
    """Reads all over the map, front reads, and reads of the hardware digests."""
    return (b"".join(read(a) for a in range(0, m.limit, 0x24)) + b"".join(front(a) for p in m.fronts for a in p.data()[:8])
            + b"".join(read(p.digest) for p in m.hardware))


def provisioning(m):
    numbers = (0x10000C0DE, 0xFEED00000002)
    digests = (b"".join(digest(p.start) for p in m.hardware)
               + b"".join(write(p.digest + 4 * (p.number % 2), numbers[p.number % 2]) for p in m.software))
    tries = b"".join(write(p.start, 2**64 - 1) + digest(p.start) for p in m.partitions[:-1])
    locks = b"".join(lock(i) for i in range(len(m.software) + 1))
    m.run("provisioning", "all partitions written, digests, a power-up; then locked reads and writes, and front reads of the DEVICE_ID",
          UP + filled(m) + shown(m) + digests + shown(m) + UP + shown(m) + tries + locks + shown(m))


# What is asked on the way from RAW to SCRAP, with the answer and the power-up's value after it.
MOVES = (
    (move(1, RAW_TOKEN ^ 1), 0x23, 0x100),
    (move(1, RAW_TOKEN), 0, 0x201),
    (move(2), 0, 0x302),
    (move(3, TEST_UNLOCK ^ (1 << 127)), 0x23, 0x402),
    (move(3, TEST_UNLOCK), 0, 0x503),
    (move(16, TEST_UNLOCK), 0x23, 0x603),
    (move(16, TEST_EXIT), 0, 0x710),
    (move(19, TEST_EXIT), 0x23, 0x810),
    (move(19, RMA_TOKEN), 0, 0x913),
    (move(16), 0x21, 0xA13),
)


def raw_to_scrap(m):
    secret0, _, secret2 = m.secrets
    m.run("raw_to_scrap", "RAW through TEST, DEV and RMA to SCRAP, with right and wrong tokens",
          UP + filled(m) + digest(secret0.start) + digest(secret2.start) + UP + b"".join(record + UP for record, _, _ in MOVES) + move(20) + UP + read(0) + UP,
          last=plain_lines((7, 0, 0), *[line for _, code, value in MOVES for line in ((6, code, 0), (7, 0, value))],
                           (6, 0, 0), (7, 7, 0xB14), (1, 7, 0), (7, 7, 0xB14)))


def failed_power_ups(m):
    life = m.life_cycle.start // 2
    broken = with_word(m.life(3, state(5)), life + 36, 0x7777)
    m.run("invalid_life_cycle", "a state word that is neither A nor B: 7 with 0xFFFF", UP + read(0) + UP,
          lines((7, 7, 0xFFFF), (1, 7, 0), (7, 7, 0xFFFF)), broken)
    m.run("count_0_with_a_state", "count 0 with a state other than RAW: 7 with 0xFFFF", UP, lines((7, 7, 0xFFFF)), m.life(0, state(1)))
    m.run("scrap", "SCRAP: 7 with 256 times count plus state", UP + move(20), lines((7, 7, 256 * 9 + 20), (6, 7, 0)), m.life(9, state(20)))
    for p in m.hardware:
        m.run("damaged_digest_%d" % p.number, "a stored digest of partition %d that does not match: 6" % p.number, UP + read(0) + write(p.start, 1),
              lines((7, 6, p.number), (1, 7, 0), (2, 7, 0)), with_word(m.blank, p.digest // 2, 0x4242))
    second, last = m.hardware[1], m.hardware[-1]
    m.run("digest_before_life_cycle", "the digest check comes before the life cycle, and names the first partition that fails", UP,
          lines((7, 6, second.number)), with_word(with_word(broken, last.digest // 2, 1), second.digest // 2, 1))
    p = m.fronts[-1]
    m.run("data_after_digest", "data written after the digest command is answered 0, and the next power-up 6: its digest is not that of the data",
          UP + write(p.start, 1) + digest(p.start) + write(p.start + 4, 2) + UP + read(0),
          lines((7, 0, 0), (2, 0, 0), (4, 0, None), (2, 0, 0), (7, 6, p.number), (1, 7, 0)))


def wrong_lengths(m):
    """Lengths of image and constants; the script is the example of document 01."""
    wrong = lines((7, 0x10, 0), (2, 0x10, 0), (1, 0x10, 0), (1, 0x10, 0))
    size = m.limit
    m.run("image_a_byte_short", "an image of %s bytes" % format(size - 1, ","), EXAMPLE, wrong, b"\0" * (size - 1))
    m.run("image_a_byte_long", "an image of %s bytes" % format(size + 1, ","), EXAMPLE, wrong, b"\0" * (size + 1))
    m.run("image_a_word_short", "an image of %d words" % (size // 2 - 1), EXAMPLE, wrong, m.blank[:-1])
    m.run("image_a_word_long", "an image of %d words" % (size // 2 + 1), EXAMPLE, wrong, m.blank + [0])
    m.run("no_constants", "missing constants: 0x10 on each line", EXAMPLE, wrong, consts=None)
    m.run("c_is_zero", "a C that is zero: 0x12 on each line", EXAMPLE, lines((7, 0x12, 0), (2, 0x12, 0), (1, 0x12, 0), (1, 0x12, 0)),
          consts=with_word(GOOD, 36, 0))


for each in (MAP1, MAP2):
    for subject in (wrong_lengths, all_cases, edges, provisioning, raw_to_scrap, failed_power_ups):
        subject(each)
