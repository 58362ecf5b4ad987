"""Bench runs on Map 2 alone: which map an image has, its software partitions, AUTH_STATE, both HW_CFG parts, the tokens' partitions."""
from run_terms import EXAMPLE, MAP1, MAP2, RMA_TOKEN, TEST_EXIT, TEST_UNLOCK, UP, digest, front, lines, lock, move, read, state, write

VENDOR_TEST, CREATOR, OWNER, CODESIGN, AUTH_STATE, HW_CFG0, HW_CFG1, SECRET0, SECRET1, SECRET2, LIFE_CYCLE = MAP2.partitions
run = MAP2.run

# ---- which map
run("example", "the example of document 01: 0x328 lies in ROT_CREATOR_AUTH_CODESIGN here", EXAMPLE,
    lines((7, 0, 0), (2, 0, 0), (1, 0, 0x12345678), (1, 0, 0)))
run("past_map1", "addresses at and past the end of Map 1 are data of ROT_CREATOR_AUTH_CODESIGN",
    UP + b"".join(write(a, a) + read(a + 3) for a in (0x328, 0x37C, 0x380, 0x40C)),
    lines((7, 0, 0), *[line for a in (0x328, 0x37C, 0x380, 0x40C) for line in ((2, 0, 0), (1, 0, a))]))
BEYOND = (0x380, CODESIGN.digest, AUTH_STATE.start, HW_CFG0.start, HW_CFG1.start, SECRET0.start, SECRET2.digest, LIFE_CYCLE.start, MAP2.limit)
MAP1.run("addresses_of_map2", "on an image of 896 bytes no command reaches an address of Map 2 from 0x380 on",
         UP + b"".join(read(a) + write(a, 1) + front(a) + digest(a) for a in BEYOND),
         lines((7, 0, 0), *[(kind, 5, 0) for _ in BEYOND for kind in (1, 2, 3, 4)]))

# ---- software partitions: their digest and their read lock, and what stands beside them
NUMBER = 0x1122334455667788
for p in MAP2.software:
    beside = [MAP2.partitions[i].data()[-1 if i < p.number else 0] for i in (p.number - 1, p.number + 1) if i >= 0]
    places = read(p.start + 3) + read(p.digest - 1) + read(p.digest) + read(p.end - 1)
    near = b"".join(read(a) for a in beside)
    seen = [(1, 0, 0x0A0B0C0D), (1, 0, 0xFFFF), (1, 0, NUMBER), (1, 0, NUMBER)]
    blank = [(1, 0, 0) for _ in beside]
    run(p.name.lower(), "partition %d: its first and last data and its digest; read lock %d hides its data alone, and its digest locks it alone"
        % (p.number, p.number),
        UP + write(p.start, 0x0A0B0C0D) + write(p.digest - 4, 0xFFFF) + write(p.digest + 5, NUMBER) + places + near + lock(p.number) + places + near
        + UP + places + near + write(p.start, 0xFFFFFFFF) + write(p.start + 4, 1) + write(p.digest - 1, 0x1FFFF) + write(p.digest, 1)
        + digest(p.start) + front(p.start) + b"".join(write(a, 7) for a in beside),
        lines((7, 0, 0), (2, 0, 0), (2, 0, 0), (2, 0, 0), *seen, *blank, (5, 0, 0), (1, 5, 0), (1, 5, 0), *seen[2:], *blank,
              (7, 0, 0), *seen, *blank, (2, 5, 0), (2, 5, 0), (2, 5, 0), (2, 5, 0), (4, 5, 0), (3, 5, 0), *[(2, 0, 0) for _ in beside]))
NUMBERS = (0, 1, 2, 3, 4, 4, 5, 6, 10, 11, 255)
run("read_locks", "read locks 0 to 4 are done, again too, and there is none past 4", UP + b"".join(lock(i) for i in NUMBERS),
    lines((7, 0, 0), *[(5, 0 if i <= 4 else 5, 0) for i in NUMBERS]))

# ---- AUTH_STATE: the old rule for its data
AT, WORD = AUTH_STATE.start, AUTH_STATE.start // 2
run("auth_state_bits_added", "AUTH_STATE data take the same value again and one with more bits, before a power-up and after, in both words",
    UP + write(AT, 0) + write(AT, 0x0F) + write(AT, 0x0F) + write(AT, 0xFF) + write(AT, 0x800000FF) + read(AT) + UP + read(AT) + write(AT, 0x8001F0FF)
    + read(AT),
    lines((7, 0, 0), *[(2, 0, 0)] * 5, (1, 0, 0x800000FF), (7, 0, 0), (1, 0, 0x800000FF), (2, 0, 0), (1, 0, 0x8001F0FF)))
run("auth_state_bit_cleared",
    "AUTH_STATE data name the lowest word whose bit would be cleared: the first, the second, of both the first; more bits in the first word are not "
    "stored where the second refuses",
    UP + write(AT, 0x00F0000F) + write(AT, 0x00F000F0) + write(AT, 0x0F00000F) + write(AT, 0) + write(AT + 3, 0x000000FF) + read(AT) + write(AT, 0x0FF000FF)
    + read(AT) + UP + write(AT, 0x00F000FF),
    lines((7, 0, 0), (2, 0, 0), (2, 4, WORD), (2, 4, WORD + 1), (2, 4, WORD), (2, 4, WORD + 1), (1, 0, 0x00F0000F), (2, 0, 0),
          (1, 0, 0x0FF000FF), (7, 0, 0), (2, 4, WORD + 1)))
BOUNDS = ((CODESIGN.digest - 4, False), (AUTH_STATE.start, True), (AUTH_STATE.digest - 4, True), (HW_CFG0.start, False))
run("auth_state_bounds", "more bits are taken by the first and the last granule of AUTH_STATE data, and by neither data beside the partition",
    UP + b"".join(write(a, 0x00010000) + write(a, 0x00010001) + write(a, 1) + read(a) for a, _ in BOUNDS),
    lines((7, 0, 0), *[line for a, old in BOUNDS
                       for line in ((2, 0, 0), (2, 0, 0) if old else (2, 4, a // 2 + 1), (2, 4, a // 2 + 1), (1, 0, 0x00010001 if old else 0x00010000))]))
run("auth_state_digest", "the digest of AUTH_STATE is written once: the same value, more bits and zero answer 4 with the lowest nonzero word; it locks",
    UP + write(AUTH_STATE.digest, 1 << 32) + write(AUTH_STATE.digest, 1 << 32) + write(AUTH_STATE.digest + 4, 2**64 - 1) + write(AUTH_STATE.digest, 0)
    + write(AT, 1) + UP + write(AT, 3) + write(AT, 0) + write(AUTH_STATE.digest, 1 << 32) + read(AUTH_STATE.digest + 7),
    lines((7, 0, 0), (2, 0, 0), *[(2, 4, AUTH_STATE.digest // 2 + 2)] * 3, (2, 0, 0), (7, 0, 0), (2, 5, 0), (2, 5, 0), (2, 5, 0), (1, 0, 1 << 32)))
run("auth_state_read_locked", "a read lock stops no write of AUTH_STATE data, nor the word that a 4 names",
    UP + lock(4) + write(AT, 1) + write(AT, 3) + write(AT, 2) + read(AT) + UP + read(AT),
    lines((7, 0, 0), (5, 0, 0), (2, 0, 0), (2, 0, 0), (2, 4, WORD), (1, 5, 0), (7, 0, 0), (1, 0, 3)))

# ---- HW_CFG1, whose data are one block
run("hw_cfg1", "the 8 bytes of HW_CFG1 data: written, digested, locked by a power-up, read in front from then on; its digest is not",
    UP + write(HW_CFG1.start, 0x96) + write(HW_CFG1.start + 7, 0x69) + write(HW_CFG1.start, 0x97) + write(HW_CFG1.digest, 1)
    + front(HW_CFG1.start) + front(HW_CFG1.start + 4) + digest(HW_CFG1.start) + UP
    + front(HW_CFG1.start + 3) + front(HW_CFG1.digest - 1) + front(HW_CFG1.digest) + front(HW_CFG0.digest) + read(HW_CFG1.start) + read(HW_CFG1.digest)
    + write(HW_CFG1.start, 0x96) + digest(HW_CFG1.start) + write(HW_CFG0.start, 1),
    lines((7, 0, 0), (2, 0, 0), (2, 0, 0), (2, 4, HW_CFG1.start // 2), (2, 5, 0), (3, 0, 0), (3, 0, 0), (4, 0, None), (7, 0, 0),
          (3, 0, 0x96), (3, 0, 0x69), (3, 5, 0), (3, 5, 0), (1, 0, 0x96), (1, 0, None), (2, 5, 0), (4, 5, 0), (2, 0, 0)))

# ---- tokens: the partition that holds one is open, and the other two secrets are locked
run("secret0_open", "TEST_UNLOCK and TEST_EXIT ask for SECRET0: 0x22 with the other secrets locked",
    UP + MAP2.tokens() + digest(SECRET1.start) + digest(SECRET2.start) + UP + move(3, TEST_UNLOCK) + UP + move(17, TEST_EXIT) + UP,
    lines((7, 0, 0x102), *[(2, 0, 0)] * 6, (4, 0, None), (4, 0, None), (7, 0, 0x102), (6, 0x22, 0), (7, 0, 0x202), (6, 0x22, 0), (7, 0, 0x302)),
    MAP2.life(1, state(2)))
run("secret2_open", "the RMA token asks for SECRET2: 0x22 with the other secrets locked",
    UP + MAP2.tokens() + digest(SECRET0.start) + digest(SECRET1.start) + UP + move(19, RMA_TOKEN) + UP,
    lines((7, 0, 0x111), *[(2, 0, 0)] * 6, (4, 0, None), (4, 0, None), (7, 0, 0x111), (6, 0x22, 0), (7, 0, 0x211)), MAP2.life(1, state(17)))
