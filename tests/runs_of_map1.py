"""Bench runs on Map 1 alone: the reader, digests in one piece, no second burn, the word of a 4, tokens by their hashes."""
import hashlib

from run_terms import (BLANK_READS, EXAMPLE, GOOD, HASHES, MAP1, RAW_TOKEN, RMA_TOKEN, TEST_EXIT, TEST_UNLOCK, UP, digest, front, lines, lock, move, number,
                       plain_lines, read, state, with_raw, with_word, with_words, words, write)

run, life, BLANK = MAP1.run, MAP1.life, MAP1.blank


def backwards(wide):
    """A number of 16 bytes with its bytes in the other order."""
    return int.from_bytes(number(wide, 16), "big")


# ---- the document's example, and scripts that end at once
EXAMPLE_LINES = lines((7, 0, 0), (2, 0, 0), (1, 0, 0x12345678), (1, 5, 0))
run("example", "the example of document 01", EXAMPLE, EXAMPLE_LINES)
run("empty_script", "an empty script prints the end line alone", b"", lines())
run("off", "before a power-up every command answers 7", read(0) + write(0, 1) + front(0x200) + digest(0x200) + lock(0) + move(1),
    lines((1, 7, 0), (2, 7, 0), (3, 7, 0), (4, 7, 0), (5, 7, 0), (6, 7, 0)))

# ---- lengths and constants
WRONG = lines((7, 0x10, 0), (2, 0x10, 0), (1, 0x10, 0), (1, 0x10, 0))
run("no_files", "missing files count as empty: 0x10 on each line", EXAMPLE, WRONG, None, None)
run("no_image", "a missing image: 0x10 on each line", EXAMPLE, WRONG, None)
run("image_far_too_long", "an image of 20,000 bytes", EXAMPLE, WRONG, b"\0" * 20000)
run("constants_a_byte_short", "constants of 263 bytes", EXAMPLE, WRONG, BLANK, words(GOOD)[:-1])
run("constants_a_byte_long", "constants of 265 bytes", EXAMPLE, WRONG, BLANK, words(GOOD) + b"\0")
run("constants_a_word_long", "constants of 133 words", EXAMPLE, WRONG, BLANK, GOOD + [0])
INVALID = lines((7, 0x12, 0), (2, 0x12, 0), (1, 0x12, 0), (1, 0x12, 0))
run("c_equals_d", "the last C equals its D", EXAMPLE, INVALID, BLANK, with_word(GOOD, 59, GOOD[83]))
run("c_has_a_bit_that_d_lacks", "a C with a bit that its D lacks", EXAMPLE, INVALID, BLANK, with_word(GOOD, 40, GOOD[40] | 0x0800))
run("a_is_zero", "the last A is zero", EXAMPLE, INVALID, BLANK, with_word(GOOD, 103, 0))
run("b_equals_a", "a B that equals its A", EXAMPLE, INVALID, BLANK, with_word(GOOD, 104, GOOD[84]))
run("length_before_constants", "0x10 comes before 0x12", EXAMPLE, WRONG, BLANK[:-1], with_word(GOOD, 36, 0))
run("constants_before_phase", "0x12 comes before 0x07", read(0), lines((1, 0x12, 0)), BLANK, with_word(GOOD, 36, 0))

# ---- the reader
run("kind_0", "kind 0 is unknown: the line has the kind byte and its place, then the end line", UP + b"\x00" + read(0), lines((7, 0, 0), (0, 0x11, 1)))
run("kind_8", "kind 8 is unknown", UP + read(0) + b"\x08", lines((7, 0, 0), (1, 0, 0), (8, 0x11, 6)))
run("kind_255", "kind 255 is unknown", b"\xff", lines((255, 0x11, 0)))
for kind, whole in ((1, read(0)), (2, write(0, 0)), (3, front(0)), (4, digest(0)), (5, lock(0)), (6, move(1))):
    run("cut_kind_%d" % kind, "a record of kind %d cut by its last byte" % kind, UP + whole[:-1], lines((7, 0, 0), (kind, 0x13, 1)))
    run("cut_kind_%d_at_once" % kind, "a record of kind %d with no body" % kind, UP + whole[:1], lines((7, 0, 0), (kind, 0x13, 1)))
run("cut_on_a_wrong_image", "the reader comes before the command", UP + b"\x01", lines((7, 0x10, 0), (1, 0x13, 1)), None)
run("longest_script", "65,536 bytes run", UP + read(0) * 13107, lines((7, 0, 0), *[(1, 0, 0)] * 13107))
run("too_long_script", "65,537 bytes: one line 0x14 and nothing runs", UP + read(0) * 13107 + UP, lines((0, 0x14, 0)))

# ---- digests in one piece: both sides of 0x0F8 and 0x0FC, the same from 0x1F8 on
NUMBER = 0x1122334455667788


def about(start):
    """Reads on both sides of a software digest, and their lines once the number is stored there."""
    places = (0xF4, 0xF7, 0xF8, 0xFB, 0xFC, 0xFF, 0x100)
    return b"".join(read(start + a) for a in places), [(1, 0, NUMBER if 0xF8 <= a <= 0xFF else 0) for a in places]


for name, start in (("creator", 0x000), ("owner", 0x100)):
    reads, shown = about(start)
    run("%s_data_before_digest" % name, "a write at 0x%03X is 4 bytes of data and locks nothing" % (start + 0xF7),
        UP + write(start + 0xF7, NUMBER) + read(start + 0xF3) + read(start + 0xF4) + read(start + 0xF8) + UP + write(start, 1),
        lines((7, 0, 0), (2, 0, 0), (1, 0, 0), (1, 0, NUMBER % 2**32), (1, 0, 0), (7, 0, 0), (2, 0, 0)))
    for a in (0xF8, 0xFB, 0xFC, 0xFF):
        run("%s_digest_at_%03x" % (name, start + a), "a write at 0x%03X is the 8 bytes of the digest, before the next power-up and after" % (start + a),
            UP + write(start + a, NUMBER) + reads + UP + reads + write(start, 1) + write(start + 0xF8, 2**64 - 1),
            lines((7, 0, 0), (2, 0, 0), *shown, (7, 0, 0), *shown, (2, 5, 0), (2, 5, 0)))
    run("%s_digest_halves" % name, "one half of a digest is not written after the other",
        UP + write(start + 0xF8, 1) + write(start + 0xFC, 1 << 32) + read(start + 0xFC) + UP,
        lines((7, 0, 0), (2, 0, 0), (2, 4, (start + 0xF8) // 2), (1, 0, 1), (7, 0, 0)))
    run("%s_digest_high_half" % name, "a digest whose low half is zero locks like any other",
        UP + write(start + 0xFC, 1 << 32) + UP + write(start + 0xF7, 1) + write(start + 0xF8, (1 << 32) + 1) + read(start + 0xF8),
        lines((7, 0, 0), (2, 0, 0), (7, 0, 0), (2, 5, 0), (2, 5, 0), (1, 0, 1 << 32)))
# ---- no second burn
TRIED = (0x0F, 0xFF, 0xF0, 0, 2**64 - 1)
for name, start in (("creator", 0x000), ("last_of_owner", 0x1F4), ("device_id", 0x200)):
    run("%s_burnt_once" % name,
        "0x%03X takes a value once: the same again, one that clears no bit, one that does and zero answer 4, and still do after a power-up" % start,
        UP + write(start, 0x0F) + b"".join(write(start, v) for v in TRIED) + read(start) + UP + b"".join(write(start, v) for v in TRIED) + read(start)
        + write(start ^ 4, 0xFF),
        lines((7, 0, 0), (2, 0, 0), *[(2, 4, start // 2)] * 5, (1, 0, 0x0F), (7, 0, 0), *[(2, 4, start // 2)] * 5, (1, 0, 0x0F), (2, 0, 0)))
run("device_code_stands", "a second device code that clears no bit of the first answers 4, and the first is what is read and, after a power-up, front-read",
    UP + write(0x200, 0xC0DE0001) + write(0x200, 0xC0DE0003) + read(0x200) + UP + front(0x200) + write(0x200, 0xC0DE0003) + front(0x200),
    lines((7, 0, 0), (2, 0, 0), (2, 4, 0x100), (1, 0, 0xC0DE0001), (7, 0, 0), (3, 0, 0xC0DE0001), (2, 4, 0x100), (3, 0, 0xC0DE0001)))
run("other_word_of_the_granule", "a granule with one word burnt takes none for its blank word, of 4 bytes and of 8; the next granule does",
    UP + write(0, 1 << 16) + write(0, (1 << 16) + 1) + write(4, 1) + write(0xF8, 1 << 48) + write(0xF8, (1 << 48) + 1) + read(0) + read(0xF8),
    lines((7, 0, 0), (2, 0, 0), (2, 4, 1), (2, 0, 0), (2, 0, 0), (2, 4, 0x7F), (1, 0, 1 << 16), (1, 0, 1 << 48)))
run("zero_in_a_blank_granule", "a zero in a blank granule answers 0 and changes nothing: a value can follow, and then no zero; a digest of zero locks nothing",
    UP + write(0x200, 0) * 2 + write(0x200, 5) + write(0x200, 0) + read(0x200) + write(0xF8, 0) + UP + write(0, 1) + write(0xF8, 1) + write(0xF8, 0),
    lines((7, 0, 0), (2, 0, 0), (2, 0, 0), (2, 0, 0), (2, 4, 0x100), (1, 0, 5), (2, 0, 0), (7, 0, 0), (2, 0, 0), (2, 0, 0), (2, 4, 0x7C)))
run("zero_in_a_secret_granule",
    "a zero in a secret granule is stored scrambled and burns; the value whose stored form is zero, which a blank block reads, does not",
    UP + write(0x250, 0) + write(0x250, 0) + read(0x250) + read(0x258) + write(0x258, BLANK_READS) * 2 + write(0x258, 7) + write(0x258, BLANK_READS)
    + read(0x258),
    lines((7, 0, 0), (2, 0, 0), (2, 4, 0x128), (1, 0, 0), (1, 0, BLANK_READS), (2, 0, 0), (2, 0, 0), (2, 0, 0), (2, 4, 0x12C), (1, 0, 7)))
run("counter_words_again", "LIFE_CYCLE words keep the old rule: a stroke sets bits in words that are not blank, and so does a move",
    UP + move(2) + UP + move(0) + UP, lines((7, 0, 257), (6, 0, 0), (7, 0, 514), (6, 0x21, 0), (7, 0, 770)), life(1, state(1)))

# ---- which word
HELD = ([1, 0, 0, 0], [0, 2, 0, 0x8000], [0, 0, 0x4000, 1], [0, 0, 0, 0xFFFF])


for i, held in enumerate(HELD):
    image = BLANK
    for start in (0x250, 0x278, 0x318):
        image = with_words(image, start // 2, held)
    run("word_%d_of_a_secret_granule" % i,
        "a secret granule whose lowest word that is not blank is word %d of it, in three partitions: "
        "a write answers 4 with that word's index over the whole array" % i,
        UP + b"".join(write(a, 0) + write(a + 7, 2**64 - 1) for a in (0x250, 0x278, 0x318)),
        lines((7, 0, 0), *[(2, 4, a // 2 + i) for a in (0x250, 0x278, 0x318) for _ in range(2)]), image)
run("word_of_a_small_granule", "in a granule of 4 bytes the first or the second word is named, at the first granule and at the last of each partition",
    UP + b"".join(write(a, 1 << 16 * (a // 4 % 2)) + write(a, 1) + write(a + 3, 0) for a in (0, 4, 0xF4, 0x100, 0x1F4, 0x200, 0x244)),
    lines((7, 0, 0), *[line for a in (0, 4, 0xF4, 0x100, 0x1F4, 0x200, 0x244) for line in [(2, 0, 0)] + [(2, 4, a // 2 + a // 4 % 2)] * 2]))
run("word_of_a_digest", "the words of a software digest: the lowest that is not blank is named, wherever in it the write is",
    UP + write(0xF8, 1 << 32) + b"".join(write(a, 1) for a in (0xF8, 0xFB, 0xFC, 0xFF)) + write(0x1FC, (1 << 48) + (1 << 16)) + write(0x1F8, 0),
    lines((7, 0, 0), (2, 0, 0), *[(2, 4, 0x7E)] * 4, (2, 0, 0), (2, 4, 0xFD)))
run("locked_names_no_word", "a locked partition answers 5 with value 0 first: the same write named a word before the power-up",
    UP + write(0x100, 1 << 16) + write(0x1F8, 1) + write(0x100, 1) + write(0x1F8, 1) + UP + write(0x100, 1) + write(0x1F8, 1) + write(0x000, 1),
    lines((7, 0, 0), (2, 0, 0), (2, 0, 0), (2, 4, 0x81), (2, 4, 0xFC), (7, 0, 0), (2, 5, 0), (2, 5, 0), (2, 0, 0)))
run("locked_secret_names_no_word", "a secret partition names a word until a digest command and a power-up have locked it, and no word after that",
    UP + write(0x250, HASHES[TEST_UNLOCK] % 2**64) + write(0x250, 0) + digest(0x250) + digest(0x250) + UP + write(0x250, 0) + write(0x258, 0) + digest(0x250))
run("read_locked_names_a_word", "a read lock stops no write, and so a 4 names a word that can't be read",
    UP + write(0x100, 1 << 16) + lock(1) + read(0x100) + write(0x100, 1) + write(0x104, 1),
    lines((7, 0, 0), (2, 0, 0), (5, 0, 0), (1, 5, 0), (2, 4, 0x81), (2, 0, 0)))

# ---- what the paper leaves to its general rules
run("target_equals_state", "a target equal to the state is not in the table: the stroke is spent, then 0x21",
    UP + move(1, RAW_TOKEN) + UP + move(1, RAW_TOKEN) + UP,
    lines((7, 0, 0), (6, 0, 0), (7, 0, 257), (6, 0x21, 0), (7, 0, 513)))
run("target_21_without_strokes", "0x11 comes before 0x20", UP + move(21) + read(0), lines((7, 0, 6144), (6, 0x11, 0), (1, 0, 0)), life(24, state(0)))
run("test_to_rma", "TEST_UNLOCKED0 to RMA needs no token", UP + move(19) + UP, lines((7, 0, 257), (6, 0, 0), (7, 0, 531)), life(1, state(1)))
run("read_locked_write", "a read lock stops no write, and there is none past 1", UP + lock(1) + write(0x100, 7) + read(0x100) + lock(2) + lock(255),
    lines((7, 0, 0), (5, 0, 0), (2, 0, 0), (1, 5, 0), (5, 5, 0), (5, 5, 0)))
run("read_lock_until_power_up", "a power-up clears a read lock", UP + write(0, 7) + lock(0) + lock(0) + read(0) + UP + read(0),
    lines((7, 0, 0), (2, 0, 0), (5, 0, 0), (5, 0, 0), (1, 5, 0), (7, 0, 0), (1, 0, 7)))
run("too_long_without_files", "a script that is too long comes before the files", UP * 65537, lines((0, 0x14, 0)), None, None)

# ---- targets
run("target_21", "a target above 20 answers 0x11 and leaves Ready", UP + move(21, RAW_TOKEN) + read(0), lines((7, 0, 0), (6, 0x11, 0), (1, 0, 0)))
run("digest_again", "a digest command over its digest answers 4, before and after more data; the power-up then fails",
    UP + write(0x200, 1) + digest(0x200) + digest(0x200) + write(0x204, 2) + digest(0x200) + read(0x248) + UP)
LOCKED = UP + MAP1.tokens() + digest(0x250) + digest(0x2D0) + UP + move(1, RAW_TOKEN) + UP
run("prod_to_rma", "TEST_UNLOCKED0 to PROD with TEST_EXIT, and PROD to RMA with the RMA token", LOCKED + move(17, TEST_EXIT) + UP + move(19, RMA_TOKEN) + UP)
run("prod_end_to_scrap", "TEST_UNLOCKED0 to PROD_END, which goes to SCRAP and not to RMA",
    LOCKED + move(18, TEST_EXIT) + UP + move(19, RMA_TOKEN) + UP + move(20) + UP)
run("all_strokes", "24 strokes spent on wrong tokens, then 0x20", UP + (move(1, 5) + UP) * 26)

# ---- tokens by their hashes
STORED = UP + MAP1.tokens() + digest(0x250) + digest(0x2D0) + UP
for name, old, new, token in (("raw_unlock", 0, 1, RAW_TOKEN), ("test_unlock", 2, 3, TEST_UNLOCK), ("test_exit", 1, 16, TEST_EXIT), ("rma", 17, 19, RMA_TOKEN)):
    run("token_%s" % name, "the raw token whose hash is stored lets state %d go to %d" % (old, new),
        STORED + move(new, token) + UP, image=life(1, state(old)), last=plain_lines((6, 0, 0), (7, 0, 512 + new)))
    run("token_%s_hashed" % name, "the stored hash itself, given as the token, is refused with 0x23 and the stroke is spent",
        STORED + move(new, HASHES[token]) + UP, image=life(1, state(old)), last=plain_lines((6, 0x23, 0), (7, 0, 512 + old)))
REFUSED = lines((7, 0, 0), (6, 0x23, 0), (7, 0, 256))
run("token_bytes_backwards", "a token with its bytes in the other order", UP + move(1, backwards(RAW_TOKEN)) + UP, REFUSED)
run("token_hash_backwards", "a hash stored with its bytes in the other order lets nothing through, neither the token nor what is stored",
    UP + move(1, RAW_TOKEN) + UP + move(1, backwards(HASHES[RAW_TOKEN])) + UP, lines((7, 0, 0), (6, 0x23, 0), (7, 0, 256), (6, 0x23, 0), (7, 0, 512)),
    consts=with_raw(GOOD, backwards(HASHES[RAW_TOKEN])))
run("token_shake128", "SHAKE128 of the token, without the customization, is stored", UP + move(1, RAW_TOKEN) + UP, REFUSED,
    consts=with_raw(GOOD, int.from_bytes(hashlib.shake_128(number(RAW_TOKEN, 16)).digest(16), "little")))
run("token_zero", "the token zero has a hash like any other", UP + move(1, 0) + UP, lines((7, 0, 0), (6, 0, 0), (7, 0, 257)), consts=with_raw(GOOD, HASHES[0]))
run("token_zero_stored", "zero stored is no hash of zero", UP + move(1, 0) + UP, REFUSED, consts=with_raw(GOOD, 0))

# ---- what a transcript of zeros does not tell
run("raw_token_stored", "a raw token written where its hash belongs is answered 0 like any data, and the token then answers 0x23",
    UP + write(0x260, TEST_EXIT % 2**64) + write(0x268, TEST_EXIT >> 64) + digest(0x250) + UP + move(17, TEST_EXIT) + UP,
    image=life(1, state(1)), last=plain_lines((7, 0, 257), (6, 0x23, 0), (7, 0, 513)))
run("high_half_not_stored", "a write to 4 bytes answers 0 whatever the high half of its data, which is stored nowhere",
    UP + write(0x200, 0x1122334455667788) + read(0x200) + read(0x204), lines((7, 0, 0), (2, 0, 0), (1, 0, 0x55667788), (1, 0, 0)))
