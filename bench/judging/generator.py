"""The bytes of `gen SEED LEN`."""

FACTOR = 6_364_136_223_846_793_005
STEP = 1_442_695_040_888_963_407
WORD = (1 << 64) - 1
LANES = 1_024
ONE_EACH = int.from_bytes((1).to_bytes(16, "little") * LANES, "little")
WORD_EACH = WORD * ONE_EACH


def following(x: int, count: int) -> list[int]:
    """The next words after x: each is the one before times FACTOR, and STEP, modulo 2^64."""
    words = []
    for _ in range(count):
        x = (x * FACTOR + STEP) & WORD
        words.append(x)
    return words


def generate(seed: int, length: int) -> bytes:
    """The top byte of each word after the seed. One long number has a word in each 16 bytes, and all go on at once."""
    words = following(seed, min(LANES, length))
    if length <= LANES:
        return bytes(word >> 56 for word in words)
    lanes = int.from_bytes(b"".join(word.to_bytes(16, "little") for word in words), "little")
    factor = pow(FACTOR, LANES, 1 << 64)
    step_each = following(0, LANES)[-1] * ONE_EACH
    pieces = []
    for _ in range(0, length, LANES):
        pieces.append(lanes.to_bytes(16 * LANES, "little")[7::16])
        lanes = (lanes * factor + step_each) & WORD_EACH
    return b"".join(pieces)[:length]
