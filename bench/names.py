"""Names that are hard to tell apart, for the bench's tables and documents."""
import itertools

LETTERS = 'ABCDEFGHIJKLMNOPQRSTUVWXYZ_abcdefghijklmnopqrstuvwxyz'


def short_names(count):
    """All different, as short as can be; the later ones have two letters."""
    twos = (a + b for a in LETTERS[:26] for b in LETTERS[27:])
    return list(itertools.islice(itertools.chain((c for c in LETTERS if c != '_'), twos), count))


def alike(count, length, letters='ab'):
    """Names of one length that differ at the end alone."""
    digits = 1
    while len(letters) ** digits < count:
        digits += 1
    return ['N' * (length - digits) + ''.join(p) for p in itertools.islice(itertools.product(letters, repeat=digits), count)]


def anagrams(count):
    """Names of one length and the same letters in other orders, with one first and one last letter."""
    return ['N' + ''.join(p) + 'n' for p in itertools.islice(itertools.permutations('abcdef'), count)]


def bucket(name, seed=0):
    """Where crates/table_book looks a name up, of 256 places, by a seed. It takes another seed where names crowd one place."""
    multiplier = (1640531527 + 1013904226 * seed) % 2**31
    h = 0
    for byte in name.encode():
        h = (h + byte) * multiplier % 2**31
    return h // 2**23


def one_bucket(count, prefix=''):
    """Names of one length that the first seed puts into the same place, as short as can be behind a prefix."""
    found = (prefix + ''.join(p) for p in itertools.product(LETTERS, repeat=3))
    return list(itertools.islice((n for n in found if not n.startswith('__') and bucket(n) == bucket(prefix + 'AAA')), count))
