"""Random lists of calls; none says which refusal number it gives."""

from calculation import book
from calculation.book import CATEGORIES, ELEMENTS, ENTRIES
from calculation.calls import PAIR_WORDS
from calculation.closing import INTENSITY_CODES
from calculation.player import MOST_PAIRED
from cases.book_writer import FARTHEST, LARGEST
from cases.line_writer import (
    BLANK, INFINITY, LARGEST_FINITE, NANS, NEGATIVE_ZERO, NORMAL, SIGN,
    SUBNORMAL, ZERO, bits)

LARGE = 64  # the scale of measures that soon meet the limits of ground 10


def by_bits(rng, most_bits):
    """A number of 0 to most_bits bits, each length as likely."""
    return rng.getrandbits(64) >> (64 - rng.randrange(most_bits + 1))


def one_of(rng, choices):
    return choices[rng.randrange(len(choices))]


def random_measure(rng, numbers, scale):
    """A measure of a range. `scale` is how many bits it has at most; in
    LARGE every other one is a part of the largest."""
    sort = rng.randrange(8)
    if scale == LARGE and sort < 4:
        number = numbers[-1] // (1 + rng.randrange(9))
    elif sort == 6:
        number = numbers[-1]
    elif sort == 7:
        number = numbers[0]
    else:
        number = numbers[0] + by_bits(rng, numbers[-1].bit_length())
    return max(numbers[0], min(number, numbers[-1], 2 ** scale))


def odd_multiple(number, part):
    """The odd multiple of the part that comes next below the number, or the
    part itself."""
    return part * max(1, number // part - 1 | 1)


# Odd multiples of these as mass, distance and intensity leave 500 by 1000,
# also where 95,000 m are added to the distance.
HALF_QUOTES = ((500, 1, 1), (1, 500, 1), (1, 1, 500), (4, 125, 1),
               (25, 1, 20))


def some_halves(rng, mass, distance, *intensities):
    """The measures of a quote. In every other one they are changed so that
    most amounts are a half."""
    if rng.randrange(2) == 0:
        return mass, distance, *intensities
    of_mass, of_distance, of_intensity = one_of(rng, HALF_QUOTES)
    return (odd_multiple(mass, of_mass), odd_multiple(distance, of_distance),
            *(intensity if rng.randrange(4) == 0
              else odd_multiple(intensity, of_intensity)
              for intensity in intensities))


def random_kg_per_head(words, rng, category, code, strange=16):
    """Weighed or not as the earlier passengers of the category; one in
    `strange` is the reverse, none where that is 0."""
    if code not in book.PASSENGER_CODES:
        return 0
    weighed = rng.randrange(2) == 0
    for number in range(1, min(words[ELEMENTS.count], ELEMENTS.most) + 1):
        start = book.place(ELEMENTS, number)
        earlier = book.Element(*words[start:start + book.size(ELEMENTS)])
        if (earlier.category == category
                and earlier.code in book.PASSENGER_CODES):
            weighed = book.is_weighed(earlier.kg_per_head)
            break
    if strange and rng.randrange(strange) == 0:
        weighed = not weighed
    return random_stated_mass(rng) if weighed else 0


def random_stated_mass(rng):
    return one_of(rng, (1, 50, 99, 100, 101, 300, 1 + rng.randrange(300),
                        1 + rng.randrange(300)))


# Cells of lines.

def random_cell(rng, numbers, scale):
    """One end, or the two of a span in every fourth cell."""
    ends = sorted(random_end(rng, random_measure(rng, numbers, scale),
                             numbers[-1])
                  for _ in range(2 if rng.randrange(4) == 0 else 1))
    return tuple(map(bits, ends))


def random_end(rng, thousandths, most):
    """A measure in thousandths, with sixteenths of one. In every fourth end
    it is an odd number of sixteenths of a unit, which is a half."""
    if rng.randrange(4) == 0:
        sixteenths = 16 * thousandths // 1000 + rng.randrange(4)
        return odd_multiple(min(sixteenths, 16 * most // 1000), 1) / 16
    return min(16 * thousandths + rng.randrange(16), 16 * most) / 16_000


NOTABLE = (ZERO, NEGATIVE_ZERO, SUBNORMAL, SIGN | SUBNORMAL, NORMAL,
           bits(0.0005), bits(0.001), bits(0.0625), bits(1.0), bits(-1.0),
           LARGEST_FINITE, INFINITY, SIGN | INFINITY, *NANS)


def value_that_matters(rng):
    """A limit, a half of a thousandth, a sixteenth, a thousandth or a whole
    number."""
    return one_of(rng, (
        one_of(rng, (1e7, 1e9)), (2 * by_bits(rng, 40) + 1) / 2000,
        by_bits(rng, 34) / 16, by_bits(rng, 40) / 1000,
        float(by_bits(rng, 30))))


def any_double(rng):
    """Any bits, an exponent from 2^-13 to 2^30, a half of a thousandth, or
    beside a value that matters."""
    sort = rng.randrange(12)
    if sort == 0:
        return rng.getrandbits(64)
    if sort == 1:
        return one_of(rng, NOTABLE)
    if sort < 5:
        return 1010 + rng.randrange(44) << 52 | rng.getrandbits(52)
    if sort < 7:
        return bits((2 * by_bits(rng, 33) + 1) / 16)
    return beside(rng, bits(value_that_matters(rng)))


def beside(rng, double):
    """The double, or one of those beside it."""
    return max(0, min(double + rng.randrange(-2, 3), LARGEST))


def any_cell(rng):
    """Blank, a number or a span; most spans have the smaller double first."""
    sort = rng.randrange(16)
    if sort == 0:
        return BLANK
    first = any_double(rng)
    if sort < 9:
        return (first,)
    second = beside(rng, first) if sort < 11 else any_double(rng)
    # The bits of doubles above 0 are in the order of their values.
    return tuple(sorted((first, second))) if sort < 15 else (first, second)


# Calls.

def random_call(cases, rng, scale, scale_of_posts=None):
    """A call with arguments in their ranges. Posts have the same scale when
    none is given for them."""
    def measure(numbers):
        return random_measure(rng, numbers, scale)

    def measure_of_post(numbers):
        return random_measure(rng, numbers, scale_of_posts or scale)

    def cell(numbers):
        return random_cell(rng, numbers, scale_of_posts or scale)

    words = cases.words
    category = 1 + rng.randrange(max(1, words[1] % 17))
    kind = words[book.place(CATEGORIES, category)]
    chain = one_of(rng, (1, 2, 3, 10_000, 1 + rng.randrange(10_000)))
    group = 0 if kind == 2 else one_of(rng, (0, 0, 1, 2))
    sort = rng.randrange(127)
    if sort < 4:
        return "open", (one_of(rng, (1, 2, 3, 3, 4)),)
    if sort < 26:
        return "post", (category, group, measure_of_post(book.QUANTITIES),
                        measure_of_post(book.FACTORS),
                        measure_of_post(book.FACTORS))
    if sort < 36:
        return "strike", (1 + rng.randrange(max(1, words[2] % 65)),)
    if sort < 80:
        passengers = kind == 2 or kind == 3 and rng.randrange(2) == 0
        code = 100 + rng.randrange(901) if passengers else rng.randrange(3)
        return "enrol", (category, chain, code,
                         measure(book.amounts_of(code)),
                         0 if kind == 4 else measure(book.DISTANCES),
                         random_kg_per_head(words, rng, category, code))
    if sort < 100:
        return "quote", (chain, rng.randrange(2), *some_halves(
            rng, measure(book.MASSES), measure(book.DISTANCES),
            measure(book.INTENSITIES), measure(book.INTENSITIES)))
    if sort < 103:
        return "close", (category,)
    if sort < 110:
        return "intensity", (category, one_of(rng, INTENSITY_CODES))
    if sort < 118:
        return "line", (category, group, cell(book.QUANTITIES),
                        cell(book.FACTORS), cell(book.FACTORS))
    if sort < 126:
        return "statement", (chain,)
    # 0 and 17 are the numbers of none.
    return "preview", (one_of(rng, (*[category] * 8, 0, 17)),
                       random_pair_length(rng))


def random_pair_length(rng):
    """Most often long enough."""
    return one_of(rng, (*[PAIR_WORDS] * 6, PAIR_WORDS + 1, PAIR_WORDS - 1,
                        MOST_PAIRED, rng.randrange(MOST_PAIRED + 1)))


WILD = (0, 1, 2, 3, 4, 5, 15, 16, 17, 63, 64, 65, 99, 100, 101, 255, 256, 257,
        300, 301, 499, 500, 999, 1000, 1001, 10_000, 10_001, 95_000, 10 ** 6,
        10 ** 6 + 1, FARTHEST, FARTHEST + 1, 10 ** 9, 10 ** 9 + 1, 10 ** 10,
        10 ** 10 + 1, 10 ** 12, 10 ** 12 + 1, 10 ** 17, 10 ** 18, 2 ** 31,
        2 ** 32, 2 ** 32 + 1, 2 ** 63, LARGEST - 1, LARGEST)


def wild_argument(rng, old):
    """In the place of a cell another cell, of a number any other."""
    if isinstance(old, tuple):
        return any_cell(rng)
    return by_bits(rng, 64) if rng.randrange(4) == 0 else one_of(rng, WILD)


def wild_call(cases, rng, scales=(20, 30, LARGE)):
    """A call with up to two arguments that are anything."""
    name, arguments = random_call(cases, rng, one_of(rng, scales))
    arguments = list(arguments)
    for _ in range(rng.randrange(3)):
        place = rng.randrange(len(arguments))
        arguments[place] = wild_argument(rng, arguments[place])
    if name == "preview" and arguments[1] > MOST_PAIRED:
        # No record has a longer slice.
        arguments[1] = random_pair_length(rng)
    return name, arguments


def play_random(cases, rng, name, arguments):
    """Makes the call; now and then shows the record that it made."""
    numbers = cases.call(name, *arguments, gives=None)
    if numbers[0] == 0 and len(numbers) == 2 and rng.randrange(8) == 0:
        listing = {"open": CATEGORIES, "post": ENTRIES,
                   "line": ENTRIES}.get(name, ELEMENTS)
        cases.dump_record(listing, numbers[1])


def close_all(cases):
    """Closes what can be closed, and shows every intensity."""
    for number in range(1, cases.words[CATEGORIES.count] + 1):
        cases.close(number, gives=None)
        cases.intensities(number)


def play_list(cases, rng, count, next_call):
    """Plays so many calls, closes what can be closed and dumps all."""
    for _ in range(count):
        play_random(cases, rng, *next_call())
    close_all(cases)
    cases.dump_all()


def lists_in_range(cases, rng):
    for scale in (4, 10, 20, 24, 28, 32, 40, LARGE, LARGE, LARGE):
        cases.new_book(*[1 + rng.randrange(4)
                         for _ in range(1 + rng.randrange(5))])
        play_list(cases, rng, 200, lambda: random_call(cases, rng, scale))


def wild_lists(cases, rng):
    for _ in range(6):
        cases.new_book(1, 2, 3, 4)
        play_list(cases, rng, 240, lambda: wild_call(cases, rng))


def lists_with_damage(cases, rng):
    """Words that change between calls, by a bit or altogether."""
    for _ in range(5):
        cases.new_book(1, 2, 3, 4)
        for number in range(30):
            play_random(cases, rng, *random_call(cases, rng, 20))
        for number in range(90):
            if number % 30 == 0:
                cases.close(1 + number // 30, gives=None)
            if rng.randrange(2) == 0:
                play_random(cases, rng, *random_call(cases, rng, 20))
                continue
            index = some_word(cases, rng)
            old = cases.words[index]
            new = (old ^ 1 << rng.randrange(64) if rng.randrange(2) == 0
                   else one_of(rng, WILD))
            cases.poke(index, new)
            play_random(cases, rng, *random_call(cases, rng, 20))
            if cases.words[index] == new:
                cases.poke(index, old)
            cases.strike(0, gives=None)
        cases.dump_all()


def lists_of_closings(cases, rng):
    """Categories for freight and passengers whose groups have elements. In
    every other book there are few measures, so that remainders are equal."""
    for number in range(24):
        scale = 2 if number % 2 == 0 else one_of(rng, (8, 16, 24, 30))
        kinds = [one_of(rng, (1, 2, 3, 3, 4)) for _ in range(3)]
        cases.new_book(3, *kinds)
        for step in range(28):
            category = 1 + rng.randrange(4)
            kind = (3, *kinds)[category - 1]
            cases.enrol(*random_member(cases.words, rng, category, kind,
                                       scale))
            if step % 3 == 0:
                group = 0 if kind == 2 else one_of(rng, (0, 0, 1, 2))
                quantity = random_measure(rng, book.QUANTITIES, 20)
                cases.post(category, group, quantity,
                           random_measure(rng, book.FACTORS, 30),
                           random_measure(rng, book.FACTORS, 30))
            if step % 9 == 8:
                cases.strike(1 + rng.randrange(cases.words[2]), gives=None)
        for chain in (1, 2, 3, 4):
            cases.statement(chain)
        for category in (1, 2, 3, 4):
            cases.preview(category, gives=None)
        close_all(cases)
        for chain in (1, 2, 3, 4):
            cases.statement(chain)
        cases.dump_book()


def lists_of_halves(cases, rng):
    """Categories whose intensities are often a half: few remainders are left
    by what they are divided by."""
    for _ in range(12):
        kinds = [one_of(rng, (1, 2, 3, 4)) for _ in range(6)]
        cases.new_book(*kinds)
        for category, kind in enumerate(kinds, 1):
            members = members_for_halves(rng, kind)
            for code, amount, distance in members:
                cases.enrol(category, category, code, amount, distance)
            for group in {0, *(code for code, *_ in members if code < 3)}:
                for _ in range(1 + rng.randrange(2)):
                    cases.post(category, group, 1, by_bits(rng, 30),
                               by_bits(rng, 30))
        close_all(cases)
        cases.dump_book()


def members_for_halves(rng, kind):
    """The code, amount and distance of elements with an F, S and C that are
    few times 2000 or 16, 2 in a hub, 200 for passengers."""
    members = []
    if kind != 2:
        part = 2 if kind == 4 else one_of(rng, (2000, 400, 80, 16))
        for code in one_of(rng, ((0,), (1,), (2,), (0, 1), (1, 2),
                                 (0, 1, 2))):
            activity = part * (1 + rng.randrange(2))
            distance = 0 if kind == 4 else one_of(rng, (1, 2, 4, 8))
            members.append((code, activity // max(1, distance), distance))
    if kind in (2, 3):
        members.append((one_of(rng, (100, 200, 400)), 2,
                        1 + rng.randrange(2)))
    return members


def random_member(words, rng, category, kind, scale):
    """The arguments of an enrolment that suits the kind."""
    passengers = kind == 2 or kind == 3 and rng.randrange(2) == 0
    code = (one_of(rng, (100, 150, 400, 1000)) if passengers
            else rng.randrange(3))
    return (category, 1 + rng.randrange(4), code,
            random_measure(rng, book.amounts_of(code), scale),
            0 if kind == 4 else random_measure(rng, book.DISTANCES, scale),
            random_kg_per_head(words, rng, category, code, 0))


def some_word(cases, rng):
    """A word of the header, of a counted record or of the next one."""
    if rng.randrange(8) == 0:
        return rng.randrange(4)
    listing = one_of(rng, book.LISTINGS)
    count = min(cases.words[listing.count] + 1, listing.most)
    return listing.start + rng.randrange(count * book.size(listing))


def add(cases, rng):
    lists_in_range(cases, rng)
    wild_lists(cases, rng)
    lists_with_damage(cases, rng)
    lists_of_closings(cases, rng)
    lists_of_halves(cases, rng)
