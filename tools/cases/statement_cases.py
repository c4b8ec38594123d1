"""Cases of statement: chains, sorts of elements, waiting, limits, grounds.

Where an answer is given, it is reckoned by hand: elements, waiting,
operation, provision, total.
"""

from calculation import book, player
from calculation.book import AMOUNTS, CHAINS, ELEMENTS, ENTRIES, word
from cases.book_writer import EMISSIONS, FAR, FARTHEST, LARGEST
from cases.call_cases import enrol_and_quote, try_in_order
from cases.closing_cases import HEADS, MASS, category
from cases.intensity_cases import move_shares, one_closed_of_each_kind

UNUSED = (0,) * 5

# Numbers that are none of a chain, most of them 1 in their lowest bits.
NO_CHAINS = (0, 10_001, 10_002, 2 ** 14, 2 ** 14 + 1, *FAR[2:])


# Chains.

def values_of_statement(cases):
    """A book without elements, then with one at each end."""
    cases.fresh()
    for chain in (1, 2, 256, 257, 9999, 10_000):
        cases.statement(chain, shows=UNUSED)
    for chain in NO_CHAINS:
        cases.statement(chain, gives=3)
    cases.dump_all()
    cases.open(1)
    cases.quote(10_000, 0, 1000, 1, 5, 6)
    cases.quote(1, 0, 1000, 1, 7, 8)
    cases.enrol(1, 1, 0, 1, 1)
    cases.statement(10_000, shows=(1, 0, 5, 6, 11))
    cases.statement(1, shows=(2, 1, 7, 8, 15))
    for chain in (2, 3, 257, 4097, 9998, 9999, 1808):
        cases.statement(chain, shows=UNUSED)
    for chain in NO_CHAINS + (2 ** 16 + 10_000, 2 ** 32 + 10_000,
                              2 ** 63 + 10_000, 2 ** 64 - 10_000):
        cases.statement(chain, gives=3)
    cases.dump_book()


def like_numbers(cases):
    """Chains whose lowest bits are equal, and neighbours."""
    chains = (1, 2, 3, 17, 256, 257, 258, 1793, 1808, 4097, 8191, 8192, 8193,
              9999, 10_000)
    cases.new_book()
    for place, chain in enumerate(chains, 1):
        cases.quote(chain, 0, 1000, 1, place, 100 * place)
    for place, chain in enumerate(chains, 1):
        cases.statement(chain, shows=(1, 0, place, 100 * place, 101 * place))
    for chain in (4, 16, 18, 255, 259, 1807, 1809, 4096, 8190, 9998):
        cases.statement(chain, shows=UNUSED)
    cases.dump_book()


def chains_and_other_words(cases):
    """A chain is no number of a category, an element or an entry, no code
    and no amount."""
    cases.new_book(1, 2, 3)
    cases.post(3, 0, 1, 100, 5)
    cases.enrol(3, 9, 100, 2, 4)
    cases.enrol(3, 8, 1, 5, 6)
    for chain in (1, 2, 3, 4, 5, 6, 30, 100, 800):
        cases.statement(chain, shows=UNUSED)
    cases.statement(9, shows=(1, 1, 0, 0, 0))
    # F 30, P 800: 100 is 4, 96 and 5 is 0, 5.
    cases.close(3)
    for chain in (1, 2, 3, 4, 5, 6, 30, 96, 100, 800):
        cases.statement(chain, shows=UNUSED)
    cases.statement(9, shows=(1, 0, 96, 5, 101))
    cases.statement(8, shows=(1, 0, 4, 0, 4))


# Sorts of elements, and waiting.

def waiting_falls(cases):
    """Chain 7 has an element of every sort, 6 and 8 have others beside."""
    cases.new_book()
    category(cases, 1, [(0, 10, 20)], [])
    category(cases, 2, [(0, 9, 3)], [])
    category(cases, 3, [(0, 8, 4)], [])
    category(cases, 4, [(0, 7, 5)], [])
    # 10 over 1, 4 is 2, 8 and 20 is 4, 16. 9 over 1, 2 is 3, 6 and 3 is 1, 2.
    # F and P are 100. 7 over 5, 2 is 5, 2 and 5 is 4, 1.
    for enrolment in ((1, 7, 0, 1, 1), (1, 8, 0, 4, 1), (2, 7, 100, 1, 1),
                      (2, 6, 200, 1, 1), (3, 7, 0, 100, 1), (3, 7, 300, 1, 1),
                      (4, 8, 0, 5, 0), (4, 7, 0, 2, 0)):
        cases.enrol(*enrolment)
    cases.quote(7, 0, 1000, 1, 1, 2)
    shown = (
        ((1, 1, 0, 0, 0), (6, 5, 1, 2, 3), (2, 2, 0, 0, 0)),
        ((1, 1, 0, 0, 0), (6, 4, 3, 6, 9), (2, 1, 8, 16, 24)),
        ((1, 0, 6, 2, 8), (6, 3, 6, 7, 13), (2, 1, 8, 16, 24)),
        ((1, 0, 6, 2, 8), (6, 1, 14, 11, 25), (2, 1, 8, 16, 24)),
        ((1, 0, 6, 2, 8), (6, 0, 16, 12, 28), (2, 0, 13, 20, 33)),
    )
    for closed, of_chains in enumerate(shown):
        if closed > 0:
            cases.close(closed)
        for chain, shows in zip((6, 7, 8), of_chains):
            cases.statement(chain, shows=shows)
        cases.statement(5, shows=UNUSED)
        cases.statement(9, shows=UNUSED)
        cases.dump_all()
    # A refused closing and what comes later.
    cases.close(1, gives=4)
    cases.open(4)
    cases.close(5, gives=9)
    cases.enrol(5, 7, 0, 1, 0)
    cases.statement(7, shows=(7, 1, 16, 12, 28))
    cases.close(5)
    cases.statement(7, shows=(7, 0, 16, 12, 28))


def many_of_one_chain(cases):
    """Chain 5 three times in one category, twice in another and quoted
    twice, with 4 and 6 between."""
    cases.new_book(1, 3)
    cases.post(1, 0, 1, 21, 42)
    cases.post(2, 1, 1, 30, 60)
    for number in range(3):
        cases.enrol(1, 4, 0, 1, 1)
        cases.enrol(1, 5, number, 2, 1)
        cases.enrol(1, 6, 0, 4, 1)
        if number > 0:
            cases.quote(5, 0, 1000, 1, number, 10)
            cases.enrol(2, 5, 1, number, 1)
            cases.enrol(2, 6, 100, 1, 1)
            cases.quote(4, 0, 1000, 1, 100, 1000)
    cases.statement(4, shows=(5, 3, 200, 2000, 2200))
    cases.statement(5, shows=(7, 5, 3, 20, 23))
    cases.statement(6, shows=(5, 5, 0, 0, 0))
    # 30 over 1, 2 is 10, 20; 21 over three times 1, 2, 4.
    cases.close(2)
    cases.statement(5, shows=(7, 3, 33, 80, 113))
    cases.statement(6, shows=(5, 3, 0, 0, 0))
    cases.close(1)
    cases.statement(4, shows=(5, 0, 203, 2006, 2209))
    cases.statement(5, shows=(7, 0, 39, 92, 131))
    cases.statement(6, shows=(5, 0, 12, 24, 36))
    cases.dump_book()


def quotes_alone(cases):
    """They never wait, whatever is open or closed."""
    cases.new_book()
    cases.quote(3, 0, 1000, 1, 1, 0)
    cases.statement(3, shows=(1, 0, 1, 0, 1))
    cases.open(4)
    cases.quote(3, 1, 1, 5000, 0, 10)
    cases.quote(4, 1, 1, 5000, 10, 0)
    cases.statement(3, shows=(2, 0, 1, 1000, 1001))
    cases.enrol(1, 4, 0, 1, 0)
    cases.statement(4, shows=(2, 1, 1000, 0, 1000))
    cases.close(1)
    cases.statement(3, shows=(2, 0, 1, 1000, 1001))
    cases.statement(4, shows=(2, 0, 1000, 0, 1000))
    cases.dump_book()


def nothing_added(cases):
    """Elements whose shares are 0 are counted all the same."""
    cases.new_book(1, 2)
    cases.quote(1, 0, 1, 1, 0, 0)
    cases.enrol(1, 1, 0, 1, 1)
    cases.enrol(1, 2, 0, MASS, FARTHEST)
    cases.enrol(2, 1, 100, 1, 1)
    cases.statement(1, shows=(3, 2, 0, 0, 0))
    cases.post(1, 0, 1, 9, 9)
    cases.close(1)
    cases.statement(1, shows=(3, 1, 0, 0, 0))
    cases.statement(2, shows=(1, 0, 9, 9, 18))
    # A closed word alone: nothing is unstruck in category 2.
    cases.poke_closed(2)
    cases.statement(1, shows=(3, 0, 0, 0, 0))
    cases.dump_book()


# Words that do not count, and words that do.

def uncounted_records(cases):
    """Records that are not counted look like chain 7's, and so do the words
    after the book."""
    cases.new_book(1, 1)
    cases.post(1, 0, 1, 10, 7)
    cases.enrol(1, 7, 0, 1, 1)
    cases.enrol(2, 7, 0, 1, 1)
    cases.quote(6, 0, 1000, 1, 1, 1)
    cases.close(1)
    for number in (4, 5, 100, 256):
        cases.poke_record(ELEMENTS, number,
                          (number % 3, 7, 0, 9, 1, 9, 3, 4, 0))
    # Where a record 257 would begin.
    for index, value in enumerate((0, 7, 0, 1, 1, 1, 5, 6, 0), book.LENGTH):
        cases.poke(index, value)
    cases.statement(7, shows=(2, 1, 10, 7, 17))
    cases.statement(6, shows=(1, 0, 1, 1, 2))
    cases.dump_all()
    # The fourth is counted now.
    cases.quote(7, 0, 1000, 1, 20, 30)
    cases.statement(7, shows=(3, 1, 30, 37, 67))
    # One fewer is counted, then two.
    cases.poke(ELEMENTS.count, 3)
    cases.statement(7, shows=(2, 1, 10, 7, 17))
    cases.poke(ELEMENTS.count, 2)
    cases.statement(6, shows=UNUSED)
    cases.statement(7, shows=(2, 1, 10, 7, 17))
    cases.fresh()
    cases.statement(7, shows=UNUSED)
    cases.dump_all()


def other_share_words(cases):
    """Sums that are right, divided as no closing does: a statement adds the
    words as they are."""
    cases.new_book()
    # 100 over 1, 2, 3 is 17, 33, 50; 50 is 8, 17, 25.
    category(cases, 1, [(0, 100, 50)], [(0, 1, 1), (0, 2, 1), (0, 3, 1)])
    cases.close(1)
    for chain, shares in enumerate(((17, 8), (33, 17), (50, 25)), 1):
        cases.statement(chain, shows=(1, 0, *shares, sum(shares)))
    for operation, provision in (((100, 0, 0), (0, 0, 50)),
                                 ((0, 1, 99), (50, 0, 0)),
                                 ((16, 34, 50), (9, 17, 24))):
        for amount, shares in zip(AMOUNTS, (operation, provision)):
            for number, share in enumerate(shares, 1):
                cases.poke(word(ELEMENTS, number, amount), share)
        cases.is_sound()
        for chain, shares in enumerate(zip(operation, provision), 1):
            cases.statement(chain, shows=(1, 0, *shares, sum(shares)))
    # A quoted element's shares are any words.
    cases.quote(2, 0, 1000, 1, 3, 4)
    cases.poke(word(ELEMENTS, 4, "operation"), EMISSIONS - 100)
    cases.statement(2, shows=(2, 0, EMISSIONS - 66, 21, EMISSIONS - 45))
    # The chain alone says whose an element is.
    cases.poke(word(ELEMENTS, 3, "chain"), 2)
    cases.statement(2, shows=(3, 0, EMISSIONS - 16, 45, EMISSIONS + 29))
    cases.statement(3, shows=UNUSED)
    cases.dump_book()


def moved_shares(cases):
    """All of a category's shares to its last element, then to its first."""
    one_closed_of_each_kind(cases)
    for chain in range(1, 6):
        cases.statement(chain)
    numbers = list(range(1, cases.words[ELEMENTS.count] + 1))
    for order in (numbers, numbers[::-1]):
        for one, other in zip(order, order[1:]):
            move_shares(cases, one, other)
        for chain in range(1, 6):
            cases.statement(chain)
        cases.dump_book()


# Full books.

def full_book_of_one_chain(cases):
    """256 elements: 1 µg each of the closed category, 2 of each quote."""
    cases.lend(book.LENGTH)
    cases.new_book(4, 1)
    cases.post(1, 0, 1, 100, 200)
    for number in range(256):
        if number < 100:
            cases.enrol(1, 9999, 0, 5, 0)
        elif number % 2 == 0:
            cases.quote(9999, 0, 1000, 1, 2, 0)
        else:
            cases.enrol(2, 9999, 0, 1 + number, 1)
        if number in (0, 1, 63, 64, 99, 100, 101, 127, 128, 254):
            cases.statement(9999)
    cases.statement(9999, shows=(256, 178, 156, 0, 156))
    cases.close(1)
    cases.statement(9999, shows=(256, 78, 256, 200, 456))
    cases.close(2)
    cases.statement(9999, shows=(256, 0, 256, 200, 456))
    cases.statement(9998, shows=UNUSED)
    cases.statement(10_000, shows=UNUSED)
    cases.dump_all()
    cases.lend(player.MOST_WORDS)


def full_book_of_256_chains(cases):
    """A chain for each element; the place of a chain is in no order."""
    cases.new_book(1)
    cases.post(1, 0, 1, 256 * 257 // 2, 256)
    chains = [1 + number * 39 % 10_000 for number in range(256)]
    for number, chain in enumerate(chains, 1):
        cases.enrol(1, chain, 0, number, 1)
    cases.statement(chains[255], shows=(1, 1, 0, 0, 0))
    cases.close(1)
    for number, chain in enumerate(chains, 1):
        numbers = cases.statement(chain)
        if numbers[1:4] != [1, 0, number]:
            raise AssertionError("chain %d has %r" % (chain, numbers))
    for chain in chains[::16]:
        for beside in (chain - 1, chain + 1):
            cases.statement(beside, gives=0 if beside in CHAINS else 3)
    cases.dump_all()


def elements_of_all_sorts(cases):
    """16 categories, some of them closed; every chain that is used."""
    cases.new_book(*[number % 4 + 1 for number in range(16)])
    for number in range(16):
        cases.post(number + 1, 0, 1 + number, 1000 + number, 77 * number)
    enrol_and_quote(cases, 256)
    for number in (16, 2, 7, 9, 1):
        cases.close(number)
    for number in range(256):
        cases.statement(number * 37 % 10_000 + 1)
    cases.dump_all()


# Limits.

def largest_amounts(cases):
    """10^18 each on one chain, so 2 × 10^18 in total."""
    most = (EMISSIONS, EMISSIONS, 2 * EMISSIONS)
    # One element.
    cases.new_book()
    category(cases, 1, [(0, EMISSIONS, EMISSIONS)], [(0, 1, 1)])
    cases.statement(1, shows=(1, 1, 0, 0, 0))
    cases.close(1)
    cases.statement(1, shows=(1, 0, *most))
    cases.statement(2, shows=UNUSED)
    cases.dump_book()
    # One quote, then the most elements beside it.
    cases.new_book(4)
    cases.quote(10_000, 0, MASS, 1000, MASS, MASS)
    cases.statement(10_000, shows=(1, 0, *most))
    for _ in range(255):
        cases.enrol(1, 10_000, 2, MASS, 0)
    cases.statement(10_000, shows=(256, 255, *most))
    cases.close(1)
    cases.statement(10_000, shows=(256, 0, *most))
    cases.dump_book()


def large_amounts(cases):
    """10^18 in one amount alone, and less in one; then half of each by a
    closing and half by a quote."""
    for operation, provision in ((EMISSIONS, 0), (0, EMISSIONS),
                                 (EMISSIONS - 1, EMISSIONS)):
        cases.new_book()
        category(cases, 3, [(0, operation, provision)], [])
        cases.enrol(1, 2, 1, MASS, FARTHEST)
        cases.enrol(1, 2, 1000, HEADS, FARTHEST)
        cases.close(1)
        cases.statement(2, shows=(2, 0, operation, provision,
                                  operation + provision))
    half = EMISSIONS // 2
    cases.new_book()
    category(cases, 2, [(0, half, half)], [(100, 1, 1), (100, 1, 1)])
    cases.quote(2, 0, MASS, 500, MASS, MASS)
    cases.close(1)
    cases.statement(1, shows=(1, 0, half // 2, half // 2, half))
    cases.statement(2, shows=(2, 0, half + half // 2, half + half // 2,
                              3 * half))
    cases.dump_book()


def struck_entries(cases):
    """What is struck before the closing is in no statement; 10^18 may come
    twice."""
    cases.new_book()
    category(cases, 1, [(0, EMISSIONS, 0), (0, 0, 6)], [(0, 1, 1)])
    cases.strike(1)
    cases.statement(1, shows=(1, 1, 0, 0, 0))
    cases.post(1, 0, MASS, MASS, 0)
    cases.close(1)
    cases.statement(1, shows=(1, 0, EMISSIONS, 6, EMISSIONS + 6))
    cases.strike(2, gives=4)
    cases.statement(1, shows=(1, 0, EMISSIONS, 6, EMISSIONS + 6))
    cases.dump_book()


# Grounds.

def order_of_statement(cases):
    cases.new_book(1)
    cases.enrol(1, 1, 0, 1, 1)
    try_in_order(cases, "statement",
                 [((chain,), {3}) for chain in NO_CHAINS])
    cases.dump_book()


def unsound_and_short(cases):
    """Ground 1, whatever the chain; nothing is written."""
    cases.new_book()
    category(cases, 3, [(0, 9, 8), (1, 7, 6)], [(0, 1, 1), (1, 1, 1)])
    category(cases, 1, [(0, 5, 4)], [(0, 1, 1), (0, 1, 1)])
    cases.quote(1, 0, 1000, 1, 2, 3)
    cases.close(2)
    share = word(ELEMENTS, 3, "operation")
    for index, value in (
        (0, 0), (0, LARGEST), (1, 17), (2, 65), (3, 257), (3, LARGEST),
        (1, 1), (3, 6), (4, 5), (5, 2), (7, 0),
        (word(ENTRIES, 1, "struck"), 2), (word(ENTRIES, 3, "category"), 1),
        (word(ELEMENTS, 1, "activity"), 2), (word(ELEMENTS, 1, "chain"), 0),
        (word(ELEMENTS, 5, "chain"), 10_001),
        (word(ELEMENTS, 1, "operation"), 1),
        (word(ELEMENTS, 2, "provision"), LARGEST),
        (word(ELEMENTS, 5, "operation"), LARGEST),
        (share, cases.words[share] + 1), (share, LARGEST),
    ):
        value_before = cases.words[index]
        cases.poke(index, value)
        for chain in (1, 2, 3, 10_000, 0, 10_001):
            cases.statement(chain, gives=1)
        cases.poke(index, value_before)
    for lent in (0, 1, 3, 356, 2404, 2659):
        cases.lend(lent)
        for chain in (1, 3, 0, LARGEST):
            cases.statement(chain, gives=1)
    cases.dump_all()
    # Exactly the book is lent.
    cases.lend(book.LENGTH)
    cases.statement(1, shows=(3, 1, 5, 5, 10))
    cases.lend(player.MOST_WORDS)
    cases.statement(1, shows=(3, 1, 5, 5, 10))
    cases.dump_all()


def add(cases):
    values_of_statement(cases)
    like_numbers(cases)
    chains_and_other_words(cases)
    waiting_falls(cases)
    many_of_one_chain(cases)
    quotes_alone(cases)
    nothing_added(cases)
    uncounted_records(cases)
    other_share_words(cases)
    moved_shares(cases)
    full_book_of_one_chain(cases)
    full_book_of_256_chains(cases)
    elements_of_all_sorts(cases)
    largest_amounts(cases)
    large_amounts(cases)
    struck_entries(cases)
    order_of_statement(cases)
    unsound_and_short(cases)
