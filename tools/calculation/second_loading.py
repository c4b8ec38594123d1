"""Loading once more, by other means; the checks compare.

The bytes are walked through number by number. The calls are made on the
lists of second_way.py, which take nothing from a book.
"""

from calculation.second_way import Lists


def number_at(data, place, size):
    return int.from_bytes(data[place:place + size], "little")


def header_numbers(data):
    return [number_at(data, place, 4) for place in range(0, 32, 4)]


def refusal_of_header(words, data):
    """0 where the calls begin."""
    if len(words) < 2660:
        return 1
    if len(data) not in range(32, 16_385):
        return 11
    (mark, categories, first, entries, second, elements, third,
     length) = header_numbers(data)
    if (mark, length) != (14083, len(data)):
        return 11
    # Where the header ends, each section begins and ends, and the file ends:
    # none of these comes before the one before it.
    edges = [32, first, first + 8 * categories, second, second + 32 * entries,
             third, third + 48 * elements, length]
    return 0 if edges == sorted(edges) else 12


def calls_of_file(data):
    """Each call of a file: table, record, whether 13 stops it, name,
    arguments."""
    (_, categories, first, entries, second, elements, third,
     _) = header_numbers(data)
    flagged = []
    for number in range(1, categories + 1):
        place = first + 8 * number - 8
        flag = number_at(data, place + 4, 4)
        if flag == 1:
            flagged.append(number)
        yield 1, number, flag > 1, "open", [number_at(data, place, 4)]
    for number in range(1, entries + 1):
        place = second + 32 * number - 32
        yield 2, number, False, "post", [
            number_at(data, place, 4), number_at(data, place + 4, 4),
            number_at(data, place + 8, 8), number_at(data, place + 16, 8),
            number_at(data, place + 24, 8)]
    for number in range(1, elements + 1):
        place = third + 48 * number - 48
        category = number_at(data, place, 4)
        chain = number_at(data, place + 4, 4)
        code = number_at(data, place + 8, 4)
        measures = [number_at(data, place + 16, 8),
                    number_at(data, place + 24, 8)]
        if category == 0:
            yield 3, number, code > 0, "quote", [
                chain, number_at(data, place + 12, 4), *measures,
                number_at(data, place + 32, 8),
                number_at(data, place + 40, 8)]
        else:
            # No byte of the intensities is set, nor of adjust where it is
            # not the kg per head of passengers.
            unused = data[place + 32:place + 48]
            kg_per_head = 0
            if 100 <= code <= 1000:
                kg_per_head = number_at(data, place + 12, 4)
            else:
                unused += data[place + 12:place + 16]
            yield 3, number, any(unused), "enrol", [
                category, chain, code, *measures, kg_per_head]
    for number in flagged:
        yield 4, number, False, "close", [number]


def second_load(words, data):
    """The number, the table and the record; changes the words."""
    refusal = refusal_of_header(words, data)
    if refusal != 0:
        return [refusal, 0, 0]
    lists = Lists()
    numbers = [0, 0, 0]
    for table, record, stopped_by_13, name, arguments in calls_of_file(data):
        refusal = 13 if stopped_by_13 else getattr(lists, name)(*arguments)[0]
        if refusal != 0:
            numbers = [refusal, table, record]
            break
    words[:2660] = lists.words()
    return numbers
