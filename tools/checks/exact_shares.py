"""How far shares are from the exact ones, over whole numbers."""


def check_exact_shares(check, elements, pools, place):
    """Each share is less than 3 µg from the exact one, above and below.

    The elements are those of one category, each with the words of its
    record: code, amount, distance and activity are the words 2 to 5, kg per
    head is the word 8, the share is the word `place`. The pools are A, B1 and
    B2.

    "Freight of activity a in group g: A×a/(F+P), plus B×a/S if g is 1 or 2
    [...]. Passengers of activity c: A×P×c/((F+P)×C)." "P uses the stated
    mass, and so does the exact share"; 0 is 100. "A comparison with a
    fraction [...] is made over whole numbers, both sides multiplied by its
    denominators".
    """
    by_group = [sum(element[5] for element in elements if element[2] == group)
                for group in (0, 1, 2)]
    freight = sum(by_group)
    heads = [element for element in elements if element[2] > 2]
    p = sum((element[8] if element[8] > 0 else 100) * element[3] * element[4]
            for element in heads)
    c = sum(element[5] for element in heads)
    for element in elements:
        code, activity, share = element[2], element[5], element[place]
        if code == 0:
            above, below = pools[0] * activity, freight + p
        elif code < 3:
            s = by_group[code]
            above = pools[0] * activity * s + pools[code] * activity * (
                freight + p)
            below = (freight + p) * s
        else:
            above, below = pools[0] * p * activity, (freight + p) * c
        check(abs(share * below - above) < 3 * below,
              "less than 3 from the exact share", element, pools)
