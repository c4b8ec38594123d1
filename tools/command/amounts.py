"""Amounts as they are shown: nothing is rounded."""


def grouped(number):
    """A whole number with `_` between groups of three digits."""
    return "{:_}".format(number)


def moved(number, places):
    """A whole number with the decimal point moved to the left by so many
    places, without zeros at the end."""
    whole, part = divmod(number, 10 ** places)
    decimals = str(part).zfill(places).rstrip("0") if part else ""
    return grouped(whole) + ("." + decimals if decimals else "")


def tonnes(micrograms):
    """10^12 µg are 1 t."""
    return moved(micrograms, 12)


def emissions(micrograms):
    """An amount in both units."""
    return "%s µg (%s t)" % (grouped(micrograms), tonnes(micrograms))


def counted(number, one, more=None):
    """A number of things, as "1 entry" or "2 entries"."""
    return "%d %s" % (number, one if number == 1 else more or one + "s")


# Tables.

LEFT, RIGHT, POINT = "left", "right", "point"


def aligned(rows, sides):
    """The lines of a table; each column is aligned left, right or by the
    decimal point."""
    columns = [column(cells, side)
               for cells, side in zip(zip(*rows), sides)]
    return ["  ".join(cells).rstrip() for cells in zip(*columns)]


def column(cells, side):
    if side == POINT:
        heading, *numbers = cells
        decimals = max([len(decimal_part(cell)) for cell in numbers] + [0])
        cells = [heading] + [cell + " " * (decimals - len(decimal_part(cell)))
                             for cell in numbers]
    width = max(map(len, cells))
    return [cell.ljust(width) if side == LEFT else cell.rjust(width)
            for cell in cells]


def decimal_part(cell):
    """The point and what is behind it."""
    return cell[cell.index("."):] if "." in cell else ""
