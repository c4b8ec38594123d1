"""The one rounding of the calculation.

Written from document 02's rounding: "Halves go to the even number." "Quotes,
intensities and workbook cells follow from now on, also the mean of a span."
Not the dividing rule, which "keeps its remainders".
"""


def nearest(number, divisor):
    """The whole number nearest to number / divisor, of two equally near the
    even one. Both are whole, the divisor is above 0."""
    whole, remainder = divmod(number, divisor)
    if 2 * remainder == divisor:
        return whole + whole % 2
    return whole + 1 if 2 * remainder > divisor else whole
