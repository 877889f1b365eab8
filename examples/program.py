"""The program that golden_test.py debugs."""


def total(prices):
    result = 0
    for price in prices:
        result += price
    return result  # the breakpoint


print("total", total([3, 4, 5]))
