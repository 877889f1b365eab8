"""The program of each child process."""
import sys

PRICES = {"tea": 3, "milk": 4}


def price(item):
    result = PRICES[item]
    return result


print(sys.argv[1], price(sys.argv[1]))
