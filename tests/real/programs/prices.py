"""The program that the sessions with debugpy debug."""


class Basket:
    def __init__(self, prices):
        self.prices = prices


def total(basket):
    result = 0
    for price in basket.prices.values():
        result += price
    return result


print("total", total(Basket({"tea": 3, "milk": 4})))
