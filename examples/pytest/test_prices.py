import pytest


def total(prices, discount=0):
    return sum(prices) - discount


def test_total():
    assert total([2, 3]) == 5


@pytest.mark.parametrize("discount, expected", [(0, 5), (1, 4)])
def test_discount(discount, expected):
    assert total([2, 3], discount) == expected


def test_negative():
    assert total([1], 2) == 0


def test_exchange_rate():
    pytest.skip("needs a network")
