"""The effective yearly rate of a loan by its definition in crates/mf_lists, over whole numbers."""

TRILLION = 10**12
MILLION = 10**6
MOST_DAILY_RATE = 2 * 10**10


def half_even(number, whole):
    quotient, rest = divmod(number, whole)
    return quotient + (2 * rest + quotient % 2 > whole)


def after_days(rate, days, balance):
    for _ in range(days):
        balance += half_even(balance * rate, TRILLION)
    return balance


def bears(rate, handed, instalments):
    """Whether no instalment takes more than is there; instalments are (days since the one before, cents). A balance never
    falls by itself, so one that has all that is still asked bears the rest."""
    balance, asked = MILLION * handed, MILLION * sum(cents for _, cents in instalments)
    for days, cents in instalments:
        for _ in range(days):
            if balance >= asked:
                return True
            balance = after_days(rate, 1, balance)
        balance, asked = balance - MILLION * cents, asked - MILLION * cents
        if balance < 0:
            return False
    return True


def by_definition(handed, instalments):
    """The yearly rate in hundredths of a percent; None where there is none."""
    low, high = 0, MOST_DAILY_RATE
    if not bears(high, handed, instalments):
        return None
    while low < high:
        middle = (low + high) // 2
        if bears(middle, handed, instalments):
            high = middle
        else:
            low = middle + 1
    return half_even(after_days(low, 365, TRILLION) - TRILLION, 10**8)
