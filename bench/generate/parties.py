"""Invented banks, people and accounts; check digits by ISO 7064 mod 97-10."""


def with_check(country, bban):
    number = int("".join(str(int(c, 36)) for c in bban + country + "00"))
    return f"{country}{98 - number % 97:02d}{bban}"


def digits(n, width):
    return str(n % 10 ** width).zfill(width)


# country -> account of a bank code and a number, in the length that the country uses
def account(country, bank, n):
    if country == "DE":
        return with_check("DE", digits(bank, 8) + digits(n, 10))
    if country == "FR":
        rib = digits(bank, 5) + digits(bank // 7, 5) + digits(n, 11)
        return with_check("FR", rib + digits(97 - int(rib + "00") % 97, 2))
    if country == "NL":
        return with_check("NL", "MEUS" + digits(n, 10))
    if country == "BE":
        body = digits(bank, 3) + digits(n, 7)
        return with_check("BE", body + digits(int(body) % 97 or 97, 2))
    if country == "AT":
        return with_check("AT", digits(bank, 5) + digits(n, 11))
    if country == "IT":
        return with_check("IT", "X" + digits(bank, 5) + digits(bank // 3, 5) + digits(n, 12))
    if country == "ES":
        return with_check("ES", digits(bank, 4) + digits(bank // 3, 4) + "91" + digits(n, 10))
    if country == "FI":
        return with_check("FI", digits(bank, 6) + digits(n, 8))
    raise ValueError(country)
