"""Words that restart a ladder before some of its scans; a few are refused."""

REFUSED = ["0", "00", "1000001", "", ",", "2,", ",2", "2,,3", "2,0", "+2", "-2", "2_0", "2 ", "1.5", "2-3", "x", "T#5ms", "4294967298", "18446744073709551618"]


def restart_words(chance, scans):
    """Words for some of about so many scans, in any order; now and then one lies behind the last, or comes twice."""
    given = []
    for _ in range(chance.choice([0, 0, 0, 1, 1, 2, 3])):
        numbers = ",".join(number(chance, scans) for _ in range(chance.choice([1, 1, 2, 3])))
        given += written(chance, chance.choice(REFUSED) if chance.random() < 0.02 else numbers)
    return given


def number(chance, scans):
    scan = chance.randint(1, scans + chance.choice([0, 0, 0, 2]))
    return chance.choice([str(scan)] * 12 + [f"0{scan}"])


def written(chance, numbers):
    return [f"--restart={numbers}"] if chance.random() < 0.3 else ["--restart", numbers]
