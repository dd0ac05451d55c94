"""Words with items and repeats, and of INT and TIME values; a few are refused."""

COUNTS = [1, 1, 2, 2, 3, 5, "02", 30]
VALUES = {
    "INT": ["0", "1", "1", "2", "3", "7", "-1", "-7", "-0", "0_4", "007", "32767", "-32768"],
    "TIME": ["T#0ms", "T#5ms", "T#10ms", "t#10MS", "TIME#20ms", "T#25ms", "T#1s_500ms", "T#1d", "T#2147483647ms"],
}
REFUSED_ITEMS = ["", "*2", "1*", "1*0", "1*00", "1*-1", "1*+1", "1*1_0", "1*2*3", "1*1000001", "1 ", "2", "1*x", "-1"]
REFUSED = {
    "BOOL": [*REFUSED_ITEMS, "01*500001", "1*1000000,0", "T#5ms", "0;1", "#"],
    "INT": [*filter(lambda it: it not in ("2", "-1"), REFUSED_ITEMS), "32768", "-32769", "+1", "--1", "-", "1_", "1.5", "T#5ms", "0x1"],
    "TIME": [*REFUSED_ITEMS, "5ms", "T#", "T#5", "T#-5ms", "-T#5ms", "T#1.5s", "T#5ms1s", "T#2147483648ms", "T#25d", "T#5ms*0", "T#5ms*"],
}


def with_items(chance, given):
    """The words of an evaluation, some of their rows of digits parted into items."""
    return [parted(chance, it) if is_of_values(it) and chance.random() < 0.6 else it for it in given]


def is_of_values(word):
    return "=" in word and not word.startswith("-")


def parted(chance, word):
    """A word of digits, in items of which some come several times."""
    name, digits = word[: word.rindex("=") + 1], word[word.rindex("=") + 1 :]
    items = []
    while digits:
        size = chance.randint(1, len(digits))
        items.append(repeated(chance, digits[:size]))
        digits = digits[size:]
    return name + ",".join(items)


def repeated(chance, value):
    return value if chance.random() < 0.5 else f"{value}*{chance.choice(COUNTS)}"


def value_words(chance, names):
    """Words that set some of these names, each with its kind, to values, or expect values of them."""
    given = []
    for name, kind in names:
        values = ",".join(repeated(chance, chance.choice(VALUES[kind])) for _ in range(chance.randint(1, 4)))
        given += [[], [f"{name}={values}"], [f"{name}={values}"], [f"{name}={values}", f"{name}=={values}"], [f"{name}=={values}"]][chance.randrange(5)]
    return given


def refused_word(chance, name, kind):
    """A word of this name whose values are refused."""
    good = {"BOOL": "01", **{it: VALUES[it][1] for it in VALUES}}[kind]
    items = [good] * chance.randint(0, 2)
    items.insert(chance.randint(0, len(items)), chance.choice(REFUSED[kind]))
    return f"{name}{chance.choice(['=', '=='])}{','.join(items)}"
