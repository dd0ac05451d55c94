"""A network of 200 rows whose only path goes up by one row in each column: a contact first, in the lowest row, a coil last."""


def row(column, end):
    """Nothing between the left rail and a column, and the end from there on."""
    return "|" + " " * (column - 1) + end


print(row(208, "Y"))
print(row(204, "++--( )"))
for column in range(203, 6, -1):
    print(row(column, "++"))
print("|  A  ++\n+--| |+")
