"""A network of 200 rows whose only path goes down by one row in each column: a contact first, a coil last."""


def row(column, end):
    """Nothing between the left rail and a column, and the end from there on."""
    return "|" + " " * (column - 1) + end


print("|  A\n+--| |+")
for column in range(6, 203):
    print(row(column, "++"))
print(row(203, "++   Y"))
print(row(204, "++--( )"))
