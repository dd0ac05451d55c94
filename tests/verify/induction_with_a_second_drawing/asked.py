"""Claims and what is given in a drawing of their own."""
from inductions import ask, bits, done, rung, write

write("drive.ladder", rung(" UP", "/STOP", " LIFT") + rung(" DOWN", "/STOP", " LOWER"))
LEVER = "|  UP              LEVER\n+--|/|-----+-------( )\n|  DOWN    |\n+--|/|-----+\n"
write("claims.ladder", rung(" LIFT", " LOWER", " BOTH") + LEVER + rung("NUP", "/SEEN", " UNSEEN") + rung(" UP", "SSEEN"))
# (an edge of the second drawing stands in the row that it has behind the first one and an empty row)
names = bits("UP", "STOP", "LIFT", "DOWN", "LOWER", "BOTH", "LEVER", "SEEN", "UNSEEN")
ask("drive.ladder --with claims.ladder --never BOTH", "FAILS BOTH 1", names=names, networks=", 3 of 6 networks")
ask("drive.ladder --with claims.ladder --never BOTH --given LEVER", "HOLDS BOTH", names=names, given="LEVER", networks=", 4 of 6 networks")
ask("drive.ladder --with claims.ladder --never UNSEEN", "HOLDS UNSEEN", names=[*names, "UP at 13:4"], networks=", 2 of 6 networks")
ask("drive.ladder --with claims.ladder --never LIFT", "FAILS LIFT 1", names=names, networks=", 1 of 6 networks")
done()
