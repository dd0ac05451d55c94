"""What contacts and coils of edges remember is called by their variable and place: nothing else lets these claims hold."""
import re

from inductions import ask, bits, done, plc, rung, told, write

# Each is on only where its edge remembers that GO was on, and then GO is in SEEN.
CLAIMS = {
    "a contact of a fall": (rung(" GO", "SSEEN") + rung("NGO", "/SEEN", " WRONG"), ["GO at 4:4"], "GO"),
    "a coil of a fall": (rung(" GO", "SSEEN") + rung(" GO", "NFALL") + rung(" FALL", "/SEEN", " WRONG"), ["FALL at 4:12"], "FALL"),
}
for what, (text, edges, _) in CLAIMS.items():
    write("it.ladder", text)
    more = ["FALL"] if "FALL" in text else []
    ask("it.ladder --never WRONG", "HOLDS WRONG", names=bits("GO", "SEEN", *more, "WRONG", *edges))
    ran = plc(["verify", "it.ladder", "--never", "WRONG", "--by=induction", "--certificate=why"])
    with open("why", encoding="ascii") as file:
        head, *clauses = file.read().splitlines()
    literals = [set(re.fullmatch(r"not \((.*)\)", it)[1].split(" and ")) for it in clauses]
    if head != f"WRONG is never on: {len(clauses)} clause{'s' * (len(clauses) != 1)}" or {*edges, "not SEEN"} not in literals:
        told.append(f"{what}: {[head, *clauses]}")
done()
