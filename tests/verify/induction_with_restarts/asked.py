"""Of program types: with what is retained, and what isn't."""
from inductions import ask, bits, done, write

BELT = bits(*"RUN BEAT RESET MOTOR LOST BLIND BY_ITSELF SILENT WAITS STUCK_ON:TON STUCK_OFF:TON OLD_ON:TON OLD_OFF:TON".split())
EDGE = """PROGRAM P
VAR_INPUT GO : BOOL; END_VAR
VAR_OUTPUT GHOST, TWICE : BOOL; END_VAR
VAR RETAIN M : BOOL; END_VAR
|  GO     M
+--| |----(S)
|  M      GO     GHOST
+--|P|----|/|----( )
|  GHOST  M      TWICE
+--| |----|/|----( )
END_PROGRAM
CONFIGURATION C
  RESOURCE R1 ON NODE
  END_RESOURCE
END_CONFIGURATION
"""
half = bits("GO", "APART", "M", "K")
ask("half_retained.plant --program P --never APART", "HOLDS APART", names=half)
ask("half_retained.plant --program P --never APART --restarts", "FAILS APART 2", names=half, given="restarts before any scan")
ask("half_retained.plant --program p --never APART --restarts GO=0", "HOLDS APART", names=half, given="GO=0, restarts before any scan")

belt = "--program BELT --dt 100 --never BY_ITSELF"
ask(f"watchdog.plant {belt} --restarts", "HOLDS BY_ITSELF", names=BELT, given="dt 100 ms, restarts before any scan", networks=", 7 of 8 networks")
with open("watchdog.plant", encoding="ascii") as file:
    write("forgets.plant", file.read().replace("RETAIN SILENT, WAITS", "RETAIN WAITS : BOOL; END_VAR VAR SILENT"))
ask(f"forgets.plant {belt}", "HOLDS BY_ITSELF", names=BELT, given="dt 100 ms", networks=", 7 of 8 networks")
ask(f"forgets.plant {belt} --restarts", "FAILS BY_ITSELF 5", names=BELT, given="dt 100 ms, restarts before any scan", networks=", 7 of 8 networks")

# A restart forgets what the contact in its drawing's row 4 remembers, and not M.
write("it.plant", EDGE)
edge = bits("GO", "GHOST", "TWICE", "M", "M at 4:4")
ask("it.plant --program P --never GHOST", "HOLDS GHOST", names=edge, networks=", 2 of 3 networks")
ask("it.plant --program P --never GHOST --restarts", "FAILS GHOST 2", names=edge, given="restarts before any scan", networks=", 2 of 3 networks")
ask("it.plant --program P --never TWICE --restarts", "HOLDS TWICE", names=edge, given="restarts before any scan")
done()
