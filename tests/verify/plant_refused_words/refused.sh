# Each line of words behind `plc verify` is refused: its status.
while read -r words; do
    "$PLC" verify $words >told 2>message
    status=$?
    [ -s told ] && echo "$words: something is told"
    [ -s message ] || echo "$words: no message"
    echo "$words: $status"
done <<END
zone.plant --never R1.A.INSIDE,
zone.plant --never ,R1.A.INSIDE
zone.plant --never ,
zone.plant --never R1.A.INSIDE,,R2.O.INSIDE
zone.plant --never R1.A.INSIDE --never INSIDE
zone.plant --never INSIDE --never R1.A.INSIDE
zone.plant --never R1.A.INSIDE,INSIDE
zone.plant --never A.INSIDE
zone.plant --never R1.T.A.INSIDE
zone.plant --never R3.A.INSIDE
zone.plant --never R1.O.INSIDE
zone.plant --never R1.A.OUTSIDE
zone.plant --never R1.A.WANT
zone.plant --never R1.A.KEPT
zone.plant --never R1.T.INSIDE
zone.plant --never R1.A.INSIDE,R2.O.GIVEN
zone.plant --never R1.A.INSIDE --never R2.O.OUTSIDE
switches.plant --never R2.G.CV
switches.plant --never R2.G.GAUGE
zone.plant --never R1.A.INSIDE --given INSIDE
zone.plant --never R1.A.INSIDE --given R2.O.GIVEN
zone.plant --never R1.A.INSIDE --given R2.O.OUTSIDE
switches.plant --never R1.D.BOTH --given R2.G.CV
zone.plant --never R1.A.INSIDE WANT=1
zone.plant --never R1.A.INSIDE %IX0=2
zone.plant --never R1.A.INSIDE %IX0=0..1
zone.plant --never R1.A.INSIDE %IX0=1 %ix00=1
zone.plant --never R1.A.INSIDE %QX0=1
zone.plant --never R1.A.INSIDE %IX65536=1
switches.plant --never R2.G.ABOVE %IW0=32768
switches.plant --never R2.G.ABOVE %IW0=2..1
switches.plant --never R2.G.ABOVE %IW0=0..32768
switches.plant --never R2.G.ABOVE %IW0=0..
switches.plant --never R2.G.ABOVE %IW0=..1
switches.plant --never R2.G.ABOVE %IW0=0..1..2
switches.plant --never R2.G.ABOVE %IW0=1 %IW0=0..1
zone.plant --never R1.A.INSIDE --dt -1
zone.plant --never R1.A.INSIDE --most-waiting some
zone.plant --never R1.A.INSIDE --no-restarts --no-restarts
zone.plant --never R1.A.INSIDE --no-restarts=1
END
