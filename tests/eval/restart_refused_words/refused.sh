# Each line of words behind `plc eval` is refused before a scan: its status.
while read -r words; do
    "$PLC" eval start_stop.ladder $words >told 2>message
    status=$?
    [ -s told ] && echo "$words: something is told"
    [ -s message ] || echo "$words: no message"
    echo "$words: $status"
done <<END
--restart
--restart=
--restart --chart
--restart ,
--restart 2,
--restart ,2
--restart 2,,3
--restart 2,0
--restart 0,2
--restart 3 --restart 0
--restart 2;3
--restart 2-3
--restart 2..3
--restart +2
--restart -2
--restart=-2
--restart 2_0
--restart 1.5
--restart 0x2
--restart x
--restart T#5ms
--restart 2*3
--restart 4294967298
--restart 18446744073709551618
--restart 2 3
--restarts 2
--restart START=1
END
