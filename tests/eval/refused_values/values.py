"""Words whose values are refused: with status 2, before the first scan, whatever stands around them."""
import subprocess
import sys

PLC = sys.argv[1]
ITEMS = ["", ",", "{0},", ",{0}", "{0},,{0}", "{0} ", " {0}", "{0}, {0}", "{0};{0}", "{0}.", "({0})", '"{0}"', "{0}\n"]
COUNTS = ["*", "*0", "*00", "*1000001", "*18446744073709551617", "*-1", "*+1", "*1_0", "*1.0", "* 2", "*x", "*2*3"]
COUNTS += ["**2", "*2,", "*0x2", "*T#1s"]
BIT = ["2", "0,2", "-1", "+1", "1_0", "TRUE", "ON", "T#5s", "0" * 1001, "0," + "0" * 1001, "0" * 1001 + "*2", "#", "_"]
BIT += ["1*1000000,0", "0,1*1000000", "01*500001", "0" * 1000 + "*1001", "1*999999,01", "01*1000000"]
NUMBER = ["32768", "-32769", "1,32768", "99999999999999999999", "18446744073709551617", "+1", "--1", "-", "1-"]
NUMBER += ["_1", "1_", "1__0", "0x1", "1.5"]
NUMBER += ["1e3", "T#5s", "TRUE", "N", "1*1000000,0", "0,1*500000,2*500000", "١", "- 1"]
DURATION = ["5", "5s", "0", "T#", "T#5", "TIME#", "#5s", "T5s", "T#s", "T#2.5s", "T#-5s", "-T#5s", "T#1s1m"]
DURATION += ["T#5s5s", "T#1s__5ms", "T#1s_", "T#_1s"]
DURATION += ["T#1w", "T#1us", "D#5s", "LTIME#5s", "T #5s", "T# 5s", "T#1s 5ms", "T#2147483648ms", "T#25d"]
DURATION += ["T#24d20h31m23s648ms", "T#99999999999999999999d"]
DURATION += ["T#5s,T#2147483648ms", "T#5s*1000000,T#5s", "E"]
KINDS = [("GO", "1", BIT), ("N", "-7", NUMBER), ("P", "T#5s", DURATION)]
NAMES = ["T1", "C1", "TON", "T1.ET", "T1.Q", "C1.CV", "P.N", "NONE", "", " N", "N ", "N.", "2", "-N", "N*2", "N,C"]
TWICE = ["GO=1 go=0", "GO==1 GO==1*2", "N=1 n=2", "N==1 N=1 n==2", "P=T#5s GO=1 p=t#5s", "E==T#0ms E==T#0ms"]
ALONE = ["GO", "N", "P", "", "1", "GO===1", "N===1", "P===T#5s", "Y=2", "Y==0,", "C=T#5s", "C==", "E=5", "E==T#0ms*0"]


def refused():
    """The names and the values of the words that are refused, whether they set or expect."""
    for name, good, values in KINDS:
        for value in [*values, *(it.format(good) for it in ITEMS), *(good + it for it in COUNTS), *COUNTS]:
            yield name, value
    yield from [(name, value) for name in NAMES for value in ("1", "T#5s")]


def tests():
    """The words of each test: one is refused, with good ones before and behind it, or several together."""
    yield from (["UP=10", f"{name}{sign}{value}", "UP==1*2"] for name, value in refused() for sign in ("=", "=="))
    yield from (["UP=10", word, "UP==1*2"] for word in ALONE)
    yield from (it.split() for it in TWICE)


for words in tests():
    ran = subprocess.run([PLC, "eval", "delay_and_count.ladder", "--", *words], capture_output=True)
    told = ran.stderr.decode(errors="replace")
    if ran.returncode != 2 or ran.stdout or not told.startswith("plc: "):
        print(f"{' '.join(words)[:60]!r}: status {ran.returncode}, {ran.stdout[:60]!r}, {told!r}")
print("each word was refused before the first scan")
