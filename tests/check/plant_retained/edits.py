"""A plant with a retained variable, one text in it replaced by another, and what check then tells: the line and kind of the fault, or nothing."""
import subprocess
import sys

BLOCK = "VAR RETAIN M : BOOL; END_VAR"
# As many further names as a program may declare, beside GO, Q, L, M and K.
NAMES = ", ".join(f"X{k}" for k in range(995))
EDITS = [
    # Where RETAIN may stand.
    ("VAR_INPUT GO", "VAR_INPUT RETAIN GO", "2: Syntax"),
    ("VAR_INPUT GO", "VAR_INPUT\nretain GO", "3: Syntax"),
    ("VAR_OUTPUT Q", "VAR_OUTPUT RETAIN Q", "3: Syntax"),
    ("VAR_OUTPUT Q", "VAR_OUTPUT (* a\ncomment *) RETAIN Q", "4: Syntax"),
    ("VAR RETAIN M", "VAR RETAIN RETAIN M", "4: Syntax"),
    ("VAR RETAIN M", "VAR M RETAIN", "4: Syntax"),
    ("VAR RETAIN M", "VAR RETAIN", "4: Syntax"),
    ("M : BOOL", "RETAIN : BOOL", "4: Syntax"),
    ("M : BOOL", "M : RETAIN BOOL", "4: Syntax"),
    ("M : BOOL", "M : BOOL RETAIN", "4: Syntax"),
    ("END_VAR\nVAR RETAIN", "RETAIN END_VAR\nVAR", "3: Syntax"),
    ("VAR RETAIN", "RETAIN VAR", "4: Drawing NoLeftRail"),
    ("VAR RETAIN", "VAR_RETAIN", "4: Drawing NoLeftRail"),
    ("H WITH TICK", "RETAIN WITH TICK", "16: Syntax"),
    # Kinds.
    ("M : BOOL", "M : TON", "4: WrongKind"),
    ("M : BOOL", "M :\nctu", "5: WrongKind"),
    ("M : BOOL", "M : BOOL; X, Y : SR; Z : BOOLS", "4: WrongKind"),
    ("M : BOOL", "M : BOOLS; X : SR", "4: Syntax"),
    ("M : BOOL", "M : INT", "7: Bind WrongKind"),
    # Names.
    ("M : BOOL", "M, m : BOOL", "4: NameTwice"),
    ("VAR RETAIN M", "VAR RETAIN go", "4: NameTwice"),
    ("VAR K", "VAR RETAIN K, M", "5: NameTwice"),
    ("M : BOOL;", "", "7: Bind UnknownName"),
    ("M : BOOL", f"M : BOOL; {NAMES} : INT", ""),
    ("M : BOOL", f"M : BOOL; {NAMES}, X995 : INT", "5: TooMany"),
    # What is retained is a local.
    ("GO := %IX0", "M := %IX0", "16: UnknownName"),
    ("GO := %IX0", "GO := R1.H.M", "16: UnknownName"),
    # What may be left out or put in.
    (BLOCK, BLOCK, ""),
    ("VAR RETAIN", "var retain", ""),
    ("VAR RETAIN", "Var\n(* kept *)\tRetain", ""),
    ("VAR RETAIN", "VAR(**)RETAIN(**)", ""),
    ("M : BOOL", "M : Bool; N, O : int; P : time", ""),
    (BLOCK, "VAR M : BOOL; END_VAR VAR RETAIN END_VAR", ""),
    (BLOCK, f"VAR RETAIN N : TIME; END_VAR {BLOCK} VAR RETAIN END_VAR", ""),
    ("VAR K", "VAR RETAIN K", ""),
    ("VAR K : BOOL; END_VAR", "VAR K : BOOL; END_VAR\nVAR RETAIN\nN : INT;\nEND_VAR (* the last *)", ""),
    (f"{BLOCK}\nVAR K : BOOL; END_VAR", "VAR_OUTPUT END_VAR VAR RETAIN K, M : BOOL; END_VAR", ""),
]


def told(text):
    """What check tells first: the line and kind of a fault, or nothing."""
    with open("edited.plant", "w", encoding="utf-8", newline="") as file:
        file.write(text)
    ran = subprocess.run([sys.argv[1], "check", "edited.plant"], capture_output=True, text=True)
    return ran.stderr.partition("\n")[0].removeprefix("edited.plant:")


def main():
    with open("it.plant", encoding="utf-8") as file:
        whole = file.read()
    wrong = 0
    for old, new, wanted in EDITS:
        found = told(whole.replace(old, new, 1)) if old in whole else "no such text"
        if found != wanted:
            print(f"{new[:60]} for {old}: {found}, not {wanted}")
            wrong += 1
    print("each edit was answered" if wrong == 0 else f"{wrong} were not")


main()
