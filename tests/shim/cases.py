"""The commands that are played with faults, and what each does where nothing fails, as the manual has it."""

import dataclasses
import itertools

TEXT, CODE = 1, 2


@dataclasses.dataclass
class About:
    """A case: a command, what is there before it, and what it does."""

    name: str
    words: str
    # What it does, in its order: bytes that it shows; the files that its disk holds from then on; Printed and Kept.
    does: tuple
    status: int = 0
    input: bytes = b""
    # The folder is made of these files and by these commands; then the disk holds these.
    files: dict = dataclasses.field(default_factory=dict)
    before: tuple = ()
    disk: dict = dataclasses.field(default_factory=dict)
    # After a fault of the disk nothing is known of it.
    disk_is_lost: bool = False
    # If so many lines of a session have no memory: what it shows, and the files of its disk.
    lines: list = dataclasses.field(default_factory=list)
    # If a search has no memory: its status, what it may show as an expression, and the files that are kept.
    searched: list = dataclasses.field(default_factory=list)


@dataclasses.dataclass
class Printed:
    some: bytes


@dataclasses.dataclass
class Kept:
    """A file that is kept, with its bytes where these are known here."""

    name: str
    some: bytes | None = None


# It uses all that a program can reach. With the input q it shows q, y where the file new is stored, 1 and 2, the first
# character of the file old, and z where old is removed; it prints q and p.
WORKS = b"""array name [1:12] (char)
proc main(proc accept(var c: char); proc display(c: char); proc print(c: char); proc find(title: name; var found: bool);
  proc read(var c: char); proc fresh; proc write(c: char); proc close(title: name; var done: bool);
  proc remove(title: name; var done: bool))
var c: char; done: bool
begin
  accept(c); display(c); print(c);
  fresh; write('w'); write(c); close(name('new         '), done);
  if done do display('y') end;
  cobegin 1 do when true do display('1') end also 2 do when true do display('2') end end;
  find(name('old         '), done);
  if done do read(c); display(c) end;
  remove(name('old         '), done);
  if done do display('z') end;
  print('p')
end
"""
HELLO = b"proc main(proc display(value: char)) begin display('a') end\n"
WAITS = b"proc main(proc display(value: char)) begin display('w'); when false do skip end end\n"
RACE = b"""proc main(proc display(value: char))
var x: int
begin cobegin 1 do when x = 0 do display('a'); x := 1 end
also 2 do when true do display('b') end end end
"""
FIRST, SECOND, LONG = (TEXT, 0, b"o\n"), (TEXT, 0, b"wq"), b"m" * 513
OLD, BOTH, NEW = {"old": FIRST}, {"old": FIRST, "new": SECOND}, {"new": SECOND}
WITH_OLD = ("newdisk 64", "put old old")


def works(branches):
    """What it does, if its branches show this."""
    return b"q", Printed(b"q"), BOTH, b"y" + branches + b"o", NEW, b"z", Printed(b"p")


# An image of version 1 without files.
BLANK = b"EDIS\0\1\0\100" + bytes(32760)

# The code of a program that shows a, whose `display` stands on line 2: docs, "Code files", "A sample".
WORDS = (33, 9, 0, 3, 0, 0, 1, 97, 35, 0, 5, 2, 37, 0, 0)
COMPILED = bytes.fromhex("ED150002 0000000F 00000000 0102") + bytes(18)
COMPILED += b"".join(it.to_bytes(2, "big") for it in WORDS)
LISTING = b"      0 ENTRY 9 0 3 0 0\n      6 CONST 97\n      8 CALLP 0 5 1\n     12 RETURN 0 0\n"

# A session, and what it shows: each line after `> `, but for those of the entered text and of the editor.
ENTERED = b"proc main(proc display(value: char))\nbegin display('a') end\n"
SESSION = b"enter t\n" + ENTERED + b".\ncompile t c\nc\ncopy t u\nedit u\ni 1\nx\nw\ntype u\ndelete t\nhalt\n"

# The files of its disk after enter, compile, copy, edit and delete.
T, C, U = (TEXT, 0, ENTERED), (CODE, 0, COMPILED), (TEXT, 0, b"x\n" + ENTERED)
MOMENTS = (
    *(b"> enter t\n", {"t": T}, b"> compile t c\n", {"t": T, "c": C}),
    *(b"> c\na\n> copy t u\n", {"t": T, "c": C, "u": T}, b"> edit u\n", {"t": T, "c": C, "u": U}),
    *(b"> type u\nx\n" + ENTERED + b"> delete t\n", {"c": C, "u": U}, b"> halt\n"),
)


def session(without):
    """What it shows and the files of its disk, if these of its lines have no memory."""
    shown, disk = b"> enter t\n> compile t c\n", {"t": T}
    if "compile" in without:
        shown += NO_MEMORY + b"> c\nno file c\n"
    else:
        shown += b"> c\n" + (NO_MEMORY if "c" in without else b"a\n")
        disk["c"] = C
    shown, disk["u"] = shown + b"> copy t u\n> edit u\n", T
    if "edit" in without:
        # The lines of the editor are lines of the session then.
        shown += NO_MEMORY + b"> i 1\nbad command\n> x\nno file x\n> w\nno file w\n"
    else:
        shown += NO_MEMORY if "i 1" in without else b""
        if "w" in without:
            # The editing goes on, and what follows is no line of it.
            return shown + NO_MEMORY + b"bad edit\n" * 3, disk
        disk["u"] = T if "i 1" in without else U
    del disk["t"]
    return shown + b"> type u\n" + disk["u"][2] + b"> delete t\n> halt\n", disk


NO_MEMORY, TAKING = b"no memory\n", ("compile", "c", "edit", "i 1", "w")
WITHOUT = [(n, *session(some)) for n in range(1, 6) for some in itertools.combinations(TAKING, n)]

# Of an undeclared name, which stands after `begin `: edi_explain/specs/told, `name_text`.
EXPLAINED = b"""2: begin f end
         ^
the name 'f' seems to mean nothing here
A name of this line means nothing here. Each of these may be the reason:
- It is a call of the system that the heading does not name. Write proc main(proc display(c: char)) for display.
- It is declared nowhere, or spelled in another way: 'Int' is not 'int'. The standard types are int, char and bool.
- It is declared further down. Move it up; or put 'pre proc' and its heading above, and 'post' before the later 'proc'.
- Its procedure or its module has ended. A module shows what has a '*' before its declaration, as in * var x: int.
- It stands after a period, and the record has no field of this name.
"""

# A text that is explored. Where branch 2 is first, branch 1 waits for ever: entry, fork, two arrivals, an end and an attempt; else both end.
# The states: before the entry, after the fork, one branch has arrived or ended, or the other, or both in each of the ways that there are.
EITHER = b"""proc main(proc accept(var value: char))
var x: int; c: char
begin
  accept(c); x := 0;
  cobegin 1 do when x = 0 do x := 1 end
  also 2 do when true do x := 2 end end
end
"""
STANDS = b"standstill after 6 turns: choices 0 0 1 in r.1\n  1.1 waits at line 5\n"
DONE = b"done after 7 turns: no choices in r.2\n"
LACKING = rb"perhaps not all: memory ran out(; every execution of fewer than [0-9]+ moves? was followed)?; [0-9]+ states?\n"
ALL = b"no execution ends otherwise; 10 states\n"
# The fork, two arrivals and two ends of branches; x is used in critical phases alone.
MOVES = b"no execution makes more than 5 moves\n"
ORDERS = b"no order of steps ends otherwise, but perhaps by process limit\n"
SEARCHED = [
    (20, LACKING + b"not all\n", ()),
    (19, STANDS + LACKING + b"found 1\n", ("r.1",)),
    (19, STANDS + DONE + LACKING + b"found 1\n", ("r.1", "r.2")),
    (19, STANDS + DONE + ALL + ORDERS + b"found 1\n", ("r.1", "r.2")),
]

CASES = [
    # Seed 7 begins with 230 and 15: branch 1 arrives and goes on to its end, and then branch 2 is alone.
    About(
        "run", "run works --seed 7 --record r", (*works(b"12"), Kept("r", b"230\n15\n")), input=b"q",
        files={"works": WORKS, "old": b"o\n"}, before=WITH_OLD, disk=OLD,
    ),
    About("no_disk", "run hello", (b"a",), files={"hello": HELLO}),
    # main, its arrival, its attempt: then nothing can happen.
    About("standstill", "run waits --record r", (b"w", Kept("r", b""), b"\nstandstill\n"), 17, files={"waits": WAITS}),
    # The same with its dump, for which the text is read once more after the run.
    About(
        "dump", "run waits --record r --dump d",
        (b"w", Kept("r", b""), Kept("d", b"standstill\nmain is at the when of line 1 in main\n  main\n    display = proc\n"), b"\nstandstill\n"), 17,
        files={"waits": WAITS},
    ),
    About("replay", "replay race c", (b"ba",), files={"race": RACE, "c": b"1\n"}),
    # The choice 1 lets branch 2 arrive first; then 0 and 0 take branch 1 to its `when`, and branch 2 to its end.
    About(
        "exec", "exec code --choices c --record r", (*works(b"21"), Kept("r", b"1\n0\n0\n")), input=b"q",
        files={"works": WORKS, "c": b"1\n", "old": b"o\n"}, before=(*WITH_OLD, "compile works code"), disk=OLD,
    ),
    # Its `display` stands on line 1.
    About(
        "compile", "compile hello code", (Kept("code", COMPILED.replace(b"\0\5\0\2", b"\0\5\0\1")),),
        files={"hello": HELLO},
    ),
    About("refused", "compile cut code", (b"line 2 invalid syntax\n",), 2, files={"cut": b"proc\n"}),
    About("list", "list code", (LISTING,), files={"hello": HELLO}, before=("compile hello code",)),
    About(
        "explain", "explain undeclared", (EXPLAINED, b"line 2 undeclared name\n"), 2, files={"undeclared": b"proc main\nbegin f end\n"},
    ),
    About(
        "explore", "explore either --record r",
        (STANDS + DONE + ALL + MOVES + ORDERS, Kept("r.1", b"0\n0\n1\n"), Kept("r.2", b""), b"found 1\n"), 19,
        input=b"qqq", files={"either": EITHER}, searched=SEARCHED,
    ),
    About("check", "check race", (b"line 3 branches 1 2 may share\n",), files={"race": RACE}),
    About(
        "watch", "watch race both log --choices c --record r",
        (b"ba", Kept("log", b"turn 3 line 4 x 0\nturn 4 line 3 x 0\n"), Kept("r", b"1\n0\n0\n")),
        files={"race": RACE, "c": b"1\n", "both": b"3 x\n4 x\n"},
    ),
    # In turn: both arrive, and each attempt holds.
    About(
        "walk", "walk works c", works(b"12"), input=b"q",
        files={"works": WORKS, "c": b"0\n", "old": b"o\n"}, before=WITH_OLD, disk=OLD,
    ),
    About("demo", "demo 1 --record r", (Kept("r"), b"demo 1 symbols 32 turns 11\n")),
    About("newdisk", "newdisk 64", ({},), files={"old": b"o\n"}, before=WITH_OLD, disk=OLD, disk_is_lost=True),
    About(
        "from", "newdisk 64 --from blank", ({},), files={"old": b"o\n", "blank": BLANK},
        before=WITH_OLD, disk=OLD, disk_is_lost=True,
    ),
    About(
        "put", "put more old", ({"old": (TEXT, 0, LONG)},),
        files={"old": b"o\n", "more": LONG}, before=WITH_OLD, disk=OLD,
    ),
    # A protected file is released, and then replaced.
    About(
        "put_protected", "put more old", (OLD, {"old": (TEXT, 0, LONG)}), disk={"old": (TEXT, 1, b"o\n")},
        files={"old": b"o\n", "more": LONG, "shell": b"protect old\n"}, before=(*WITH_OLD, "boot < shell"),
    ),
    About("get", "get old back", (Kept("back", b"o\n"),), files={"old": b"o\n"}, before=WITH_OLD, disk=OLD),
    About("boot", "boot", MOMENTS, input=SESSION, before=("newdisk 64",), lines=WITHOUT),
]
