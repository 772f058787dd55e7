"""Words of other processors, assemblers, languages and shells, and what is written here in their place; and the instructions that this
processor has or leaves out."""

from __future__ import annotations

from collections.abc import Mapping
from typing import Protocol


class Known(Protocol):
    """A verb, as far as a hint speaks of it."""

    @property
    def example(self) -> str:
        ...

    @property
    def meaning(self) -> str:
        ...


DIRECTIVES = ("byte", "word", "align", "space", "def", "local")
INSTRUCTIONS = tuple(
    """j ldlp pfix ldnl ldc ldnlp nfix ldl adc call cj ajw eqc stl stnl opr
rev lb bsub endp diff add gcall in prod gt wsub out sub startp outbyte outword seterr resetch csub0 stopp ladd stlb sthf norm ldiv
ldpi stlf xdble ldpri rem ret lend testerr testpranal div disc diss lmul not xor bcnt lshr lshl lsum lsub runp xword sb gajw savel
saveh shr shl mint alt altwt altend and enbc enbs move or csngl ccnt1 ldiff sthb sum mul sttimer stoperr cword clrhalterr sethalterr
testhalterr""".split()
)
# Operations that this processor leaves out. All names that begin with `fp` belong to floating point.
LEFT_OUT = {
    "have no timers": "ldtimer tin dist enbt talt taltwt timerdisableh timerdisablel timerenableh timerenablel",
    "have no floating point": "unpacksn postnormsn roundsn ldinf cflerr",
    "leave this operation out": """fmul wcnt testhardchan testlds testlde testldd teststs testste teststd dup wsubdb bitcnt bitrevword
bitrevnbits crcword crcbyte move2dinit move2dall move2dnonzero move2dzero lddevid ldmemstartval break clrj0break setj0break testj0break""",
}
# What is written here instead of words of other assemblers.
SPEAKING = "A program has instructions and data alone, and no language"
ADVICE = {
    "ldc, ldl and ldnl load a word into A, and stl and stnl store it": """mov movb movw movl movq lea lda ldx ldr ldm ldi li lw sta stx
str stm sw load store""",
    "A, B and C are the stack: ldc and ldl push a word, and stl takes it off": "push pop",
    "j jumps to a label": "jmp bra goto",
    "cj jumps to a label if A is 0, and eqc and gt compare before it": """jz jnz je jne jg jl jge jle beq bne beqz bnez blt bge loop""",
    "eqc compares A with a number, gt compares B with A, and diff subtracts": "cmp test",
    "call calls a label, and ret goes back": "jsr bl gosub rts iret return",
    "pfix 0 does nothing": "nop skip",
    "stopp ends a process": "halt hlt exit stop end",
    "There is no system to ask: in and out receive and send bytes on a link": "int syscall ecall svc swi",
    "adc adds a number to A: adc 1, adc -1": "inc dec addi subi",
    "shl and shr shift B by A bits": "sal sar rol ror lsl lsr asr sll srl sra",
    "not and then adc 1 negate A": "neg",
    "byte writes bytes and strings": "db dcb .byte .db .ascii .asciz .string",
    "word writes words of four bytes": "dw dd dcd .word .long .int .dw .dd",
    "space writes bytes of 0: space 16": "resb resw resd .space .skip .zero",
    "align goes on at the next word": ".align .balign .p2align",
    "def gives a number a name: def size = 4": "equ .equ .set",
    "A program has no sections and no origin: each line is placed after the one above it": """org section segment global globl extern
include .org .section .text .data .bss .rodata .global .globl .extern .include""",
    SPEAKING: """seq par if else while for do print printf println puts var let const fun function proc main begin""",
}
BY_ADVICE = {word: advice for advice, words in ADVICE.items() for word in words.split()}
# Languages have these besides, or write so.
LANGUAGE = frozenset(
    """return echo import include from class fn val chan skip begin: goto gosub rem dim printf( #include""".split()
)
# Commands of a shell.
SHELL = frozenset(
    """ls ll dir cd pwd cat less more vi vim emacs nano ed gcc cc make as ld python python3 bash sh sudo su ssh scp cp mv
rm mkdir touch chmod man which tmux screen git farm lab live serve connect class""".split()
)
# A verb that does what the word asks for elsewhere.
VERBS = {
    "load": "run exec execute start go download flash compile assemble asm install program launch",
    "collect": "read recv receive get fetch input output show result results listen take",
    "send": "put print transmit say tx type enter",
    "join": "link wire attach plug route bind pair",
    "reset": "stop halt kill abort break cancel interrupt terminate end",
    "restart": "reboot init initialise initialize new fresh erase wipe format undo",
    "look": "status state stat ps top jobs info inspect examine regs registers node nodes",
    "why": "debug explain trace error errors what where problem wtf",
    "exercises": "exercise tasks task assignment assignments homework lessons",
    "check": "try verify grade mark judge",
    "submit": "handin hand-in hand deliver upload turnin",
    "submitted": "submissions handed marks points grades score",
    "ports": "port switch connections topology network map wiring host hosts links",
    "peek": "dump memory mem",
    "poke": "set store memset",
    "help": "h ? man commands usage verbs",
    "quit": "bye logout logoff leave close exit() quit() :q :q! :wq q ctrl-d",
}
# What disconnects has no verb of its own.
DISCONNECT = frozenset("disconnect unjoin unlink detach unplug separate cut".split())
# What empties a screen elsewhere.
CLEAR = frozenset("clear cls".split())
BY_WORD = {word: verb for verb, words in VERBS.items() for word in words.split()}


def left_out(word: str) -> str | None:
    """What is said of an operation that this processor leaves out, in small letters or capitals."""
    low = word.lower()
    group = next((it for it, names in LEFT_OUT.items() if low in names.split()), None)
    group = "have no floating point" if word[:2] in ("fp", "FP") else group
    return f"The farm's processors {group}" if group else None


def advice_on(word: str) -> str | None:
    """What is written here instead of a word of another assembler or of a language."""
    return BY_ADVICE.get(word.lower())


def meant(word: str, table: Mapping[str, Known]) -> str | None:
    """What is said to somebody at a terminal who types this word; none if it is no word of another system. `table` has the verbs that
    there are."""
    low = word.lower().rstrip(";:")
    if BY_WORD.get(low) in table:
        verb = table[BY_WORD[low]]
        return f"{BY_WORD[low]} {verb.meaning}. Try: {verb.example}"
    if low in CLEAR:
        return "Ctrl-L clears the screen, and restart makes your machine as it was opened. Try: help"
    load = table.get("load")
    if load is None:
        return None
    if low in DISCONNECT:
        return "Message 05 of the switch disconnects an output, here output 0. Try: config 0500"
    if low in INSTRUCTIONS or low in DIRECTIVES:
        return f"It is an instruction of a program, which is written into a file and loaded. Try: {load.example}"
    advice = SPEAKING if low in LANGUAGE or "=" in word or "(" in word else advice_on(low)
    if advice == SPEAKING:
        return f"Here are verbs alone, and no language. A program is a file in T414 assembly. Try an example: {load.example}"
    if advice:
        return f"It is an instruction of other processors. A program for this one is a file. Try an example: {load.example}"
    if low in SHELL:
        return "It is a command of the shell, and here are verbs alone; quit leads back to the shell. Try: help"
    return None
