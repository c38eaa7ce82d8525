"""What the debugger shows, as lines of text."""
from __future__ import annotations

from typing import TYPE_CHECKING, Iterable, Iterator, Optional

from ..accesses import access_text, place_text
from ..agent import STACK
from ..limits import SLOTS
from ..replies import RUNNING
from ..stops import stop_kind
from .engine import Engine, Impossible, Stop
from .frames import CALL, TOP, Unreadable
from .lines import SourceLine, short
from .sources import lines_of
from .symbols import FRAME
from .types import Type, shown

if TYPE_CHECKING:
    from .terminal import Terminal

AROUND = 5
ROW = 16
CHARACTERS = Type("base", "char", 1, encoding=6)


def source_line(at: SourceLine, mark: str = "") -> str:
    """A source line with its number."""
    lines = lines_of(at.path)
    text = lines[at.line - 1] if 1 <= at.line <= len(lines) else f"({short(at.path)} can't be read)"
    return f"{mark}{at.line}\t{text}"


def source_lines(path: str, first: int, last: int, current: Optional[SourceLine]) -> Iterator[str]:
    """Lines of a source file, with the current one marked."""
    lines = lines_of(path)
    if not lines:
        raise Impossible(f"{short(path)} can't be read")
    if first > len(lines):
        raise Impossible(f"{short(path)} has {len(lines)} lines")
    for line in range(max(first, 1), min(last, len(lines)) + 1):
        here = SourceLine(path, line)
        yield source_line(here, "> " if here == current else "  ")


def both(number: int) -> str:
    """A word in decimal, and also as a signed number if that is another."""
    return f"{number}" if number < 1 << 63 else f"{number}, or {number - (1 << 64)}"


def machine_line(engine: Engine, number: int, is_selected: bool) -> str:
    """A machine: its state, and where it is."""
    registers = engine.registers(number)
    machine = engine.machine(number)
    is_begun = machine.last is not None or machine.goal is not None
    state = (
        "running"
        if machine.goal is not None or (engine.is_service and registers.state == RUNNING)
        else "standing"
        if registers.state == RUNNING or engine.is_own and not is_begun
        else registers.state
    )
    if machine.waits_for is not None:
        state += f", waits for object {machine.waits_for}"
    name = machine.program.function_name(registers.slot) if machine.program else ""
    at = machine.program.line_at(registers.slot) if machine.program else None
    where = f"{name or 'program'} at {at}" if at else f"slot {registers.slot}"
    unknown = "" if machine.program or not engine.programs else ", another program"
    return f"{'*' if is_selected else ' '} machine {number}: {state}, {where}, fuel {registers.fuel}{unknown}"


def stop_lines(engine: Engine, stop: Stop) -> Iterator[str]:
    """Why a machine stopped, and the source line where it is."""
    yield from stop.gone
    if stop.reason == "exit":
        yield f"machine {stop.machine} ended: {stop.text} ({both(engine.registers(stop.machine).values[0])})"
        return
    if stop.reason == "stopped":
        yield f"machine {stop.machine} stopped: {stop_text(stop)}"
        yield from access_lines(engine, stop)
    elif stop.reason == "breakpoint":
        yield f"machine {stop.machine}, breakpoint {', '.join(map(str, stop.breakpoints))}"
    elif stop.reason == "watch":
        numbers = f" {', '.join(map(str, stop.breakpoints))}" if stop.breakpoints else ""
        yield f"machine {stop.machine}, watchpoint{numbers}: {stop.text}"
    elif stop.reason == "finish":
        yield f"machine {stop.machine}: {stop.text}" + (f" {stop.value}" if stop.value else "")
    elif stop.reason not in ("step", "end") or stop.text:
        yield f"machine {stop.machine}: {stop.reason}{', ' if stop.text else ''}{stop.text}"
    yield from place_lines(engine, stop)


def place_lines(engine: Engine, stop: Stop) -> Iterator[str]:
    """Where a machine stands still."""
    frame = engine.frames(stop.machine)[0]
    if engine.machine(stop.machine).program and frame.at:
        yield f"{frame.name} at {frame.at}"
        yield source_line(frame.at)
    else:
        yield f"slot {stop.slot}: {engine.agent.line(stop.machine, stop.slot)}"


def stop_text(stop: Stop) -> str:
    """The stop of a program that has gone wrong, in words."""
    return f"{stop.text} ({stop_kind(stop.text).text})"


def access_lines(engine: Engine, stop: Stop) -> Iterator[str]:
    """Which memory an instruction was about to reach, if that stopped it."""
    if stop_kind(stop.text).is_access:
        found = access_text(
            engine.agent.line(stop.machine, stop.slot), engine.registers(stop.machine), {number: length for number, length, _ in engine.all_objects()}
        )
        if found:
            yield found


def disassembly(engine: Engine, number: int, slot: int) -> Iterator[str]:
    """The function to which a slot belongs, each instruction behind its source line, the current one marked."""
    program = engine.machine(number).program
    placed = program.image.linked.function_at(slot) if program and program.image.linked else None
    begin, end = (placed.slot, placed.end) if placed else (max(slot - 8, 0), slot + 16)
    now, before = engine.registers(number).slot, None
    if placed:
        yield f"{placed.function.name}:"
    for at in range(begin, end):
        reply = engine.agent.tell(f"line {number} {at}")
        if not reply.startswith("line "):
            continue
        line = program.line_at(at) if program else None
        if line and line != before:
            yield f"  {short(line.path)}:{source_line(line)}"
            before = line
        yield f"{'=>' if at == now else '  '} {at:5}: {reply.split(' ', 3)[3]}"


def memory_lines(engine: Engine, number: int, address: int, count: int, kind: str, size: int) -> Iterator[str]:
    """Memory from an address on, in a form of `x`."""
    if kind == "i":
        yield from or_else(instruction_lines(engine, number, range(address, min(address + count, SLOTS))), f"no instruction begins at slot {address}")
        return
    if kind == "s":
        yield from text_lines(engine, number, address, count)
        return
    content = engine.memory(number, address, count * size)
    for begin in range(0, len(content), ROW):
        row = content[begin : begin + ROW]
        yield f"0x{address + begin:x} <{place_text(address + begin)}>: " + " ".join(unit(row[at : at + size], kind) for at in range(0, len(row), size))


def text_lines(engine: Engine, number: int, address: int, count: int) -> Iterator[str]:
    """So many texts from an address on, each up to its zero byte, or to the end of the memory there."""
    for _ in range(count):
        content = text_at(engine, number, address)
        yield f"{place_text(address)}: {shown(Type('array', target=CHARACTERS, count=len(content), size=len(content)), content)}"
        address += len(content)


def text_at(engine: Engine, number: int, address: int) -> bytes:
    """The bytes of a text, its zero byte included."""
    content, size = b"", ROW
    while True:
        try:
            piece = engine.memory(number, address + len(content), size)
        except Unreadable:
            if size == 1:
                if content:
                    return content
                raise
            size = 1
            continue
        text, zero, _ = piece.partition(b"\0")
        content += text + zero
        if zero:
            return content


def instruction_lines(engine: Engine, number: int, slots: Iterable[int]) -> Iterator[str]:
    """The instructions that begin at slots of a machine."""
    for slot in slots:
        reply = engine.agent.tell(f"line {number} {slot}")
        if reply.startswith("line "):
            yield f"{slot:5}: {reply.split(' ', 3)[3]}"


def unit(content: bytes, kind: str) -> str:
    """A unit of memory in a form."""
    value = int.from_bytes(content, "little")
    if kind == "d":
        return str(int.from_bytes(content, "little", signed=True))
    if kind == "c":
        return shown(Type("base", size=1, encoding=6), content[:1])
    return str(value) if kind == "u" else f"0x{value:0{2 * len(content)}x}"


# ---- info


def or_else(lines: Iterable[str], none: str) -> Iterator[str]:
    """The lines, or this one if there are none."""
    count = 0
    for count, line in enumerate(lines, 1):
        yield line
    if not count:
        yield none


def info_breakpoints(terminal: Terminal) -> Iterator[str]:
    """The breakpoints."""
    points = terminal.engine.breakpoints.values()
    lines = (f"{it.number}: {it.text} at {it}{', once' if it.terms.is_temporary else ''}, {it.hits} hit{'s' * (it.hits != 1)}" for it in points)
    return or_else(lines, "no breakpoints")


def info_watchpoints(terminal: Terminal) -> Iterator[str]:
    """The watched values."""
    watches = terminal.engine.watches.values()
    return or_else((f"{it.number}: {it.text}, machine {it.machine}, {it.length} bytes at {place_text(it.address)}" for it in watches), "no watchpoints")


def info_display(terminal: Terminal) -> Iterator[str]:
    """The expressions that are shown at each stop."""
    return or_else((f"{number}: {'/' + form + ' ' if form else ''}{text}" for number, (form, text) in terminal.displays.items()), "no displays")


def info_machines(terminal: Terminal) -> Iterator[str]:
    """The machines."""
    for number in sorted(terminal.engine.machines):
        yield machine_line(terminal.engine, number, number == terminal.selected)


def info_objects(terminal: Terminal) -> Iterator[str]:
    """The objects. The protocol has no list of them, so each number is asked for."""
    found = terminal.engine.all_objects()
    yield from or_else((f"object {number}: {length} bytes at 0x{number << 32:x}, {place}" for number, length, place in found), "no objects")
    if terminal.engine.is_service and any(place == "away" for _, _, place in found):
        yield "asking for the objects that are away has the service bring them back"


def info_scopes(terminal: Terminal) -> Iterator[str]:
    """Which objects are in a scope of some machine: those are refused to leave."""
    for number, _, place in terminal.engine.all_objects():
        yield f"object {number}: {terminal.engine.scoped(number) if place == 'here' else place}"
    yield "the protocol doesn't show which machine holds a scope"


def info_registers(terminal: Terminal) -> Iterator[str]:
    """The registers of the frame that is looked at."""
    frame, registers = terminal.frame, terminal.engine.registers(terminal.selected)
    for number, value in enumerate(frame.registers):
        yield f"r{number:<3}" + (
            "not shown by the protocol" if value is None else f"0x{value:016x}  {value}" + (f"  <{place_text(value)}>" if value >> 32 else "")
        )
    yield f"slot {registers.slot}, fuel {registers.fuel}, {registers.state}"


def info_locals(terminal: Terminal) -> Iterator[str]:
    """The variables of the frame that is looked at."""
    context = terminal.engine.context(terminal.frame)
    return or_else((f"{it.name} = {context.value_of(it)}" for it in context.variables()), "no variables")


def info_frame(terminal: Terminal) -> Iterator[str]:
    """The frame that is looked at."""
    frame = terminal.frame
    top = frame.registers[FRAME]
    yield f"#{terminal.level} {frame}"
    if top is not None:
        begin = (top & 0xFFFF_FFFF) - CALL if top >> 32 == STACK else 0
        yield f"R10 is 0x{top:x}, {(TOP - top) // CALL} calls are open, the frame's {CALL} bytes begin at stack+{begin}"


def info_line(terminal: Terminal) -> Iterator[str]:
    """The source line of the frame."""
    frame = terminal.frame
    yield f"slot {frame.slot} is of {frame.at}" if frame.at else f"slot {frame.slot} has no source line"


def info_functions(terminal: Terminal) -> Iterator[str]:
    """The functions of the program, by slot."""
    for program in terminal.engine.programs:
        linked = program.image.linked
        for placed in linked.functions if linked else ():
            at = program.line_at(placed.slot)
            yield f"slots {placed.slot} to {placed.end - 1}: {placed.function.name}{f' at {at}' if at else ''}"


def info_sources(terminal: Terminal) -> Iterator[str]:
    """The source files of the programs."""
    for program in terminal.engine.programs:
        yield from program.symbols.lines.paths() if program.symbols else [f"{program.image.path}: {program.why}"]
