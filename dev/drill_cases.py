"""What happens to the machines of dev/failover-drill, and what has to hold then. Not a script."""
import contextlib
import os
import shutil
import signal
import socket
import struct
import time

import drill_edge
from drill import ENOUGH, Drill, await_answers, cease, heard, looked_at, send_one_more, stop_listening, trading
from drill_machines import HOME, Machine, ran
from drill_store import contents
from drill_venue import Unit, alone, first_ready
from gikvand.programs import ROOT
from gikvand.words import sure
from traders import Member
from venues import Trouble, await_that

A_TCP_INFO, SINCE_DATA = 104, 52  # Bytes of what the system tells of a connection, and where in it the milliseconds since data came are.
HOLD, HELD, HOLDS = (f"{HOME}/{it}" for it in ("hold", "held", "hold.so"))


def at_work(drill: Drill, machine: Machine, words: list[str]) -> tuple[Unit, list[Unit], list[Member]]:
    """The venue that the machine serves, started so, those that wait at the other machines, and members who trade."""
    return drill.serve(machine, words), drill.standbys(machine), trading(machine, drill.rounds)


def killed(drill: Drill, machine: Machine) -> str:
    """The process is killed, and the two other machines try at once, at which people look at the journal all the time."""
    unit, standbys, traders = at_work(drill, machine, drill.words())
    with looked_at([drill.store.journal(it.machine) for it in standbys]):
        await_answers(traders, ENOUGH)
        return kill(drill, unit, standbys, traders, "a killed process")


def kill(drill: Drill, unit: Unit, standbys: list[Unit], traders: list[Member], what: str) -> str:
    """Kills the process, and lets members trade at the machine that goes on: what was seen."""
    since = time.monotonic()
    unit.end()
    new = drill.goes_on(standbys, since)
    drill.check(new.machine, traders)
    drill.end(new, drill.traded_on(new))
    return drill.took(f"{what}: the next machine is ready after", sure(new.ready(since)) - since)


def looked(drill: Drill, machine: Machine) -> str:
    """The process is killed right behind a write that makes a block count. The other machines have looked at the journal
    right before it: what they saw then may not be what they go on from."""
    if not shutil.which("cc"):
        return "isn't tried: it needs cc"
    unit = drill.serve(machine, [*holding(), *alone()])
    standbys = drill.standbys(machine)
    traders = trading(machine, drill.rounds)
    cease(traders)
    with open(HOLD, "wb"):
        send_one_more(traders[0])
    await_that("a write is held", lambda: os.path.exists(HELD))
    for it in standbys:
        contents(drill.store.journal(it.machine))
    os.remove(HOLD)
    cease(traders)
    return kill(drill, unit, standbys, traders, "killed behind a look")


def cached(drill: Drill, machine: Machine) -> str:
    """The same, where the machines that wait are mounted without the option that keeps the system from bytes of the journal: what
    the step drops before a start makes up for it."""
    others = [it for it in drill.machines if it is not machine]
    for it in others:
        drill.store.mount(it, is_guarded=False)
    said = looked(drill, machine)
    for it in others:
        drill.store.mount(it)
    return said


def stuck(drill: Drill, machine: Machine) -> str:
    """The store's client stands still on an idle machine, which isn't cut off: its lock stays, and its venue, which waits for the
    store, survives a kill. The watch ends the client too, and mounts anew."""
    unit, standbys, traders = at_work(drill, machine, drill.words())
    cease(traders)
    since = time.monotonic()
    os.kill(drill.store.client(machine), signal.SIGSTOP)
    ended = unit.await_line("status 137", since) - since
    new = drill.goes_on([*standbys, unit], since)  # (it may be the same machine, which has mounted anew)
    drill.check(new.machine, traders)
    drill.end(new, drill.traded_on(new))
    return (drill.took("a client that stands still: the next machine is ready after", sure(new.ready(since)) - since) + ", "
            + drill.took("the watch has ended the venue and the client after", ended))


def dies(drill: Drill, machine: Machine) -> str:
    """The machine dies: no packet, no disk, no process. It comes back later."""
    _, standbys, traders = at_work(drill, machine, drill.words())
    since = time.monotonic()
    machine.die()
    new = drill.goes_on(standbys, since)
    drill.check(new.machine, traders)
    later = drill.traded_on(new, machine)
    drill.store.come_back(machine)
    drill.end(new, later)
    return drill.took("a dead machine: the next one is ready after", sure(new.ready(since)) - since)


def parted(drill: Drill, machine: Machine) -> str:
    """The machine is cut off while members trade at it. What they are told there later is in the journal as well."""
    unit, standbys, traders = at_work(drill, machine, drill.words())
    since = time.monotonic()
    machine.cut()
    new = drill.goes_on(standbys, since)
    await_that("the venue that is cut off ends", lambda: unit.when("status ", since) or late(traders, new, since))
    if late(traders, new, since):
        raise Trouble("the venue that was cut off answers, though another one serves")
    ended = sure(unit.when("status ", since)) - since
    drill.check(new.machine, traders)
    last = max(0.0, *(it.heard_at - since for it in traders))
    later = drill.traded_on(new, machine)
    machine.join()
    drill.end(new, later)
    return (drill.took("cut off while trading: the next machine is ready after", sure(new.ready(since)) - since)
            + f", the last report came at {last:.2f} s, " + drill.took("the venue that is cut off ends after", ended))


def late(traders: list[Member], new: Unit, since: float) -> bool:
    """Whether something came to one of these members after the next venue was ready."""
    return max(map(came_at, traders)) > sure(new.ready(since))


def came_at(trader: Member) -> float:
    """When something came to a member last, as the system has it: this process may read that late. It may stand still between two lines
    as well, which must not make it later."""
    now = time.monotonic()
    info = trader.ends.getsockopt(socket.IPPROTO_TCP, socket.TCP_INFO, A_TCP_INFO)
    return now - struct.unpack_from("I", info, SINCE_DATA)[0] / 1000


def joined(drill: Drill, machine: Machine) -> str:
    """An idle machine is cut off, without the watch, and joined again. Then its members send one more, in vain."""
    unit, standbys, traders = at_work(drill, machine, alone())
    cease(traders)
    drill.store.leave_mount(machine)
    since = time.monotonic()
    machine.cut()
    new = drill.goes_on(standbys, since)
    stop_listening(traders)
    drill.check(new.machine, traders)
    later = drill.traded_on(new, machine)
    machine.join()
    await_that(f"{machine.name} sees the store", lambda: drill.store.reaches_all(machine), 0.2)
    for it in traders:
        send_one_more(it)
    await_that("the venue that was cut off ends", lambda: unit.when("status ", since) or any(map(heard, traders)))
    if any(map(heard, traders)):
        raise Trouble("the venue that was cut off answers")
    if not unit.when("status 2", since):
        raise Trouble(f"the venue that was cut off says {[line for at, line in unit.lines if at >= since]}")
    drill.store.see_to_mount(machine)
    drill.end(new, later)
    return drill.took("cut off while idle: the next machine is ready after", sure(new.ready(since)) - since)


def watch_ends(drill: Drill, machine: Machine) -> str:
    """An idle machine is cut off: the watch ends its venue."""
    unit, standbys, traders = at_work(drill, machine, drill.words())
    cease(traders)
    since = time.monotonic()
    machine.cut()
    ended = sure(unit.await_line("status 137", since)) - since
    new = drill.goes_on(standbys, since)
    drill.check(new.machine, traders)
    later = drill.traded_on(new, machine)
    machine.join()
    drill.end(new, later)
    return (drill.took("cut off while idle: the next machine is ready after", sure(new.ready(since)) - since) + ", "
            + drill.took("the watch ends the venue that is cut off after", ended))


def brick(drill: Drill, machine: Machine) -> str:
    """What keeps another machine's copy is killed while members trade: the venue goes on."""
    unit, standbys, traders = at_work(drill, machine, drill.words())
    since = time.monotonic()
    for it in traders:
        it.longest, it.heard_at = 0.0, since
    drill.store.kill_server(standbys[0].machine)
    await_answers(traders, ENOUGH)
    silence = max(it.silence() for it in traders)
    cease(traders)
    drill.store.start_servers()
    drill.end(unit, traders)
    return drill.took("a killed brick: members hear nothing for", silence)


def half(drill: Drill, machine: Machine) -> str:
    """The machine that serves dies when its last write, which makes a block count, is on one of the two others alone:
    the one that is read."""
    if not shutil.which("cc"):
        return "isn't tried: it needs cc"
    holder, second, third = drill.store.parts()
    drill.serve(holder, [*holding(), *alone()])
    unit = drill.unit(second, drill.words())
    traders = trading(holder, drill.rounds)
    cease(traders)
    stop_listening(traders)
    with open(HOLD, "wb"):
        send_one_more(traders[0])
    await_that("a write is held", lambda: os.path.exists(HELD))
    third.cut()
    os.remove(HOLD)
    await_that("the write is with one more", lambda: drill.store.is_torn(holder, second, third))
    since = time.monotonic()
    holder.die()
    third.join()
    new = drill.goes_on([unit], since)
    drill.check(new.machine, traders)
    later = drill.traded_on(new, holder)
    drill.store.come_back(holder)
    drill.end(new, later)
    return drill.took("half a write: the next machine is ready after", sure(new.ready(since)) - since)


def edge(drill: Drill, machine: Machine) -> str:
    """The machine dies, at which members are by the edge: the folder of one is on the volume, and that of the other one
    is lost, and made anew from the journal. At the next machine both miss nothing."""
    if why := drill_edge.missing():
        return f"isn't tried: {why}"
    drill.serve(machine, drill.words())
    standbys = drill.standbys(machine)
    desks = drill_edge.Desks(machine, drill.machines)
    try:
        desks.log_on()
        desks.make_room()
        desks.trade()
        desks.leave()
        since = time.monotonic()
        machine.die()
        new = first_ready(standbys, since)
        desks.start(new.machine, drill.left_out != "numbers")  # At once, as units that are bound to the venue's.
        served = time.monotonic() - since
        desks.log_on()
        back = time.monotonic() - since
        drill.goes_on(standbys, since)
        desks.miss_nothing(drill.store.journal(new.machine))
        desks.trade()
        desks.miss_nothing(drill.store.journal(new.machine))
        desks.close()
    finally:
        drill.edges += desks.units.values()
        desks.end()
    later = drill.traded_on(new, machine)
    drill.store.come_back(machine)
    drill.end(new, later)
    return (drill.took("a dead machine with edges: the next venue is ready after", sure(new.ready(since)) - since) + ", "
            + drill.took("the edges there serve after", served) + ", "
            + drill.took("members behind the edge are told all that they missed after", back))


def holding() -> list[str]:
    """The words before a program whose writes of one byte, which make a block count, wait as long as HOLD is there."""
    ran("cc", "-shared", "-fPIC", "-O1", "-o", HOLDS, os.path.join(ROOT, "dev/drill_hold.c"))
    with contextlib.suppress(FileNotFoundError):
        os.remove(HELD)
    return ["env", f"LD_PRELOAD={HOLDS}", f"HOLD={HOLD}", f"HELD={HELD}"]


CASES = {"killed": killed, "looked": looked, "cached": cached, "stuck": stuck, "dies": dies, "parted": parted,
         "joined": joined, "watched": watch_ends, "brick": brick, "half": half, "edge": edge}
