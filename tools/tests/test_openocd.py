#!/usr/bin/env python3
"""Tests the texts of `svf` with openocd, where it is installed, on a model of a chain of test access ports behind its
remote_bitbang adapter: a full text configures the device, alone and beside an ARM port; a guard for another device ends
the call before anything is sent, and without it a device may get all."""
from __future__ import annotations

import os
import shutil
import socket
import tempfile
import threading

from runs import Bench, run
import streams

OPENOCD = shutil.which("openocd") or ""
IDCODE, CFG_IN, CFG_OUT, JPROGRAM, JSTART = 0x09, 0x05, 0x04, 0x0B, 0x0C
OTHER_IDCODE = 0x0362C093
# STAT with EOS and DONE, from the first bit of a scan on
STARTED = int(f"{1 << 4 | 1 << 14:032b}"[::-1], 2)

# IEEE 1149.1: the state after each one, for TMS 0 and 1
RESET, IDLE, SELECT_DR, CAPTURE_DR, SHIFT_DR, EXIT_DR, PAUSE_DR, EXIT2_DR, UPDATE_DR = range(9)
SELECT_IR, CAPTURE_IR, SHIFT_IR, EXIT_IR, PAUSE_IR, EXIT2_IR, UPDATE_IR = range(9, 16)
NEXT = [
    (IDLE, RESET), (IDLE, SELECT_DR), (CAPTURE_DR, SELECT_IR), (SHIFT_DR, EXIT_DR), (SHIFT_DR, EXIT_DR),
    (PAUSE_DR, UPDATE_DR), (PAUSE_DR, EXIT2_DR), (SHIFT_DR, UPDATE_DR), (IDLE, SELECT_DR), (CAPTURE_IR, RESET),
    (SHIFT_IR, EXIT_IR), (SHIFT_IR, EXIT_IR), (PAUSE_IR, UPDATE_IR), (PAUSE_IR, EXIT2_IR), (SHIFT_IR, UPDATE_IR),
    (IDLE, SELECT_DR),
]  # fmt: skip


class Port:
    """A test access port with an instruction register of some bits, and no more than IDCODE and BYPASS."""

    def __init__(self, bits: int, idcode: int) -> None:
        # the bits of the instruction register
        self.bits = bits
        self.idcode = idcode
        self.instruction = 0
        # what is shifted
        self.shifted = 0
        # how many bits are shifted
        self.size = 1

    def captures(self, is_instruction: bool) -> None:
        """Loads what is shifted out next."""
        if is_instruction:
            self.shifted, self.size = self.status(), self.bits
        else:
            self.shifted, self.size = self.data()

    def status(self) -> int:
        """What a scan of the instruction gives."""
        return 1

    def data(self) -> tuple[int, int]:
        """What a scan of data gives, and its bits."""
        return (self.idcode, 32) if self.instruction == -1 else (0, 1)

    def shift(self, tdi: int) -> int:
        """Takes a bit, and gives one."""
        tdo = self.shifted & 1
        self.shifted = self.shifted >> 1 | tdi << self.size - 1
        return tdo

    def update(self, is_instruction: bool) -> None:
        """Takes what was shifted in."""
        if is_instruction:
            self.instruction = self.shifted

    def reset(self) -> None:
        """Test-Logic-Reset: IDCODE is the instruction."""
        self.instruction = -1


class Device(Port):
    """A 7-series device, as far as a full text goes: what it got under CFG_IN, and how often it was reset."""

    def __init__(self, idcode: int) -> None:
        super().__init__(6, idcode)
        self.bits_in: list[int] = []  # under CFG_IN, since JPROGRAM
        # by JPROGRAM
        self.resets = 0
        # under JSTART
        self.clocks = 0

    def status(self) -> int:
        return 0x11 | (0x20 if self.clocks > 100 else 0)

    def data(self) -> tuple[int, int]:
        if self.instruction in (-1, IDCODE):
            return self.idcode, 32
        return (STARTED if self.clocks > 100 else 0, 32) if self.instruction == CFG_OUT else (0, 1)

    def shift(self, tdi: int) -> int:
        if self.instruction == CFG_IN and self.size == 1:
            self.bits_in.append(tdi)
        return super().shift(tdi)

    def update(self, is_instruction: bool) -> None:
        super().update(is_instruction)
        if is_instruction and self.instruction == JPROGRAM:
            self.resets, self.bits_in, self.clocks = self.resets + 1, [], 0

    def got(self, offset: int, count: int) -> bytes:
        """So many bytes under CFG_IN from a bit on, the first bit of each its highest."""
        bits = "".join(map(str, self.bits_in[offset : offset + 8 * count]))
        return int(bits or "0", 2).to_bytes(count, "big")


class Chain:
    """Ports in a row, from TDI to TDO, behind an adapter that openocd speaks to over a connection."""

    def __init__(self, ports: list[Port]) -> None:
        self.ports = ports
        # the state of all ports
        self.state = RESET
        # the level of TCK
        self.tck = 0
        self.reset()

    def reset(self) -> None:
        for it in self.ports:
            it.reset()

    def clock(self, tms: int, tdi: int) -> None:
        """A rising edge: what the state does, and the next state."""
        is_instruction = self.state in (CAPTURE_IR, SHIFT_IR, UPDATE_IR)
        if self.state in (CAPTURE_DR, CAPTURE_IR):
            for it in self.ports:
                it.captures(is_instruction)
        elif self.state in (SHIFT_DR, SHIFT_IR):
            for it in self.ports:
                tdi = it.shift(tdi)
        for it in self.ports:
            if self.state == IDLE and isinstance(it, Device) and it.instruction == JSTART:
                it.clocks += 1
        self.state = NEXT[self.state][tms]
        if self.state in (UPDATE_DR, UPDATE_IR):
            for it in self.ports:
                it.update(self.state == UPDATE_IR)
        elif self.state == RESET:
            self.reset()

    def pin(self) -> bytes:
        """TDO, which shows the bit that is shifted out next."""
        return b"1" if self.ports[-1].shifted & 1 else b"0"

    def serve(self, listener: socket.socket) -> None:
        """Answers one openocd until it leaves."""
        connection, _ = listener.accept()
        with connection:
            while True:
                orders = connection.recv(65536)
                if not orders or self.obey(connection, orders):
                    return

    def obey(self, connection: socket.socket, orders: bytes) -> bool:
        """Does orders of the adapter; says whether openocd leaves."""
        said = b""
        for order in orders:
            if 0x30 <= order <= 0x37:
                tck, tms, tdi = order >> 2 & 1, order >> 1 & 1, order & 1
                if tck and not self.tck:
                    self.clock(tms, tdi)
                self.tck = tck
            elif order == ord("R"):
                said += self.pin()
            elif order == ord("Q"):
                return True
        connection.sendall(said)
        return False


def play(bench: Bench, ports: list[Port], *texts: str) -> tuple[int | None, str]:
    """Lets openocd play texts on a chain: its status, and what it says."""
    with socket.socket() as listener:
        listener.bind(("127.0.0.1", 0))
        listener.listen(1)
        taps = "".join(f"jtag newtap t{at} tap -irlen {it.bits}; " for at, it in enumerate(reversed(ports)))
        port = listener.getsockname()[1]
        where = f"adapter driver remote_bitbang; remote_bitbang host 127.0.0.1; remote_bitbang port {port}"
        closed = "gdb_port disabled; tcl_port disabled; telnet_port disabled"
        thread = threading.Thread(target=Chain(ports).serve, args=(listener,), daemon=True)
        thread.start()
        plays = "; ".join(f"svf {it}" for it in texts)
        orders = f"{where}; {closed}; transport select jtag; {taps}init; {plays}; shutdown"
        came = run(bench.folder, [OPENOCD, "-c", orders])
        thread.join(10)
    return came.status, came.err.decode(errors="replace")


def make(bench: Bench) -> None:
    """The texts of a stream, for a device alone and in a chain."""
    bench.put("full.bit", streams.bit(streams.full()))
    forms: list[tuple[str, list[str]]] = [("full", []), ("guard", ["--guard"])]
    for name, options in forms:
        bench.make(f"{name}.svf", "svf", *options, "full.bit")
        bench.make(f"{name}.arm.svf", "svf", "--trailer", "4", *options, "full.bit")
        bench.make(f"{name}.row.svf", "svf", "--header", "5", "--trailer", "4", "--header", "8", *options, "full.bit")


def plays(bench: Bench) -> None:
    """The device gets the stream, and nothing else before the read of STAT, wherever it stands in the chain."""
    data = streams.data_of(streams.full())
    chains: list[tuple[str, list[int], list[int]]] = [("", [], []), (".arm", [4], []), (".row", [4], [5, 8])]
    for ending, before, after in chains:
        device = Device(streams.IDCODE)
        ports = [*(Port(it, 0x4BA00477) for it in before), device, *(Port(it, 0x0BAD0FED) for it in after)]
        status, said = play(bench, ports, f"guard{ending}.svf", f"full{ending}.svf")
        bench.tally.check(f"chain '{ending}': openocd's status", status == 0, said[-600:])
        # a bit of each other device comes first
        came = device.got(len(before) + len(after), len(data))
        bench.tally.check(f"chain '{ending}': the stream", came == data and device.resets == 1, said[-300:])


def guards(bench: Bench) -> None:
    """A guard for another device ends the call, and nothing was sent."""
    chains: list[tuple[str, list[int]]] = [("", []), (".arm", [4])]
    for ending, before in chains:
        device = Device(OTHER_IDCODE)
        ports = [*(Port(it, 0x4BA00477) for it in before), device]
        status, said = play(bench, ports, f"guard{ending}.svf", f"full{ending}.svf")
        has_failed = status not in (0, None) and "tdo check error" in said
        bench.tally.check(f"chain '{ending}': openocd fails", has_failed, said[-600:])
        bench.tally.same(f"chain '{ending}': the device got", (device.resets, len(device.bits_in)), (0, 0))
    device = Device(OTHER_IDCODE)
    status, said = play(bench, [device], "full.svf")
    bench.tally.check("without a guard openocd fails too", status not in (0, None), said[-600:])


with tempfile.TemporaryDirectory() as FOLDER:
    BENCH = Bench(FOLDER)
    if OPENOCD:
        for part in (make, plays, guards):
            part(BENCH)
    else:
        BENCH.tally.skip("there is no openocd")
    BENCH.tally.end()
