#!/usr/bin/python3
"""A Modbus server of the distribution's pymodbus, which checks/converters runs. Its arguments are `tcp` and a port, or `rtu` and a device, and
then a folder. In the folder the file `value` has the 32 bits that are in the registers 0 and 1 as hexadecimal digits. `status` has those of register 2. `does`
is empty, or has `exception`, or the seconds that an answer takes."""

import logging
import os
import sys
import time

from pymodbus.datastore import ModbusSequentialDataBlock, ModbusServerContext, ModbusSlaveContext
from pymodbus.framer.rtu_framer import ModbusRtuFramer
from pymodbus.server import StartSerialServer, StartTcpServer

kind, place, folder = sys.argv[1:]


def said(name: str) -> str:
    with open(os.path.join(folder, name)) as it:
        return it.read().strip()


class Registers(ModbusSequentialDataBlock):  # type: ignore[misc]
    def validate(self, address: int, count: int = 1) -> bool:
        return said("does") != "exception"

    def getValues(self, address: int, count: int = 1) -> list[int]:
        if does := said("does"):
            time.sleep(float(does))
        value = int(said("value"), 16)
        return [value >> 16, value & 0xFFFF, int(said("status"), 16)][address : address + count]


logging.disable(logging.CRITICAL)
registers = Registers(0, [0] * 3)
slave = ModbusSlaveContext(hr=registers, ir=registers, zero_mode=True)
context = ModbusServerContext(slave, single=True)
if kind == "tcp":
    StartTcpServer(context=context, address=("127.0.0.1", int(place)), allow_reuse_address=True)
else:
    StartSerialServer(
        context=context, framer=ModbusRtuFramer, port=place, baudrate=19200, timeout=0.005
    )
