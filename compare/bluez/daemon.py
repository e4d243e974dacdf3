"""BlueZ's `bluetooth-meshd` on a D-Bus of its own with the test transport, and an application on it with two elements.

The application is the provisioner and the configuration client. All of it runs in one thread: `Daemon.until` lets D-Bus and the bridge work.
"""
import os
import subprocess
import time
from collections.abc import Callable
from dataclasses import dataclass
from pathlib import Path
from typing import Any

import dbus
import dbus.bus
import dbus.service
from air.unit import UnitBridge
from dbus.mainloop.glib import DBusGMainLoop
from gi.repository import GLib

DBusGMainLoop(set_as_default=True)
HERE = Path(__file__).resolve().parent
MESHD = '/usr/libexec/bluetooth/bluetooth-meshd'
OBJECTS = 'org.freedesktop.DBus.ObjectManager'
PROPERTIES = 'org.freedesktop.DBus.Properties'
MESH = 'org.bluez.mesh.'
ROOT = '/check'
# Configuration Client, and the servers and clients of OnOff and Level
MODELS = ([0x0001, 0x1000, 0x1001, 0x1002, 0x1003], [0x1001, 0x1003])


def octets(data: bytes) -> dbus.Array:
    """Octets as D-Bus has them."""
    return dbus.Array([dbus.Byte(x) for x in data], signature='y')


@dataclass(frozen=True)
class Received:
    """A message that the application was handed. `key` is `dev`, `local` or `app:` and an index; `dst` is a label for a virtual address."""
    when: float
    key: str
    element: int
    src: int
    dst: str
    payload: bytes


class Application(dbus.service.Object):
    """What meshd asks of an application."""

    def __init__(self, daemon: 'Daemon') -> None:
        self.daemon = daemon
        dbus.service.Object.__init__(self, daemon.bus, ROOT)

    @dbus.service.method(OBJECTS, in_signature='', out_signature='a{oa{sa{sv}}}')
    def GetManagedObjects(self):  # noqa: ANN201, N802 - D-Bus reads the name
        """The application, its provisioner and its elements."""
        numbers = {name: dbus.UInt16(number) for name, number in
                   (('CompanyID', 0x05f1), ('ProductID', 1), ('VersionID', 1), ('CRPL', 0x7fff))}
        found = {dbus.ObjectPath(ROOT): {MESH + 'Application1': numbers, MESH + 'Provisioner1': {}}}
        for element in self.daemon.elements:
            found[dbus.ObjectPath(element.path)] = {MESH + 'Element1': element.properties()}
        return found

    @dbus.service.method(MESH + 'Application1', in_signature='t', out_signature='')
    def JoinComplete(self, token):  # noqa: ANN001, ANN201, N802
        """The network was made."""
        self.daemon.token = int(token)

    @dbus.service.method(MESH + 'Application1', in_signature='s', out_signature='')
    def JoinFailed(self, reason):  # noqa: ANN001, ANN201, N802
        """It wasn't."""
        self.daemon.note(f'join failed: {reason}')


class Element(dbus.service.Object):
    """An element of the application."""

    def __init__(self, daemon: 'Daemon', index: int) -> None:
        self.daemon, self.index = daemon, index
        self.path = f'{ROOT}/ele{index:02x}'
        dbus.service.Object.__init__(self, daemon.bus, self.path)

    def properties(self) -> dict[str, Any]:
        """Its models."""
        models = [(dbus.UInt16(m), dbus.Dictionary({}, signature='sv')) for m in MODELS[self.index]]
        return {'Index': dbus.Byte(self.index), 'Models': dbus.Array(models, signature='(qa{sv})'),
                'VendorModels': dbus.Array([], signature='(qqa{sv})')}

    @dbus.service.method(MESH + 'Element1', in_signature='qqvay', out_signature='')
    def MessageReceived(self, source, key_index, destination, data):  # noqa: ANN001, ANN201, N802
        """A message under an application key."""
        dst = bytes(destination).hex() if isinstance(destination, dbus.Array) else f'{int(destination):04x}'
        self.daemon.receive(f'app:{int(key_index):03x}', self.index, int(source), dst, bytes(data))

    @dbus.service.method(MESH + 'Element1', in_signature='qbqay', out_signature='')
    def DevKeyMessageReceived(self, source, remote, net_index, data):  # noqa: ANN001, ANN201, N802
        """A message under a device key."""
        self.daemon.receive('dev' if remote else 'local', self.index, int(source), f'net:{int(net_index):03x}', bytes(data))

    @dbus.service.method(MESH + 'Element1', in_signature='qa{sv}', out_signature='')
    def UpdateModelConfiguration(self, model, config):  # noqa: ANN001, ANN201, N802
        """Bindings and subscriptions of a model changed."""


class Daemon:
    """meshd, its D-Bus and the application."""

    def __init__(self, folder: Path, shim: Path, over: UnitBridge, hours: float) -> None:
        self.folder, self.shim, self.over, self.hours = folder, shim, over, hours
        self.received: list[Received] = []
        self.token: int | None = None
        self.meshd: subprocess.Popen[bytes] | None = None
        self.log_file = folder / 'meshd.log'
        (folder / 'storage').mkdir()
        self.log_file.touch()
        self.address = f'unix:path={folder}/bus'
        self._bus_process = subprocess.Popen(['dbus-daemon', '--session', '--nofork', '--nopidfile', f'--address={self.address}'],
                                             stdout=subprocess.DEVNULL, stderr=subprocess.DEVNULL)
        if not self.until(lambda: (folder / 'bus').exists(), 10):
            raise RuntimeError('dbus-daemon did not start')
        self.pump(0.3)
        self.bus = dbus.bus.BusConnection(self.address)
        self.elements = [Element(self, index) for index in range(len(MODELS))]
        self.application = Application(self)

    def note(self, text: str) -> None:
        """A line of the log."""
        self.over.note(f'application: {text}')

    def receive(self, key: str, element: int, src: int, dst: str, payload: bytes) -> None:
        """Keeps a message."""
        self.received.append(Received(time.monotonic(), key, element, src, dst, payload))
        self.note(f'element {element}, {key}, {src:04x} to {dst}: {payload.hex()}')

    # Time

    def until(self, is_done: Callable[[], Any], seconds: float) -> bool:
        """Whether it was done before so many seconds passed."""
        end = time.monotonic() + seconds
        context = GLib.MainContext.default()
        while True:
            while context.pending():
                context.iteration(False)
            self.over.step()
            if is_done():
                return True
            if time.monotonic() > end:
                return False
            time.sleep(0.01)

    def pump(self, seconds: float) -> None:
        """Lets so many seconds pass."""
        self.until(lambda: False, seconds)

    # The process

    def start(self) -> None:
        """Starts meshd."""
        unit = str(self.over.socket.path)
        env = dict(os.environ, DBUS_SESSION_BUS_ADDRESS=self.address, UNIT_PATH=unit, LD_PRELOAD=str(self.shim), MESHD_LONG=f'{self.hours:.0f}')
        with open(self.log_file, 'ab') as out:
            self.meshd = subprocess.Popen(
                [MESHD, '--nodetach', '--debug', '--storage', str(self.folder / 'storage'), '--config', str(HERE / 'mesh-main.conf'),
                 '--io', f'unit:{unit}'], env=env, stdout=out, stderr=out)
        self.until(lambda: self.bus.name_has_owner('org.bluez.mesh') or self.meshd.poll() is not None, 20)
        if self.meshd.poll() is not None:
            raise RuntimeError(f'meshd did not start: {self.log_text()[-1000:]}')
        self.pump(0.5)
        self.network = self.bus.get_object('org.bluez.mesh', '/org/bluez/mesh', introspect=False)

    def stop(self) -> None:
        """Ends meshd in order."""
        assert self.meshd
        self.meshd.terminate()
        self.meshd.wait(10)
        self.until(lambda: not self.bus.name_has_owner('org.bluez.mesh'), 5)

    def close(self) -> None:
        """Ends all of it."""
        if self.meshd and self.meshd.poll() is None:
            self.stop()
        self._bus_process.terminate()
        self._bus_process.wait(5)

    def log_text(self) -> str:
        """What meshd logged."""
        return self.log_file.read_text(encoding='utf-8', errors='replace')

    # Calls

    def _call(self, place: Any, interface: str, method: str, *words: Any) -> Any:
        box: list[Any] = []
        place.get_dbus_method(method, dbus_interface=interface)(
            *words, reply_handler=lambda *found: box.append(found), error_handler=box.append, timeout=20)
        if not self.until(lambda: box, 25):
            raise RuntimeError(f'no answer to {method}')
        if isinstance(box[0], Exception):
            raise box[0]
        return box[0]

    def create(self, uuid: bytes) -> None:
        """Makes a network with this node as its first."""
        self._call(self.network, MESH + 'Network1', 'CreateNetwork', dbus.ObjectPath(ROOT), octets(uuid))
        if not self.until(lambda: self.token is not None, 10):
            raise RuntimeError('the network was not made')

    def attach(self) -> None:
        """Takes up the node."""
        assert self.token is not None
        path, _ = self._call(self.network, MESH + 'Network1', 'Attach', dbus.ObjectPath(ROOT), dbus.UInt64(self.token))
        self.node = self.bus.get_object('org.bluez.mesh', path, introspect=False)

    def manage(self, method: str, *words: Any) -> Any:
        """A call of the management of keys."""
        return self._call(self.node, MESH + 'Management1', method, *words)

    def keys(self, method: str, *indexes: int) -> None:
        """A call of the management of keys with key indexes alone."""
        self.manage(method, *map(dbus.UInt16, indexes))

    def set_phase(self, subnet: int, phase: int) -> None:
        """Sets the phase of a Key Refresh in meshd's store of keys."""
        self.manage('SetKeyPhase', dbus.UInt16(subnet), dbus.Byte(phase))

    def subnet(self, index: int) -> bytes:
        """The network key that meshd transmits with."""
        keys = self.manage('ExportKeys')[0]['NetKeys']
        return next(bytes(row[1]) for row in keys if int(row[0]) == index)

    def of_node(self, name: str) -> Any:
        """A property of meshd's node."""
        return self._call(self.node, PROPERTIES, 'Get', MESH + 'Node1', name)[0]

    def _node(self, method: str, element: int, *words: Any) -> Any:
        return self._call(self.node, MESH + 'Node1', method, dbus.ObjectPath(self.elements[element].path), *words)

    def dev_send(self, dst: int, payload: bytes, net: int = 0) -> None:
        """A message under a device key."""
        self.note(f'under the device key to {dst:04x}: {payload.hex()}')
        self._node('DevKeySend', 0, dbus.UInt16(dst), dbus.Boolean(True), dbus.UInt16(net), dbus.Dictionary({}, signature='sv'), octets(payload))

    def send(self, dst: int, app: int, payload: bytes, element: int = 0, segmented: bool = False) -> None:
        """A message under an application key."""
        self.note(f'to {dst:04x}: {payload.hex()}')
        options = {'ForceSegmented': dbus.Boolean(True)} if segmented else {}
        self._node('Send', element, dbus.UInt16(dst), dbus.UInt16(app), dbus.Dictionary(options, signature='sv'), octets(payload))

    def publish(self, model: int, payload: bytes) -> None:
        """A message to where a model of the first element publishes."""
        self.note(f'published by {model:04x}: {payload.hex()}')
        self._node('Publish', 0, dbus.UInt16(model), dbus.Dictionary({}, signature='sv'), octets(payload))

    def add_app_key(self, dst: int, app: int, net: int = 0, update: bool = False) -> None:
        """AppKey Add or Update, made by meshd."""
        self._node('AddAppKey', 0, dbus.UInt16(dst), dbus.UInt16(app), dbus.UInt16(net), dbus.Boolean(update))

    def add_net_key(self, dst: int, subnet: int, net: int = 0, update: bool = False) -> None:
        """NetKey Add or Update, made by meshd."""
        self._node('AddNetKey', 0, dbus.UInt16(dst), dbus.UInt16(subnet), dbus.UInt16(net), dbus.Boolean(update))
