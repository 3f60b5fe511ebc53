"""Why a call is refused."""

from __future__ import annotations

from ._library import PACKET_TOO_LARGE
from .names import FAULTS, REASONS
from .values import Message


class MqttError(Exception):
    """What every refusal is one of."""


class Refused(MqttError):
    """The broker refused: `reason` is its reason code, `name` the standard's name of it, `text` its reason string."""

    def __init__(self, what: str, reason: int, text: str | None = None):
        name = REASONS.get(reason, "unknown reason")
        super().__init__(f"the broker refused {what}: {name} ({reason})" + (f": {text}" if text else ""))
        self.reason, self.name, self.text = reason, name, text


class Fault(MqttError):
    """The session refused: `code` is what the library answered, `name` its name; `text` says of what, where that is known."""

    def __init__(self, code: int, text: str | None = None):
        name = FAULTS.get(code, "unknown fault")
        super().__init__(f"{name} ({code})" + (f": {text}" if text else ""))
        self.code, self.name, self.text = code, name, text


class ConnectionLost(MqttError):
    """The connection ended, and isn't opened again."""


class LetGo(MqttError):
    """A message that awaited its answer is let go: `message` has its topic, payload, QoS, retain and properties, and dup,
    since it was sent before."""

    message: Message | None


class SessionLost(LetGo):
    """The broker lost the session: of this message of QoS 2 nobody knows whether it arrived. `message` is None where the
    broker has it, and only the release of its packet identifier was under way."""

    def __init__(self, what: str, message: Message | None):
        super().__init__(what)
        self.message = message


class TooLarge(LetGo, Fault):
    """The message can't be sent again: it is over the packet size that the broker takes now."""

    def __init__(self, message: Message):
        Fault.__init__(self, PACKET_TOO_LARGE)
        self.message = message
