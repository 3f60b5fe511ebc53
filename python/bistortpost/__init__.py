"""MQTT 5.0 clients over a protocol layer that is proved: `Client` for calls that wait, `aio.Client` for asyncio."""

from . import aio
from .client import Client
from .errors import ConnectionLost, Fault, LetGo, MqttError, Refused, SessionLost, TooLarge
from .values import Message, Properties, Subscription, Will

__all__ = [
    "Client",
    "ConnectionLost",
    "Fault",
    "LetGo",
    "Message",
    "MqttError",
    "Properties",
    "Refused",
    "SessionLost",
    "Subscription",
    "TooLarge",
    "Will",
    "aio",
]
