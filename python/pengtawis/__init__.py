"""Pengtawis: where drivers are that crash and restart. docs/guide/python.md is its page.

A `Store`, an `Rs`, a `Map` and the driver tables are in this process, over libds; threads share a store at a `Desk`. A `Client` and an
`AsyncClient` send lines to a dsfleet or a dsrs, and an `Instance` is the side of a process that dsrs started.
Every refusal is an exception, and is raised. Those that come with actions of RS, with moves of a table or in the list of
`Store.publish_all` are only returned.
"""
from .client import AsyncClient, Client
from .desk import Desk, Notices, Seat
from .instance import Instance
from .map import Entry, Map
from .publisher import Publisher
from .refusals import (
    Ahead, AlreadyUp, Assigned, BadCause, BadFirst, BadItems, BadKind, BadLabel, BadLine, BadPattern, BadRing, BadSub,
    BadVersion, Behind, Clash, Exists, Full, GenerationsSpent, IsBusy, IsClosed, IsOpen, Missing, NoCaller, NoDevice, NoLines, NoRoom,
    NoSeat, NoSlot, NotAllowed, NotFound, NotOwner, NotPending, NotSender, NotUp, OldCursor, OldEndpoint, OutOfRange, Refused, SharedName,
    Stale, TickBack, Toml, TooLong, TooMany, TwoIds, TwoLabels, TwoUnits, UnknownField, UnknownLabel, Worn,
)
from .rs import Acted, Action, Cause, Class, GiveUp, Kill, Offer, Ping, Rs, Service, Start, State, Sweep
from .store import Store
from .table import Fail, FileTable, Finish, Hold, Move, Moved, NetworkTable, Send, StartPort
from .values import (
    RS, Change, Cursor, Done, Endpoint, Floor, Items, Merged, Page, Reading, Subscribed, Swept, Value, Version, read_item,
)
from .watch import Anew, Watch

__all__ = [
    "Anew", "AsyncClient", "BadItems", "BadLine", "Client", "Desk", "Notices", "Seat", "FileTable", "Instance", "Map", "NetworkTable",
    "Publisher", "Rs", "Store", "RS", "Change", "Cursor", "Done", "Endpoint", "Floor", "Items", "Merged", "Page", "Reading",
    "Subscribed", "Swept", "Value", "Version", "read_item", "Acted", "Action", "Cause", "Class", "GiveUp", "Kill", "Offer", "Ping",
    "Service", "Start", "State", "Sweep", "Fail", "Finish", "Hold", "Move", "Moved", "Send", "StartPort", "Ahead", "AlreadyUp",
    "Assigned", "BadCause", "BadFirst", "BadKind", "BadLabel", "BadPattern", "BadRing", "BadSub", "BadVersion", "Behind", "Clash",
    "Exists", "Full", "GenerationsSpent", "IsBusy", "IsClosed", "IsOpen", "Missing", "NoCaller", "NoDevice", "NoLines", "NoRoom",
    "NoSeat", "NoSlot", "NotAllowed", "NotFound", "NotOwner", "NotPending", "NotSender", "NotUp", "OldCursor", "OldEndpoint", "OutOfRange",
    "Refused", "SharedName", "Stale", "TickBack", "Toml", "TooLong", "TooMany", "TwoIds", "TwoLabels", "TwoUnits", "UnknownField",
    "UnknownLabel", "Watch", "Worn",
]
