"""What the debug adapter offers, and the protocol's words for it."""

from __future__ import annotations

from mm.debugger.points import PointKind

CAN = {
    "supportsConfigurationDoneRequest": True,
    "supportsFunctionBreakpoints": True,
    "supportsConditionalBreakpoints": True,
    "supportsDataBreakpoints": True,
    "supportsEvaluateForHovers": True,
    "supportsStepBack": True,
    "supportsReadMemoryRequest": True,
    "supportsDisassembleRequest": True,
    "supportsRestartRequest": True,
    "supportsTerminateRequest": True,
    "exceptionBreakpointFilters": [
        {"filter": "fault", "label": "Faults", "default": True},
        {"filter": "entry", "label": "Entries of gates", "default": False},
    ],
}
FILTERS = {"fault": PointKind.FAULT, "entry": PointKind.ENTRY}
ACCESSES = {"read": PointKind.READ, "write": PointKind.WATCH, "readWrite": PointKind.ACCESS}
REASONS = {PointKind.BREAK: "breakpoint", PointKind.FAULT: "exception", PointKind.ENTRY: "breakpoint"}
