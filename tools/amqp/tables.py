"""The tables of the performatives: of each field its name, its type, and whether it is mandatory or has a default (AMQP 1.0 part 2, section 2.7)."""

MUST, MAY = "must", "may"
TABLES = {
    0x10: ("Open", [("container_id", "string", MUST), ("hostname", "string", MAY), ("max_frame_size", "number", 4294967295),
        ("channel_max", "number", 65535), ("idle_time_out", "number", MAY), ("outgoing_locales", "symbols", MAY),
        ("incoming_locales", "symbols", MAY), ("offered_capabilities", "symbols", MAY), ("desired_capabilities", "symbols", MAY),
        ("properties", "map", MAY)]),
    0x11: ("Begin", [("remote_channel", "number", MAY), ("next_outgoing_id", "number", MUST), ("incoming_window", "number", MUST),
        ("outgoing_window", "number", MUST), ("handle_max", "handle", 4294967295), ("offered_capabilities", "symbols", MAY),
        ("desired_capabilities", "symbols", MAY), ("properties", "map", MAY)]),
    0x12: ("Attach", [("name", "string", MUST), ("handle", "handle", MUST), ("role", "role", MUST), ("snd_settle_mode", "sender", 2),
        ("rcv_settle_mode", "receiver", 0), ("source", "raw", MAY), ("target", "raw", MAY), ("unsettled", "map", MAY),
        ("incomplete_unsettled", "flag", False), ("initial_delivery_count", "number", MAY), ("max_message_size", "number", MAY),
        ("offered_capabilities", "symbols", MAY), ("desired_capabilities", "symbols", MAY), ("properties", "map", MAY)]),
    0x13: ("Flow", [("next_incoming_id", "number", MAY), ("incoming_window", "number", MUST), ("next_outgoing_id", "number", MUST),
        ("outgoing_window", "number", MUST), ("handle", "handle", MAY), ("delivery_count", "number", MAY), ("link_credit", "number", MAY),
        ("available", "number", MAY), ("drain", "flag", False), ("echo", "flag", False), ("properties", "map", MAY)]),
    0x14: ("Transfer", [("handle", "handle", MUST), ("delivery_id", "number", MAY), ("delivery_tag", "tag", MAY),
        ("message_format", "number", MAY), ("settled", "flag", MAY), ("more", "flag", False), ("rcv_settle_mode", "receiver", MAY),
        ("state", "raw", MAY), ("resume", "flag", False), ("aborted", "flag", False), ("batchable", "flag", False)]),
    0x15: ("Disposition", [("role", "role", MUST), ("first", "number", MUST), ("last", "number", MAY), ("settled", "flag", False),
        ("state", "raw", MAY), ("batchable", "flag", False)]),
    0x16: ("Detach", [("handle", "handle", MUST), ("closed", "flag", False), ("error", "error", MAY)]),
    0x17: ("End", [("error", "error", MAY)]),
    0x18: ("Close", [("error", "error", MAY)]),
}
ERROR = ("Error", [("condition", "symbol", MUST), ("description", "string", MAY), ("info", "map", MAY)])
