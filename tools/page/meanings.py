"""What the names of refusals mean: the section of the standard, AMQP 1.0, and a sentence. Those of the engine, and those of judging.py."""

ENDS = "the other side ended first, which is no breach: this side has to answer"
MEANINGS = {
    "AfterClose": ("part 2, section 2.7.9", "Its side had sent a Close, after which nothing may be sent."),
    "ChannelInUse": ("part 2, section 2.5.1", "A session of its side stands on this channel: a Begin needs one that is free."),
    "ChannelTooHigh": ("part 2, section 2.7.1", "The channel is past the channel-max of the other side's Open."),
    "DecodeError": ("part 1, section 1.6, and part 2, section 2.3", "The bytes cannot be read: a value, a field or the frame is malformed."),
    "DeliveryId": ("part 2, section 2.7.5", "The delivery-id is missing, is not the next of its session, or changes within a delivery."),
    "FrameTooLong": ("part 2, section 2.7.1", "The frame is longer than the max-frame-size of the other side's Open."),
    "HandleInUse": ("part 2, section 2.7.3", "Another link of its side has this handle: an Attach needs one that is free."),
    "IllegalState": ("part 2, sections 2.4.6 and 2.5.5", "The connection or the session is in a state in which this may not come."),
    "NameInUse": ("part 2, section 2.6.1", "A link of this name and role is attached already."),
    "NotFound": ("part 2, section 2.5.1", "There is no session on this channel, or no Begin that this one could answer."),
    "NotImplemented": ("part 2, section 2.3.2", "The frame has another type, or a longer header, than those that the engine reads."),
    "NotRead": (None, "The frame is longer than what is kept of one: its end was not looked at."),
    "OutOfMemory": (None, "The program had no memory for it: that says nothing about the frame."),
    "RemoteAttachingLinkNameNotFound": ("part 2, section 2.6.3", "No link of this name was asked for by this side."),
    "RemoteClosed": ("part 2, section 2.4.3", f"A Close: {ENDS}."),
    "RemoteClosedWithError": ("part 2, section 2.4.3", f"A Close with an error: {ENDS}."),
    "RemoteEnded": ("part 2, section 2.5.2", f"An End: {ENDS}."),
    "RemoteEndedWithError": ("part 2, section 2.5.4", f"An End with an error: {ENDS}."),
    "TransferFrameToSender": ("part 2, section 2.6.12", "A transfer goes from a link's sender to its receiver, and this one goes to the sender."),
    "UnattachedHandle": ("part 2, section 2.8.17", "No link of its side has this handle: it was not attached, or is detached already."),
    "UnknownTxnId": ("part 4, section 4.5.8", "No transaction has this id."),
    "WindowViolation": ("part 2, section 2.5.6", "The transfer is past the window that the other side gave."),
    "bad line": (None, "The program cannot read the line that stands for this frame."),
}
